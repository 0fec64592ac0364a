//! A call that differs, made small: one simplification after another is kept as long as the call
//! still differs.

mod building;
mod checks;
mod pairing;
mod windows;
mod zooms;

use std::iter::successors;
use std::ops::Range;

/// The most calls that are tried.
const TRIES: usize = 20_000;

/// Something that can be made simpler step by step.
pub trait Shrink: Clone {
    /// Every call that is one step simpler, large steps first. No run of steps is endless.
    fn simpler(&self) -> Box<dyn Iterator<Item = Self> + '_>;
}

/// The smallest call found that still differs.
pub fn shrink<C: Shrink>(call: C, mut differs: impl FnMut(&C) -> bool) -> C {
    let mut least = call;
    let mut tries = TRIES;
    loop {
        let mut still = |candidate: &C| {
            tries > 0 && {
                tries -= 1;
                differs(candidate)
            }
        };
        let next = least.simpler().find(|candidate| still(candidate));
        match next {
            Some(next) => least = next,
            None => return least,
        }
    }
}

/// The parts of a list that are taken out by turns: halves, quarters, and so on to single items.
fn parts(length: usize) -> impl Iterator<Item = Range<usize>> {
    let half = |size: usize| size - size / 2;
    let sizes = successors(Some(half(length)), move |&size| (size > 1).then(|| half(size)));
    let of_size = move |size: usize| {
        (0..length).step_by(size.max(1)).map(move |first| first..length.min(first + size))
    };
    sizes.flat_map(of_size)
}

/// The words that a word may be replaced by, all of them simpler than it.
fn simpler_words(word: u64) -> impl Iterator<Item = u64> {
    const SIMPLE: [f64; 16] =
        [0.0, 1.0, 2.0, 3.0, 4.0, 5.0, 6.0, 7.0, 8.0, -1.0, -2.0, -0.0, 0.5, 0.25, -0.5, 1.5];
    SIMPLE.into_iter().map(f64::to_bits).take_while(move |&simple| simple != word)
}

/// The distinct words of a list.
fn distinct(words: &[u64]) -> Vec<u64> {
    let mut words = words.to_vec();
    words.sort_unstable();
    words.dedup();
    words
}

/// The list with one word replaced by another wherever it stands.
fn replaced(words: &[u64], old: u64, new: u64) -> Vec<u64> {
    words.iter().map(|&word| if word == old { new } else { word }).collect()
}

/// The lists in which a distinct word is replaced by a simpler one.
fn simpler_lists(words: &[u64]) -> impl Iterator<Item = Vec<u64>> + '_ {
    let with = move |old: u64| simpler_words(old).map(move |new| replaced(words, old, new));
    distinct(words).into_iter().flat_map(with)
}
