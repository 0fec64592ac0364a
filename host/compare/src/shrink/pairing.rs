//! Pairing calls and questions about their ends, one step simpler.

use super::{parts, simpler_lists, simpler_words, Shrink};
use answers::{PairingCall, WhyCall};
use std::collections::HashMap;
use std::ops::Range;

impl Shrink for PairingCall {
    fn simpler(&self) -> Box<dyn Iterator<Item = Self> + '_> {
        let ends = parts(self.ends()).map(|part| without_ends(self, part));
        let limits = simpler_words(self.limit)
            .filter(|&limit| (-1.0..=1.0).contains(&f64::from_bits(limit)))
            .map(|limit| PairingCall { limit, ..self.clone() });
        let words = simpler_lists(&self.directions)
            .map(|directions| PairingCall { directions, ..self.clone() });
        Box::new(ends.chain(renumbered(self)).chain(limits).chain(words))
    }
}

impl Shrink for WhyCall {
    fn simpler(&self) -> Box<dyn Iterator<Item = Self> + '_> {
        let d = self.pairing.ends();
        let fewer = parts(d).filter_map(|part| without_others(self, part));
        let same_ends = self.pairing.simpler().filter(move |simpler| simpler.ends() == d);
        let simpler = same_ends.map(|pairing| WhyCall { pairing, ends: self.ends });
        Box::new(fewer.chain(simpler))
    }
}

/// The question without some ends that it is not about; those behind them move up.
fn without_others(call: &WhyCall, part: Range<usize>) -> Option<WhyCall> {
    let asked = call.ends.iter().any(|&end| part.contains(&(end as usize)));
    let moved = |end: u32| match end as usize >= part.end {
        true => end - part.len() as u32,
        false => end,
    };
    let ends = call.ends.map(moved);
    (!asked).then(|| WhyCall { pairing: without_ends(&call.pairing, part), ends })
}

fn without_ends(call: &PairingCall, part: Range<usize>) -> PairingCall {
    let mut without = call.clone();
    without.present.drain(part.clone());
    without.directions.drain(2 * part.start..2 * part.end);
    without.pieces.drain(part);
    without
}

/// The call with its pieces numbered from 0 in order of first appearance, unless they are so.
fn renumbered(call: &PairingCall) -> Option<PairingCall> {
    let mut numbers = HashMap::new();
    let mut number = |&piece: &u32| {
        let next = numbers.len() as u32;
        *numbers.entry(piece).or_insert(next)
    };
    let pieces: Vec<u32> = call.pieces.iter().map(&mut number).collect();
    (pieces != call.pieces).then(|| PairingCall { pieces, ..call.clone() })
}
