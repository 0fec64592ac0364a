//! Chains woven from lines that meet, whatever building would have joined.

use super::{laid_out, Made, VARIANTS};
use crate::call::BuildCall;
use crate::delivered::CheckCall;
use crate::model::plane::{cell_key, exact_key, Key, Point};
use crate::random::Random;

/// Chains of a call's lines: from a line on to any other that its end meets, as long as chance says.
pub fn woven(random: &mut Random, lines: &BuildCall) -> Vec<Made> {
    let firsts = lines.firsts();
    let ends: Vec<Vec<Point>> =
        (0..lines.lines()).map(|line| lines.points(line, firsts[line])).collect();
    let mut left: Vec<usize> = (0..lines.lines()).collect();
    random.shuffle(&mut left);
    let mut chains = Vec::new();
    while let Some(start) = left.pop() {
        let (mut listing, mut turned) = (vec![start as u32], vec![false]);
        if !lines.passes(start) {
            turned[0] = random.one_in(2);
            while !random.one_in(6) {
                let last = &ends[listing[listing.len() - 1] as usize];
                let end = if turned[turned.len() - 1] { last[0] } else { last[last.len() - 1] };
                let (place, back) = match next(lines, &ends, &left, start, end) {
                    None => break,
                    Some(next) => next,
                };
                listing.push(left.swap_remove(place) as u32);
                turned.push(back);
            }
        }
        chains.push(Made::of(lines, listing, turned));
    }
    chains
}

/// The place of a line of the same group that begins or, turned, ends where the point is.
fn next(
    lines: &BuildCall,
    ends: &[Vec<Point>],
    left: &[usize],
    start: usize,
    point: Point,
) -> Option<(usize, bool)> {
    let tolerance = f64::from_bits(lines.tolerance);
    let key = |point: Point| -> Key {
        match tolerance > 0.0 {
            true => cell_key(0, point, lines.origin, tolerance),
            false => exact_key(0, point),
        }
    };
    let fits = |(place, &line): (usize, &usize)| {
        if lines.passes(line) || lines.groups[line] != lines.groups[start] {
            return None;
        }
        let run = &ends[line];
        let at = |end: Point| key(end) == key(point);
        if at(run[0]) {
            Some((place, false))
        } else if at(run[run.len() - 1]) {
            Some((place, true))
        } else {
            None
        }
    };
    left.iter().enumerate().find_map(fits)
}

/// Few points, of which lines read alike both ways, or nearly so.
const ALPHABETS: [&[(f64, f64)]; 6] = [
    &[(0.0, 0.0), (1.0, 0.0)],
    &[(0.0, 0.0), (-0.0, 0.0), (1.0, 0.0)],
    &[(0.0, 0.0), (-0.0, -0.0), (0.0, 1.0), (-0.0, 1.0)],
    &[(0.0, 0.0), (0.25, 0.0), (1.0, 0.0)],
    &[(0.0, 0.0), (0.5, 0.5), (1.0, 0.0), (1.5, 0.5)],
    &[(3.0, 3.0)],
];

/// Up to so many lines of few points, in chains whose lines may be travelled in many ways, with what
/// contractors do to them.
pub fn ambiguous(random: &mut Random, lines: usize) -> (&'static str, CheckCall) {
    let mut call = BuildCall::default();
    let alphabet = random.pick(&ALPHABETS);
    let longest = random.pick(&[2, 3, 3, 4, 6]);
    for _ in 0..lines {
        let points = 2 + random.below(longest - 1);
        let line: Vec<_> = (0..points).map(|_| random.pick(alphabet)).collect();
        call.push_plain(&line);
    }
    call.tolerance = random.pick(&[0.0f64, 0.0, 0.5, 1.0, 2.0, 4.0]).to_bits();
    let mut chains = match random.one_in(3) {
        // In one cell, or nearly, any order and any directions will do.
        true => {
            let mut listing: Vec<u32> = (0..lines as u32).collect();
            random.shuffle(&mut listing);
            let cut = random.below(lines + 1);
            let mut some = |part: &[u32]| {
                let turned = part.iter().map(|_| random.one_in(2)).collect();
                Made::of(&call, part.to_vec(), turned)
            };
            vec![some(&listing[..cut]), some(&listing[cut..])]
        }
        false => woven(random, &call),
    };
    if random.one_in(2) {
        let (name, vary) = random.pick(&VARIANTS);
        if vary(random, &mut call, &mut chains) {
            return (name, laid_out(random, call, &chains));
        }
    }
    ("ambiguous", laid_out(random, call, &chains))
}
