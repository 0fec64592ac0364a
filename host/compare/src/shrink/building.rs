//! Building calls, one step simpler.

use super::{parts, simpler_lists, simpler_words, Shrink};
use answers::BuildCall;
use std::ops::Range;

impl Shrink for BuildCall {
    fn simpler(&self) -> Box<dyn Iterator<Item = Self> + '_> {
        let lines = parts(self.lines()).map(|part| without_lines(self, part));
        let points = (0..self.lines()).flat_map(move |line| {
            parts(self.counts[line] as usize).map(move |part| without_points(self, line, part))
        });
        let words = simpler_lists(&self.coordinates)
            .map(|coordinates| BuildCall { coordinates, ..self.clone() });
        let flat = (self.stride() > 2).then(|| self.flat());
        let smaller = flat.into_iter().chain(lines).chain(points);
        Box::new(smaller.chain(settings(self)).chain(tables(self)).chain(words))
    }
}

/// A line: its numbers coordinate by coordinate, its group and its kind.
type Line = (Vec<Vec<u64>>, u32, u8);

/// The lines of a call.
fn lines(call: &BuildCall) -> Vec<Line> {
    let numbers =
        |line, first| call.numbers(line, first).chunks(call.stride()).map(<[u64]>::to_vec);
    let line =
        |(line, first)| (numbers(line, first).collect(), call.groups[line], call.kinds[line]);
    call.firsts().into_iter().enumerate().map(line).collect()
}

/// The call with other lines.
fn with_lines(call: &BuildCall, lines: Vec<Line>) -> BuildCall {
    let BuildCall { wkb_type, tolerance, origin, switch, limit, .. } = *call;
    let settings = BuildCall { tolerance, origin, switch, limit, ..BuildCall::default() };
    let mut with = BuildCall { wkb_type, ..settings };
    for (numbers, group, kind) in lines {
        with.push_numbers(&numbers.concat(), group, kind);
    }
    with
}

fn without_lines(call: &BuildCall, part: Range<usize>) -> BuildCall {
    let mut lines = lines(call);
    lines.drain(part);
    with_lines(call, lines)
}

fn without_points(call: &BuildCall, line: usize, part: Range<usize>) -> BuildCall {
    let mut lines = lines(call);
    lines[line].0.drain(part);
    with_lines(call, lines)
}

/// Simpler settings. A limit that is not looked at becomes 0; one that is stays from -1 to 1.
fn settings(call: &BuildCall) -> impl Iterator<Item = BuildCall> + '_ {
    let off = (call.switch == 1).then(|| BuildCall { switch: 0, ..call.clone() });
    let tolerances =
        simpler_words(call.tolerance).map(|tolerance| BuildCall { tolerance, ..call.clone() });
    let origins = simpler_lists(&call.origin)
        .filter_map(|origin| origin.try_into().ok())
        .map(|origin| BuildCall { origin, ..call.clone() });
    let limits = simpler_words(call.limit)
        .filter(|&limit| (-1.0..=1.0).contains(&f64::from_bits(limit)))
        .map(|limit| BuildCall { limit, ..call.clone() });
    off.into_iter().chain(tolerances).chain(origins).chain(limits)
}

/// Groups and kinds of 0, all at once and one by one.
fn tables(call: &BuildCall) -> impl Iterator<Item = BuildCall> + '_ {
    let part = move |part: Range<usize>| {
        let mut simpler = call.clone();
        simpler.groups[part.clone()].fill(0);
        simpler.kinds[part].fill(0);
        (simpler != *call).then_some(simpler)
    };
    std::iter::once(0..call.lines()).chain(parts(call.lines())).filter_map(part)
}
