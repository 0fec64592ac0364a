//! Deliveries of chains, one step simpler.

use super::{distinct, parts, replaced, simpler_words, Shrink};
use answers::{BuildCall, CheckCall, RECORD};
use std::ops::Range;

impl Shrink for CheckCall {
    fn simpler(&self) -> Box<dyn Iterator<Item = Self> + '_> {
        let flat = (self.lines.stride() > 2).then(|| without_extras(self));
        let with_lines = (0..self.k.min(64)).filter_map(|k| without_chain_and_lines(self, k));
        let chains = parts(self.k.min(64) as usize).map(|part| without_chains(self, part));
        let lines = (0..self.lines.lines()).map(|line| without_line(self, line));
        let listed = parts(self.listing.len()).map(|part| without_listed(self, part));
        let stride = self.lines.stride();
        let points = parts(self.merged.len() / stride).map(|part| without_points(self, part));
        let smaller = chains.chain(lines).chain(listed).chain(points);
        let same = self.lines.simpler().filter(|lines| lines.lines() == self.lines.lines());
        let simpler = same.map(|lines| CheckCall { lines, ..self.clone() });
        let large = flat.into_iter().chain(with_lines).chain(smaller);
        Box::new(large.chain(both(self)).chain(simpler).chain(words(self)))
    }
}

/// Fewer lines or points, and fewer coordinates of chains with them: a line with some run of coordinates,
/// and all points at one place.
fn both(call: &CheckCall) -> impl Iterator<Item = CheckCall> + '_ {
    let points = (call.merged.len() / call.lines.stride()).min(24);
    let runs = move |line: usize| {
        let most = (call.lines.counts[line] as usize).min(points);
        (1..=most).flat_map(move |run| (0..=points - run).map(move |first| first..first + run))
    };
    let lines = (0..call.lines.lines().min(24)).flat_map(move |line| {
        runs(line).map(move |run| without_line(&without_points(call, run), line))
    });
    let mut places: Vec<[u64; 2]> = Vec::new();
    for point in call.lines.coordinates.chunks(call.lines.stride()) {
        if !places.contains(&[point[0], point[1]]) && places.len() < 24 {
            places.push([point[0], point[1]]);
        }
    }
    lines.chain(places.into_iter().map(move |place| without_place(call, place)))
}

/// Without extras, in lines and chains.
fn without_extras(call: &CheckCall) -> CheckCall {
    let stride = call.lines.stride();
    let merged = call.merged.chunks(stride).flat_map(|p| p.iter().take(2)).copied().collect();
    CheckCall { lines: call.lines.flat(), merged, ..call.clone() }
}

/// Without a chain and without the lines that it lists.
fn without_chain_and_lines(call: &CheckCall, k: u64) -> Option<CheckCall> {
    let mut listed = call.listed(call.record(k)?)?.to_vec();
    listed.sort_unstable();
    listed.dedup();
    let without = without_chains(call, k as usize..k as usize + 1);
    Some(listed.into_iter().rev().fold(without, |call, line| without_line(&call, line as usize)))
}

/// Without all points at one place, in lines and chains. Chains in the lines' own coordinates stay what they
/// are.
fn without_place(call: &CheckCall, place: [u64; 2]) -> CheckCall {
    let stride = call.lines.stride();
    let mut lines = BuildCall { coordinates: vec![], ..call.lines.clone() };
    for (line, first) in call.lines.firsts().into_iter().enumerate() {
        let kept = call.lines.numbers(line, first).chunks(stride).filter(|p| p[..2] != place);
        let kept: Vec<u64> = kept.flatten().copied().collect();
        lines.counts[line] = (kept.len() / stride) as u32;
        lines.coordinates.extend(kept);
    }
    let at = |k: &usize| call.merged.get(stride * k..stride * k + 2) == Some(&place);
    let places = (0..call.merged.len() / stride).rev().filter(at);
    let without = places.fold(call.clone(), |call, k| without_points(&call, k..k + 1));
    CheckCall { lines, ..without }
}

/// The call with other records, as far as they are whole.
fn with_records(call: &CheckCall, of: impl Fn(&mut [u32])) -> CheckCall {
    let mut with = call.clone();
    with.table.chunks_exact_mut(RECORD).for_each(of);
    with
}

fn without_chains(call: &CheckCall, part: Range<usize>) -> CheckCall {
    let mut without = call.clone();
    let places = RECORD * part.start..(RECORD * part.end).min(call.table.len());
    without.k -= part.len() as u64;
    if places.start < places.end {
        without.table.drain(places);
    }
    without
}

/// Without a line, and without any mention of it.
fn without_line(call: &CheckCall, line: usize) -> CheckCall {
    let mentioned = (0..call.listing.len()).rev().filter(|&k| call.listing[k] as usize == line);
    let mut without = mentioned.fold(call.clone(), |call, k| without_listed(&call, k..k + 1));
    let mut lines = call.lines.clone();
    let (stride, first) = (lines.stride(), lines.firsts()[line]);
    let count = lines.counts.remove(line) as usize;
    lines.coordinates.drain(stride * first..stride * (first + count));
    lines.groups.remove(line);
    lines.kinds.remove(line);
    without.listing.iter_mut().filter(|y| **y as usize > line).for_each(|y| *y -= 1);
    let behind = |record: &mut [u32]| {
        if record[2] == 0 && record[3] as usize > first {
            record[3] = record[3].saturating_sub(count as u32);
        }
    };
    CheckCall { lines, ..with_records(&without, behind) }
}

/// Less by what is taken out of a part: a first number and a count.
fn taken_out(first: &mut u32, count: &mut u32, part: &Range<usize>) {
    let [start, end] = [part.start as u32, part.end as u32];
    let last = first.saturating_add(*count);
    let within = last.min(end).saturating_sub((*first).max(start));
    let before = end.min(*first).saturating_sub(start);
    *count -= within;
    *first -= before;
}

fn without_listed(call: &CheckCall, part: Range<usize>) -> CheckCall {
    let mut without = with_records(call, |record| {
        let [mut first, mut count] = [record[0], record[1]];
        taken_out(&mut first, &mut count, &part);
        (record[0], record[1]) = (first, count);
    });
    without.listing.drain(part);
    without
}

fn without_points(call: &CheckCall, part: Range<usize>) -> CheckCall {
    let mut without = with_records(call, |record| {
        let [mut first, mut count] = [record[3], record[4]];
        if record[2] == 1 {
            taken_out(&mut first, &mut count, &part);
        }
        (record[3], record[4]) = (first, count);
    });
    let stride = call.lines.stride();
    without.merged.drain(stride * part.start..stride * part.end);
    without
}

/// A distinct word replaced by a simpler one in lines and chains alike, and in one place of the chains.
fn words(call: &CheckCall) -> impl Iterator<Item = CheckCall> + '_ {
    let all = [&call.lines.coordinates[..], &call.merged].concat();
    let everywhere = distinct(&all).into_iter().flat_map(move |old| {
        simpler_words(old).map(move |new| {
            let coordinates = replaced(&call.lines.coordinates, old, new);
            let lines = BuildCall { coordinates, ..call.lines.clone() };
            CheckCall { lines, merged: replaced(&call.merged, old, new), ..call.clone() }
        })
    });
    let places = (0..call.merged.len()).flat_map(move |place| {
        simpler_words(call.merged[place]).map(move |new| {
            let mut simpler = call.clone();
            simpler.merged[place] = new;
            simpler
        })
    });
    let numbers = (0..call.table.len()).filter(move |&k| call.table[k] > 0).map(move |place| {
        let mut simpler = call.clone();
        simpler.table[place] = 0;
        simpler
    });
    everywhere.chain(places).chain(numbers)
}
