//! Gaps: ends nearer to each other than the tolerance that were not joined.
//!
//! A cell is not a distance, so a gap below the tolerance may stay open. What is looked for are
//! ends of chains at which no other line ends, each with the end nearest to it. Of the two ends of a
//! chain only the nearer one counts.

use super::joints::{distance, end_counts};
use super::keys::{exact_key, key};
use super::{at, Chain, Line, Point};
use crate::{Nearest, Settings};
use std::collections::{HashMap, HashSet};

/// A gap below the tolerance that stayed open.
#[derive(Clone, Copy, Debug, PartialEq)]
pub struct Gap {
    /// The positions of the two chains; the first has the end at which no other line ends.
    pub chains: [usize; 2],
    /// The positions of the lines that end there.
    pub lines: [u32; 2],
    /// Its two ends.
    pub ends: [Point; 2],
    /// Why it stayed open.
    pub why: Why,
}

/// Why a gap stayed open.
#[derive(Clone, Copy, Debug, PartialEq, Eq, Hash, PartialOrd, Ord)]
pub enum Why {
    /// Its ends lie in different cells.
    Cells,
    /// Three or more ends lie in the cell, and no pair of these was selected that closes it.
    Junction,
    /// Its ends are those of one chain, alone in the cell.
    Ring,
}

impl Gap {
    /// The distance from end to end, in units of the coordinates.
    pub fn length(&self) -> f64 {
        distance(self.ends[0], self.ends[1])
    }
}

/// An end of a chain.
#[derive(Clone, Copy)]
struct End {
    chain: usize,
    line: u32,
    point: Point,
    /// The other end of the chain.
    opposite: Point,
    group: u32,
}

/// The gaps below the tolerance, in order of the chains.
pub fn gaps(lines: &[Line], chains: &[Chain], settings: Settings) -> Vec<Gap> {
    let Settings { tolerance, .. } = settings;
    let counts = end_counts(lines.iter().copied());
    let ends = ends(lines, chains);
    let mut cells: HashMap<_, usize> = HashMap::new();
    let mut groups: HashMap<u32, Vec<End>> = HashMap::new();
    for end in &ends {
        *cells.entry(key(end.group, end.point, settings)).or_default() += 1;
        groups.entry(end.group).or_default().push(*end);
    }
    let order =
        |ends: &Vec<End>| Nearest::of(&ends.iter().map(|end| end.point).collect::<Vec<_>>());
    let nearest: HashMap<u32, Nearest> =
        groups.iter().map(|(&group, ends)| (group, order(ends))).collect();
    let mut seen = HashSet::new();
    let gap = |from: &End| {
        let others = &groups[&from.group];
        // A chain comes back to itself where it is long enough to have gone elsewhere.
        let returns = length(lines, &chains[from.chain]) >= 2.0 * tolerance;
        let other = |k: usize| {
            let End { chain, point, .. } = others[k];
            let nearer = || distance(from.point, point) <= distance(from.opposite, point);
            let candidate = if chain == from.chain { returns } else { nearer() };
            point != from.point && candidate
        };
        let to = others[nearest[&from.group].within(from.point, tolerance, other)?];
        let [a, b] = [from, &to].map(|end| key(end.group, end.point, settings));
        let why = match a == b {
            false => Why::Cells,
            true if cells[&a] > 2 => Why::Junction,
            true => Why::Ring,
        };
        let (chains, lines) = ([from.chain, to.chain], [from.line, to.line]);
        Some(Gap { chains, lines, ends: [from.point, to.point], why })
    };
    let alone = |end: &&End| counts.get(&exact_key(end.group, end.point)) == Some(&1);
    let open = ends.iter().filter(alone).filter_map(gap);
    open.filter(|gap| seen.insert(both_ways(gap))).collect()
}

/// The length of a chain in units of the coordinates.
fn length(lines: &[Line], chain: &Chain) -> f64 {
    let alone = || chain.members.first().and_then(|&line| at(lines, line).points);
    let points = chain.points.or_else(alone).unwrap_or_default();
    points.windows(2).map(|two| distance(two[0], two[1])).sum()
}

/// The bits of both ends, the same from either side.
fn both_ways(gap: &Gap) -> [[u64; 2]; 2] {
    let [a, b] = gap.ends.map(|end| end.map(f64::to_bits));
    [a.min(b), a.max(b)]
}

/// The ends of all chains that lines may be joined at.
fn ends(lines: &[Line], chains: &[Chain]) -> Vec<End> {
    let of = |(position, chain): (usize, &Chain)| {
        let first =
            chain.joints.first().map(|joint| joint.lines[0]).or(chain.members.first().copied())?;
        let last = chain.joints.last().map_or(first, |joint| joint.lines[1]);
        let Line { group, .. } = at(lines, first);
        let points = match chain.points {
            Some(points) => [*points.first()?, *points.last()?],
            None => at(lines, first).ends()?,
        };
        let [start, end] = points;
        Some([
            End { chain: position, line: first, point: start, opposite: end, group },
            End { chain: position, line: last, point: end, opposite: start, group },
        ])
    };
    chains.iter().enumerate().filter_map(of).flatten().collect()
}
