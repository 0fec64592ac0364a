//! Joints: where the lines of a chain were joined, and by what.

use super::keys::{exact_key, Key};
use super::{Line, Point};
use std::collections::HashMap;

/// A joint of two lines that follow each other in a chain.
#[derive(Clone, Copy, Debug, PartialEq)]
pub struct Joint {
    /// The positions of the two lines, in the order of the chain's points.
    pub lines: [u32; 2],
    /// The end of the first line and the end of the second.
    pub ends: [Point; 2],
    /// What it was made by.
    pub kind: JointKind,
}

/// What a joint was made by.
#[derive(Clone, Copy, Debug, PartialEq, Eq, Hash)]
pub enum JointKind {
    /// Two ends that agree bit for bit, with no third.
    Node,
    /// Two ends of three or more that agree bit for bit, selected as a pair.
    Junction,
    /// Two ends in one cell of the tolerance.
    Tolerance,
}

impl Joint {
    /// True where the chain has a segment here that is in neither line: the tolerance made it.
    pub fn is_bridge(&self) -> bool {
        self.ends[0] != self.ends[1]
    }

    /// The distance from end to end.
    pub fn length(&self) -> f64 {
        distance(self.ends[0], self.ends[1])
    }
}

/// The distance of two points.
pub fn distance([x, y]: Point, [to_x, to_y]: Point) -> f64 {
    (to_x - x).hypot(to_y - y)
}

/// The number of ends at each key.
pub type EndCounts = HashMap<Key, u32>;

/// Counts the ends of lines at each key.
pub fn end_counts<'a>(lines: impl Iterator<Item = Line<'a>>) -> EndCounts {
    let mut counts = EndCounts::new();
    for line in lines {
        for end in line.ends().into_iter().flatten() {
            *counts.entry(exact_key(line.group, end)).or_default() += 1;
        }
    }
    counts
}

/// How many lines without length stand where two ends of lines with length lie, or more. There they
/// are what keeps two lines from being joined.
pub fn blocking<'a>(lines: impl Iterator<Item = Line<'a>> + Clone) -> usize {
    let flat = |line: &Line| line.ends().is_some() && line.has_no_length();
    if !lines.clone().any(|line| flat(&line)) {
        return 0;
    }
    let counts = end_counts(lines.clone().filter(|line| !flat(line)));
    let blocks = |line: &Line| {
        let ends = line.ends().map(|[first, _]| exact_key(line.group, first));
        ends.and_then(|key| counts.get(&key)).map_or(false, |&count| count > 1)
    };
    lines.filter(|line| flat(line) && blocks(line)).count()
}
