//! The numbers of a run, for the summary and the map.

use crate::delivery::{Delivery, Point};
use crate::joining::{blocking, Chain, Gap, Joint, JointKind, Line, Outlined};
use crate::measure::Measure;
use crate::numbers::parts;
use rayon::prelude::*;
use std::ops::Range;

/// What a run did, in numbers.
#[derive(Clone, Debug, Default, PartialEq)]
pub struct Tally {
    pub lines: usize,
    /// MultiLineStrings, which passed through.
    pub multi: usize,
    /// Lines without length.
    pub without_length: usize,
    /// Those of them that stand where two other lines end, or more.
    pub blocking: usize,
    pub chains: usize,
    /// Chains that are loops.
    pub loops: usize,
    /// Chains that meet the window.
    pub inside: usize,
    pub nodes: usize,
    pub junctions: usize,
    pub tolerance: usize,
    pub bridges: usize,
    /// Bridges that are longer than the tolerance.
    pub longer: usize,
    pub longest_chain: Option<Longest>,
    pub longest_bridge: Option<(usize, Joint)>,
    /// Gaps below the tolerance that stayed open.
    pub gaps: Vec<Gap>,
    /// The positions of chains that are more than a call of the library holds.
    pub laid: Vec<u32>,
}

/// The longest chain: its position, its lines and its length.
#[derive(Clone, Copy, Debug, PartialEq)]
pub struct Longest {
    pub chain: usize,
    pub lines: usize,
    pub length: f64,
}

/// How many chains one core looks at at a time, and how many are laid before they are counted.
const PART: usize = 256;
const BLOCK: usize = 64 * PART;

impl Tally {
    /// The numbers of a run, and the length of each chain.
    pub fn of<'d>(
        delivery: &Delivery,
        measure: &Measure,
        lines: impl Iterator<Item = Line<'d>> + Clone,
        outlined: &Outlined,
        tolerance: f64,
    ) -> (Self, Vec<f64>) {
        let shapes = delivery.shapes();
        let flat = |&line: &u32| shapes.get(line).has_no_length();
        let mut tally = Tally {
            lines: delivery.len(),
            multi: shapes.multi(),
            without_length: delivery.lines().filter(flat).count(),
            blocking: blocking(lines),
            chains: outlined.len(),
            laid: outlined.laid().to_vec(),
            ..Tally::default()
        };
        let mut lengths = Vec::with_capacity(outlined.len());
        let part = |chains: Range<usize>| {
            let told = outlined.told(chains);
            let length = |chain: Chain| length_of(delivery, measure, &chain);
            let lengths: Vec<f64> = told.chains().map(length).collect();
            (told, lengths)
        };
        for block in parts(0..outlined.len(), BLOCK) {
            let all: Vec<_> = parts(block, PART).into_par_iter().map(part).collect();
            for (told, of_part) in all {
                for (chain, length) in told.chains().zip(of_part) {
                    tally.add(lengths.len(), &chain, length, tolerance);
                    lengths.push(length);
                }
            }
        }
        (tally, lengths)
    }

    fn add(&mut self, position: usize, chain: &Chain, length: f64, tolerance: f64) {
        self.loops += usize::from(chain.is_loop);
        self.inside += usize::from(chain.in_window);
        if self.longest_chain.map_or(true, |longest| longest.length < length) {
            let lines = chain.members.len();
            self.longest_chain = Some(Longest { chain: position, lines, length });
        }
        for joint in chain.joints {
            match joint.kind {
                JointKind::Node => self.nodes += 1,
                JointKind::Junction => self.junctions += 1,
                JointKind::Tolerance => self.tolerance += 1,
            }
            if joint.is_bridge() {
                self.bridges += 1;
                self.longer += usize::from(joint.length() > tolerance);
                if self.longest_bridge.map_or(true, |(_, other)| other.length() < joint.length()) {
                    self.longest_bridge = Some((position, *joint));
                }
            }
        }
    }

    /// The shortest gap.
    pub fn shortest_gap(&self) -> Option<&Gap> {
        self.gaps.iter().min_by(|a, b| a.length().total_cmp(&b.length()))
    }
}

/// The length of a chain.
fn length_of(delivery: &Delivery, measure: &Measure, chain: &Chain) -> f64 {
    runs_of(delivery, chain).into_iter().fold(0.0, |sum, run| sum + measure.length(run))
}

/// The runs of points that a chain is drawn by.
pub fn runs_of<'a>(delivery: &'a Delivery, chain: &Chain<'a>) -> Vec<&'a [Point]> {
    match (chain.points, chain.members.first()) {
        (Some(points), _) => vec![points],
        (None, Some(&line)) => delivery.shapes().runs(line).collect(),
        (None, None) => Vec::new(),
    }
}
