//! Which ends are joined at nodes of three or more, as the library's pairing tells.

use super::arranging::FIRST;
use super::pieces::{direction, end_of, Pieces};
use super::{Fault, Point};
use crate::door::{self, PairRooms};
use crate::rooms::{first, grow};
use crate::size::{END_WORKSPACE, MOST_ENDS, POINT};
use crate::two::by_two;
use crate::{Ends, Route};
use std::ops::Range;

/// So many ends are paired together.
const BLOCK: usize = 256;

/// So many ends are looked at together.
const TOGETHER: usize = 32;

/// The ends of nodes as they are lent to pairing calls, one node after another, and the rooms of these.
#[derive(Debug, Default)]
pub struct Junctions {
    ends: Vec<u32>,
    /// Where the ends of each node end.
    nodes: Vec<usize>,
    present: Vec<u8>,
    directions: Vec<f64>,
    pieces: Vec<u32>,
    pairs: Vec<u32>,
    workspace: Vec<u64>,
    /// The pairs of ends that are joined.
    joined: Vec<[u32; 2]>,
}

impl Junctions {
    /// Takes the ends of a node, which are given as nodes have them, the first one marked. Where there
    /// are enough for a block, each pair that is joined under a limit is told.
    pub fn take(
        &mut self,
        pieces: &impl Pieces,
        node: &[u32],
        limit: f64,
        joined: impl FnMut(u32, u32),
    ) -> Result<(), Fault> {
        if node.len() > MOST_ENDS {
            let first = node[0] & !FIRST;
            let (place, group) = (pieces.end(first).unwrap_or_default(), pieces.group(first >> 1));
            return Err(Fault::Crowded { ends: node.len(), place, group });
        }
        self.ends.extend(node.iter().map(|&end| end & !FIRST));
        self.nodes.push(self.ends.len());
        match self.ends.len() < BLOCK {
            true => Ok(()),
            false => self.pair(pieces, limit, joined),
        }
    }

    /// Tells of each pair of the ends that were taken that is joined under a limit. They are told at the
    /// end, since a call would wait for what is written anywhere before it.
    pub fn pair(
        &mut self,
        pieces: &impl Pieces,
        limit: f64,
        mut joined: impl FnMut(u32, u32),
    ) -> Result<(), Fault> {
        self.look(pieces);
        let mut from = 0;
        for k in 0..self.nodes.len() {
            let node = from..self.nodes[k];
            from = node.end;
            let pairs = self.pairs_of(node.clone(), limit)?;
            let ends = &self.ends[node];
            let pairs = first(by_two(&self.pairs), pairs);
            self.joined.extend(pairs.iter().map(|pair| pair.map(|end| ends[end as usize])));
        }
        self.joined.iter().for_each(|&[one, other]| joined(one, other));
        self.clear();
        Ok(())
    }

    /// Takes all ends out.
    pub fn clear(&mut self) {
        self.ends.clear();
        self.nodes.clear();
        self.joined.clear();
    }

    /// Takes the directions of all ends.
    fn look(&mut self, pieces: &impl Pieces) {
        self.present.clear();
        self.directions.clear();
        self.pieces.clear();
        let stride = pieces.stride();
        let mut runs: [(&[f64], Point); TOGETHER] = [Default::default(); TOGETHER];
        for ends in self.ends.chunks(TOGETHER) {
            // The memory is asked for all of them at once.
            for (run, &end) in runs.iter_mut().zip(ends) {
                let numbers = pieces.numbers(end >> 1);
                *run = (numbers, end_of(numbers, stride, end & 1).unwrap_or_default());
            }
            for (&(run, place), &end) in runs.iter().zip(ends) {
                let toward = direction(place, run, stride, end & 1);
                self.present.push(u8::from(toward.is_some()));
                self.directions.extend(toward.unwrap_or_default());
                self.pieces.push(end >> 1);
            }
        }
    }

    /// Makes the call for the ends of a node, and gives the number of pairs.
    fn pairs_of(&mut self, node: Range<usize>, limit: f64) -> Result<usize, Fault> {
        grow(&mut self.pairs, node.len());
        grow(&mut self.workspace, END_WORKSPACE * node.len());
        let lent = Ends {
            present: &self.present[node.clone()],
            directions: &self.directions[POINT * node.start..POINT * node.end],
            pieces: &self.pieces[node],
        };
        let rooms = PairRooms { pairs: &mut self.pairs, workspace: &mut self.workspace };
        Ok(door::result(door::pairs(Route::Chosen, lent, limit, rooms))? as usize)
    }
}
