//! What a call is lent: the pieces of its outlines, and what else ends at their nodes.
//!
//! Alone, the pieces of outlines are lent and no others. The ends of an outline at a node are whole pairs of
//! those that were selected there, and free ends. Of such a part of a node's ends the library selects
//! the same pairs: a pair that qualifies and was not selected shares an end with one that was and comes
//! before it, and that one is of the part. Two free ends that are all of the part would be joined,
//! since two ends alone are, at any angle; so a line without length is put there. It has no
//! direction, is paired with nothing, and makes them three or more.
//!
//! With neighbours, every piece that ends at a node of an outline is lent too, so that the library
//! decides each such node once more, with all its ends.

use super::batching::{Batch, Batches};
use super::nodes::Nodes;
use super::outlines::Outlines;
use std::ops::Range;

/// A node of more ends is decided without the pieces of other outlines.
pub const MOST_NEIGHBOURS: usize = 32;

/// A round's nodes, outlines and batches.
#[derive(Clone, Copy)]
pub struct Cut<'a> {
    pub nodes: &'a Nodes,
    pub outlines: &'a Outlines,
    pub batches: &'a Batches,
}

/// A batch, or the part of it that a call is made for.
#[derive(Clone, Debug)]
pub struct Asked {
    pub batch: Batch,
    pub slots: Range<u32>,
}

/// What a call is lent.
#[derive(Debug, Default)]
pub struct Gathered {
    /// The pieces of its outlines, ascending; even numbers of those that are lent whole, odd ones of those
    /// for which a stand-in is.
    own: Vec<u32>,
    /// The others, ascending, for which stand-ins are lent: odd numbers.
    others: Vec<u32>,
    /// The ends at whose points a line without length is put.
    pub blocked: Vec<u32>,
    /// The free ends of its outlines at nodes of three or more, each behind its node.
    free: Vec<[u32; 2]>,
}

/// Why pieces are not lent with their neighbours.
#[derive(Clone, Copy, Debug, PartialEq, Eq)]
pub enum Without {
    /// There are more than so many pieces.
    Many,
    /// A node has more than so many ends.
    Crowded,
}

impl Gathered {
    /// The pieces of its outlines.
    pub fn own(&self) -> impl Iterator<Item = u32> + '_ {
        self.own.iter().map(|own| own >> 1)
    }

    /// Tells of all pieces in ascending order, each with whether it is lent whole.
    pub fn each(&self, mut piece: impl FnMut(u32, bool)) {
        let mut others = &self.others[..];
        for &own in &self.own {
            let before = others.iter().take_while(|&&other| other < own).count();
            let (these, rest) = others.split_at(before);
            these.iter().for_each(|other| piece(other >> 1, false));
            others = rest;
            piece(own >> 1, own & 1 == 0);
        }
        others.iter().for_each(|other| piece(other >> 1, false));
    }

    /// Gathers the pieces of outlines with all neighbours, as long as there are no more than so many.
    pub fn with_neighbours(&mut self, cut: Cut, asked: &Asked, most: usize) -> Result<(), Without> {
        self.take(cut, asked);
        for k in 0..self.own.len() {
            let first = self.own[k] & !1;
            for end in [first, first + 1] {
                if let Some(crossing) = cut.nodes.crossing(end) {
                    self.neighbours(cut, &asked.slots, end, crossing)?;
                }
            }
            if self.others.len() > 2 * most {
                self.each_once(most)?;
            }
        }
        self.each_once(most)
    }

    /// Puts neighbours in ascending order, takes them out where they stand twice, and tells where there
    /// are too many all the same.
    fn each_once(&mut self, most: usize) -> Result<(), Without> {
        self.others.sort_unstable();
        self.others.dedup();
        match self.own.len() + self.others.len() > most {
            true => Err(Without::Many),
            false => Ok(()),
        }
    }

    /// Adds the neighbours at a node, unless an own end before this one has.
    fn neighbours(
        &mut self,
        cut: Cut,
        slots: &Range<u32>,
        end: u32,
        crossing: u32,
    ) -> Result<(), Without> {
        let from = self.others.len();
        for (k, other) in cut.nodes.at(crossing).enumerate() {
            if k == MOST_NEIGHBOURS {
                return Err(Without::Crowded);
            }
            let is_own = cut.batches.slot(other >> 1).map_or(false, |slot| slots.contains(&slot));
            if !is_own {
                self.others.push(other | 1);
            } else if other < end {
                self.others.truncate(from);
                break;
            }
        }
        Ok(())
    }

    /// Gathers the pieces of outlines alone, with what keeps their free ends apart.
    pub fn alone(&mut self, cut: Cut, asked: &Asked) {
        self.take(cut, asked);
        self.free.clear();
        for slot in asked.slots.clone() {
            let steps = cut.outlines.steps(cut.batches.outline(slot));
            if let ([first, ..], [.., last]) = (steps, steps) {
                self.put_free(cut, *first);
                self.put_free(cut, last ^ 1);
            }
        }
        self.free.sort_unstable();
        let same_node = |a: &[u32; 2], b: &[u32; 2]| a[0] == b[0];
        for node in groups(&self.free, same_node) {
            if let [[_, one], [_, other]] = *node {
                if one >> 1 != other >> 1 {
                    self.blocked.push(one);
                }
            }
        }
    }

    /// Adds an end of an outline, if it is free and three ends or more meet there.
    fn put_free(&mut self, cut: Cut, end: u32) {
        if cut.nodes.joined(end).is_none() {
            self.free.extend(cut.nodes.crossing(end).map(|node| [node, end]));
        }
    }

    /// Takes the pieces of outlines.
    fn take(&mut self, cut: Cut, asked: &Asked) {
        let Asked { batch, slots } = asked;
        self.own.clear();
        self.others.clear();
        self.blocked.clear();
        let pieces = cut.batches.pieces(*batch);
        if batch.slots() == *slots {
            return self.own.extend(pieces);
        }
        let is_asked = |piece: &&u32| {
            cut.batches.slot(*piece >> 1).map_or(false, |slot| slots.contains(&slot))
        };
        self.own.extend(pieces.iter().filter(is_asked));
    }
}

/// The runs of a slice in which neighbours are the same.
fn groups<'a, T>(
    all: &'a [T],
    same: impl Fn(&T, &T) -> bool + 'a,
) -> impl Iterator<Item = &'a [T]> {
    let mut rest = all;
    std::iter::from_fn(move || {
        let first = rest.first()?;
        let count = rest.iter().take_while(|&each| same(first, each)).count();
        let (run, after) = rest.split_at(count);
        rest = after;
        Some(run)
    })
}
