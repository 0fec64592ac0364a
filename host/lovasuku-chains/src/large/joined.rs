//! The chains of a delivery.

use super::joints::{Joint, JointKind};
use super::nodes::Nodes;
use super::outlines::Outlines;
use super::pieces::LinePieces;
use super::Point;
use crate::{Chains, PathLine};

/// The chains of a delivery, borrowed from its rooms and lines, with what is known of how they were
/// made.
#[derive(Clone, Copy, Debug)]
pub struct Joined<'a> {
    pub(super) chains: Chains<'a>,
    pub(super) lines: LinePieces<'a>,
    /// The nodes of round one, and its pieces.
    pub(super) nodes: &'a Nodes,
    pub(super) pieces: &'a Outlines,
    pub(super) laid: &'a [u32],
    pub(super) calls: usize,
}

impl<'a> Joined<'a> {
    /// The chains: those of one call, if one could hold all lines. Their boxes are there if they were
    /// asked for.
    pub fn chains(&self) -> Chains<'a> {
        self.chains
    }

    /// The positions of the chains of which more was to be laid than a call holds, so that it was done
    /// without one, ascending.
    pub fn laid(&self) -> &'a [u32] {
        self.laid
    }

    /// How many calls of the library laid chains.
    pub fn calls(&self) -> usize {
        self.calls
    }

    /// Where two lines that follow each other on the way of a chain were joined, and by what.
    pub fn joint(&self, from: PathLine, to: PathLine) -> Joint {
        let [exit, entry] =
            [2 * from.line + u32::from(!from.turned), 2 * to.line + u32::from(to.turned)];
        let kind = if self.pieces.of(from.line) != self.pieces.of(to.line) {
            JointKind::Tolerance
        } else if self.nodes.crossing(exit).is_some() {
            JointKind::Junction
        } else {
            JointKind::Node
        };
        Joint { lines: [from.line, to.line], ends: [self.end(exit), self.end(entry)], kind }
    }

    fn end(&self, end: u32) -> Point {
        use super::pieces::Pieces;
        self.lines.end(end).unwrap_or_default()
    }
}
