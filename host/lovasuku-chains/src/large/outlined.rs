//! The chains of a delivery by their lines, whose coordinates are laid when they are asked for.

use super::boxing::is_loop;
use super::fitting::fit;
use super::joints::{Joint, JointKind};
use super::laying::{lay_behind, turn_behind};
use super::pieces::{LinePieces, Pieces};
use super::rounds::Round;
use super::told::Told;
use crate::{Lines, PathLine};
use std::ops::Range;
use std::sync::Arc;

/// The chains of a delivery, for a host that keeps them, by their lines.
///
/// Five bytes a line, nine where there is a tolerance, and four a chain; once for all tolerances four a line
/// more. The coordinates of a chain are those of its lines: what the library's calls laid was compared with
/// what is laid here, bit for bit.
#[derive(Clone, Debug, Default)]
pub struct Outlined<'a> {
    lines: Lines<'a>,
    /// The first coordinate of each line, and behind the last how many there are.
    firsts: Arc<Vec<u32>>,
    /// The lines in the order of travel, chain by chain: twice the position of each, and one more where it is
    /// turned.
    steps: Vec<u32>,
    /// What joins each of them with the one before it in its chain.
    kinds: Vec<JointKind>,
    /// The positions of the lines in the library's order, where there was a second round: of a piece that it
    /// turned that is the piece's own.
    members: Option<Vec<u32>>,
    /// Where the lines of each chain end.
    ends: Vec<u32>,
    /// Whether each chain meets the window, where there is one.
    inside: Option<Vec<bool>>,
    laid: Vec<u32>,
}

/// The rounds that chains are outlined by.
pub(super) struct Rounds<'a> {
    pub first: &'a Round,
    pub second: Option<&'a Round>,
}

impl<'a> Outlined<'a> {
    /// The chains of the rounds over lines, and behind them the lines that pass through.
    pub(super) fn of(
        lines: Lines<'a>,
        firsts: &Arc<Vec<u32>>,
        rounds: Rounds,
        laid: &[u32],
    ) -> Self {
        let mut outlined =
            Outlined { lines, firsts: firsts.clone(), laid: laid.to_vec(), ..Outlined::default() };
        let passing = (0..lines.len() as u32).filter(|&line| outlined.pieces().passes(line));
        let passing: Vec<u32> = passing.collect();
        let chains = rounds.second.unwrap_or(rounds.first).outlines.len();
        fit(&mut outlined.steps, lines.len());
        fit(&mut outlined.kinds, lines.len());
        fit(&mut outlined.ends, chains + passing.len());
        match rounds.second {
            None => outlined.put_pieces(rounds.first, chains as u32),
            Some(second) => outlined.put_chains(rounds.first, second),
        }
        for line in passing {
            outlined.put_piece(rounds.first, &[2 * line], 0);
            outlined.end();
        }
        outlined
    }

    /// Puts the pieces of round one, each a chain.
    fn put_pieces(&mut self, first: &Round, pieces: u32) {
        for piece in 0..pieces {
            self.put_piece(first, first.outlines.steps(piece), 0);
            self.end();
        }
    }

    /// Puts the chains of round two.
    fn put_chains(&mut self, first: &Round, second: &Round) {
        self.members = Some(Vec::with_capacity(self.lines.len()));
        for chain in 0..second.outlines.len() as u32 {
            for step in second.outlines.steps(chain) {
                self.put_piece(first, first.outlines.steps(step >> 1), step & 1);
            }
            self.end();
        }
    }

    /// Puts the lines of a piece, which are entered at the given ends, or at the others from its last line to
    /// its first where the piece is turned.
    fn put_piece(&mut self, first: &Round, steps: &[u32], turned: u32) {
        if let Some(members) = &mut self.members {
            members.extend(steps.iter().map(|step| step >> 1));
        }
        let from = self.steps.len();
        match turned {
            0 => self.steps.extend(steps),
            _ => self.steps.extend(steps.iter().rev().map(|step| step ^ 1)),
        }
        let crossed = |step: &u32| match first.nodes.crossing(step ^ 1) {
            Some(_) => JointKind::Junction,
            None => JointKind::Node,
        };
        self.kinds.push(JointKind::Tolerance);
        let way = &self.steps[from..];
        self.kinds.extend(way[..way.len() - 1].iter().map(crossed));
    }

    /// Ends a chain.
    fn end(&mut self) {
        self.ends.push(self.steps.len() as u32);
    }

    /// Tells which chains meet a window, and that no other does.
    pub(super) fn put_inside(&mut self, chains: impl Iterator<Item = usize>) {
        let mut inside = vec![false; self.len()];
        chains.for_each(|chain| inside[chain] = true);
        self.inside = Some(inside);
    }

    /// How many chains there are.
    pub fn len(&self) -> usize {
        self.ends.len()
    }

    /// True where there is no chain.
    pub fn is_empty(&self) -> bool {
        self.ends.is_empty()
    }

    /// The positions of the chains of which more was to be laid than a call holds, so that it was done
    /// without one.
    pub fn laid(&self) -> &[u32] {
        &self.laid
    }

    /// How many lines a chain has.
    pub fn lines(&self, chain: usize) -> usize {
        self.way(chain).len()
    }

    /// The position of the first line on the way of a chain.
    pub fn first_line(&self, chain: usize) -> u32 {
        self.steps[self.way(chain).start] >> 1
    }

    /// Whether the extent of a chain meets the window that was asked for, and true where none was.
    pub fn is_inside(&self, chain: usize) -> bool {
        self.inside.as_ref().map_or(true, |inside| inside[chain])
    }

    /// Tells whether a chain meets the window, where one was asked for: of geometry that the library was not
    /// given.
    pub fn set_inside(&mut self, chain: usize, meets: bool) {
        if let Some(inside) = &mut self.inside {
            inside[chain] = meets;
        }
    }

    /// All that is told of some chains, in the given order.
    pub fn told(&self, chains: impl IntoIterator<Item = usize>) -> Told {
        let mut told = Told::of(self.lines.dimension, &self.laid);
        let (mut numbers, mut piece) = (Vec::new(), Vec::new());
        for chain in chains {
            let way = self.way(chain);
            let steps = &self.steps[way.clone()];
            let line = |step: &u32| PathLine { line: step >> 1, turned: step & 1 == 1 };
            told.path.extend(steps.iter().map(line));
            match &self.members {
                Some(members) => told.members.extend(&members[way.clone()]),
                None => told.members.extend(steps.iter().map(|step| step >> 1)),
            }
            let before = steps.iter().zip(&steps[1..]).zip(&self.kinds[way.start + 1..way.end]);
            told.joints.extend(before.map(|((&from, &to), &kind)| self.joint(from, to, kind)));
            numbers.clear();
            let run = match *steps {
                [step] => self.pieces().of_line(step >> 1),
                _ => {
                    self.lay(way, &mut numbers, &mut piece);
                    &numbers[..]
                }
            };
            let looped = is_loop(run, self.lines.dimension.stride());
            told.end(&numbers, looped, self.is_inside(chain));
        }
        told
    }

    /// All that is told of all chains.
    pub fn whole(&self) -> Told {
        self.told(0..self.len())
    }

    fn way(&self, chain: usize) -> Range<usize> {
        let from = chain.checked_sub(1).map_or(0, |before| self.ends[before]);
        from as usize..self.ends[chain] as usize
    }

    fn pieces(&self) -> LinePieces<'_> {
        LinePieces { lines: self.lines, firsts: &self.firsts }
    }

    fn joint(&self, from: u32, to: u32, kind: JointKind) -> Joint {
        let end = |end: u32| self.pieces().end(end).unwrap_or_default();
        Joint { lines: [from >> 1, to >> 1], ends: [end(from ^ 1), end(to)], kind }
    }

    /// Lays the lines of a chain into an empty room as the rounds did: each piece of round one by itself, in
    /// its own order, and the pieces end to end.
    fn lay(&self, way: Range<usize>, into: &mut Vec<f64>, piece: &mut Vec<f64>) {
        let stride = self.lines.dimension.stride();
        let mut from = way.start;
        while from < way.end {
            let joined = |kind: &&JointKind| **kind != JointKind::Tolerance;
            let to = from + 1 + self.kinds[from + 1..way.end].iter().take_while(joined).count();
            let steps = self.steps[from..to].iter().copied();
            let first = self.steps[from] >> 1;
            let turned = |members: &Vec<u32>| members[from] != first;
            match self.members.as_ref().map_or(false, turned) {
                false => lay_behind(&self.pieces(), steps, into),
                true => {
                    piece.clear();
                    lay_behind(&self.pieces(), steps.rev().map(|step| step ^ 1), piece);
                    turn_behind(piece, stride, into);
                }
            }
            from = to;
        }
    }
}
