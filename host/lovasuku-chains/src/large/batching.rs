//! Batches: the outlines whose chains one call builds.
//!
//! Outlines are taken by where they begin, so that those of a batch lie near each other and few lines of
//! other outlines end at their nodes. An outline of one piece is that
//! piece, untouched, and needs no call; it has one where every node is to be decided once more, unless
//! it meets nothing. One of more lines or points than a call holds stands alone, behind all others, and
//! is laid without. Each outline that needs a call or is laid has a slot, in the order of the batches.

use super::capacity::Capacity;
use super::cores::Cores;
use super::fitting::{fit, resize};
use super::nodes::{Ends, Nodes, Sorting};
use super::outlines::Outlines;
use super::pieces::Pieces;
use super::NONE;
use std::ops::Range;

/// Outlines that one call is made for, by their slots.
#[derive(Clone, Copy, Debug, PartialEq, Eq)]
pub struct Batch {
    slots: [u32; 2],
    /// Where its pieces stand among those of all batches.
    pieces: [u32; 2],
    /// True where its one outline is more than a call holds.
    pub beyond: bool,
}

impl Batch {
    /// Its slots.
    pub fn slots(self) -> Range<u32> {
        self.slots[0]..self.slots[1]
    }
}

/// How outlines are cut into batches.
#[derive(Clone, Copy, Debug)]
pub struct Cutting {
    pub capacity: Capacity,
    /// A batch is filled up to so many lines.
    pub batch: usize,
    /// Whether every node is to be decided once more.
    pub neighbours: bool,
    pub cores: Cores,
}

/// The nodes of a round and the outlines over them.
#[derive(Clone, Copy)]
pub struct Plan<'a> {
    pub nodes: &'a Nodes,
    pub outlines: &'a Outlines,
}

/// The batches of a round.
#[derive(Debug, Default)]
pub struct Batches {
    batches: Vec<Batch>,
    /// The pieces of all batches, each batch's own ascending: even numbers of those of outlines of several
    /// pieces, odd ones of those of one.
    pieces: Vec<u32>,
    /// The outline of each slot.
    outlines: Vec<u32>,
    /// The batch of each slot, twice its number, and one more where its outline has one piece.
    homes: Vec<u32>,
    /// The slot of each piece's outline, if it has one.
    slots: Vec<u32>,
    /// The first coordinate of each slot's room, and behind the last how many there are.
    rooms: Vec<u32>,
    /// The outlines that are more than a call holds.
    beyond: Vec<u32>,
}

impl Batches {
    /// Cuts the outlines of a round into batches.
    pub fn cut<P: Pieces>(
        &mut self,
        ends: Ends<P>,
        Plan { nodes, outlines }: Plan,
        sorting: &mut Sorting,
        ways: Cutting,
    ) {
        let pieces = ends.pieces;
        self.clear(pieces.count());
        let Cutting { capacity, batch, neighbours, cores } = ways;
        let needs_a_call = |&outline: &u32| match *outlines.steps(outline) {
            [step] => neighbours && meets(nodes, step),
            _ => true,
        };
        let begin = |outline: u32| (outlines.steps(outline)[0], outline);
        let all = (0..outlines.len() as u32).filter(needs_a_call).map(begin);
        let mut filled = batch;
        let near = sorting.by_place(ends, all, cores);
        fit(&mut self.outlines, near.len());
        fit(&mut self.homes, near.len());
        fit(&mut self.rooms, near.len() + 1);
        for outline in near {
            let steps = outlines.steps(outline);
            let size = Size::of(pieces, steps);
            if size.lines > capacity.lines || size.points > capacity.points {
                self.beyond.push(outline);
                continue;
            }
            if filled + size.lines > batch {
                self.begin(false);
                filled = 0;
            }
            filled += size.lines;
            self.put(outline, steps, size);
        }
        for k in 0..self.beyond.len() {
            let steps = outlines.steps(self.beyond[k]);
            self.begin(true);
            self.put(self.beyond[k], steps, Size::of(pieces, steps));
        }
        self.sort_pieces();
    }

    fn clear(&mut self, pieces: usize) {
        self.batches.clear();
        self.outlines.clear();
        self.homes.clear();
        self.beyond.clear();
        self.slots.clear();
        resize(&mut self.slots, pieces, NONE);
        self.rooms.clear();
        self.rooms.push(0);
    }

    /// Begins a batch.
    fn begin(&mut self, beyond: bool) {
        let slot = self.outlines.len() as u32;
        let piece = self.batches.last().map_or(0, |batch| batch.pieces[1]);
        self.batches.push(Batch { slots: [slot; 2], pieces: [piece; 2], beyond });
    }

    /// Puts an outline into the last batch.
    fn put(&mut self, outline: u32, steps: &[u32], size: Size) {
        let slot = self.outlines.len() as u32;
        steps.iter().for_each(|&step| self.slots[(step >> 1) as usize] = slot);
        self.outlines.push(outline);
        let home = self.batches.len() as u32 - 1;
        self.homes.push(2 * home + u32::from(steps.len() == 1));
        let before = self.rooms.last().copied().unwrap_or_default();
        self.rooms.push(before + size.room as u32);
        if let Some(batch) = self.batches.last_mut() {
            batch.slots[1] += 1;
            batch.pieces[1] += steps.len() as u32;
        }
    }

    /// Puts the pieces of each batch in ascending order.
    fn sort_pieces(&mut self) {
        let count = self.batches.last().map_or(0, |batch| batch.pieces[1]);
        self.pieces.clear();
        resize(&mut self.pieces, count as usize, 0);
        // Where the pieces of a batch end is where they begin until they are put.
        self.batches.iter_mut().for_each(|batch| batch.pieces[1] = batch.pieces[0]);
        for (piece, &slot) in (0u32..).zip(&self.slots) {
            if slot != NONE {
                let home = self.homes[slot as usize];
                let batch = &mut self.batches[(home >> 1) as usize];
                self.pieces[batch.pieces[1] as usize] = 2 * piece + (home & 1);
                batch.pieces[1] += 1;
            }
        }
    }

    /// The pieces of a batch, ascending: even numbers of those of outlines of several pieces, odd ones
    /// of those of one.
    pub fn pieces(&self, batch: Batch) -> &[u32] {
        &self.pieces[batch.pieces[0] as usize..batch.pieces[1] as usize]
    }

    /// The batches in the order of their slots.
    pub fn all(&self) -> &[Batch] {
        &self.batches
    }

    /// How many slots there are.
    pub fn slots(&self) -> usize {
        self.outlines.len()
    }

    /// The outline of a slot.
    pub fn outline(&self, slot: u32) -> u32 {
        self.outlines[slot as usize]
    }

    /// The slot of a piece's outline, if it has one.
    pub fn slot(&self, piece: u32) -> Option<u32> {
        Some(self.slots[piece as usize]).filter(|&slot| slot != NONE)
    }

    /// The coordinates that slots have room for, among those of all.
    pub fn room(&self, slots: Range<u32>) -> Range<usize> {
        self.rooms[slots.start as usize] as usize..self.rooms[slots.end as usize] as usize
    }
}

/// True where another end meets one of a piece.
fn meets(nodes: &Nodes, step: u32) -> bool {
    [step, step ^ 1].iter().any(|&end| nodes.crossing(end).is_some())
}

/// How much an outline is.
#[derive(Clone, Copy)]
struct Size {
    /// The lines and points that a call has to be given for it.
    lines: usize,
    points: usize,
    /// The coordinates of its pieces, if there are several.
    room: usize,
}

impl Size {
    fn of(pieces: &impl Pieces, steps: &[u32]) -> Self {
        let mut sum = Size { lines: 0, points: 0, room: 0 };
        if steps.len() == 1 {
            // A stand-in is one line.
            return Size { lines: 1, ..sum };
        }
        for piece in steps.iter().map(|&step| step >> 1) {
            sum.lines += pieces.lines(piece);
            sum.points += pieces.points(piece);
            sum.room += pieces.room(piece);
        }
        sum
    }
}
