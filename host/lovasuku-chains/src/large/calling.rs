//! Calls of the library, each with rooms of its core's.

use super::cores::Cores;
use super::gathering::Gathered;
use super::junctions::Junctions;
use super::NONE;
use crate::chains::part;
use crate::door::{self, BuildRooms, FinishRooms, RawSettings};
use crate::rooms::grow;
use crate::size::{BOXES, BOXES_BESIDE, LINE_WORKSPACE, RECORD};
use crate::{Dimension, Lines, Pieces, Refusal, Settings};
use std::sync::{Mutex, MutexGuard, PoisonError};

/// The lines of a call, and which lines of the delivery they are.
#[derive(Debug, Default)]
pub struct Lent {
    pub coordinates: Vec<f64>,
    counts: Vec<u32>,
    groups: Vec<u32>,
    kinds: Vec<u8>,
    /// Per line of the call one of the delivery.
    whose: Vec<u32>,
}

impl Lent {
    pub fn clear(&mut self) {
        self.coordinates.clear();
        self.counts.clear();
        self.groups.clear();
        self.kinds.clear();
        self.whose.clear();
    }

    /// Ends a plain line of so many coordinates, whose numbers have been put, and gives its number.
    pub fn end_line(&mut self, points: usize, group: u32, whose: u32) -> u32 {
        self.counts.push(points as u32);
        self.groups.push(group);
        self.kinds.push(0);
        self.whose.push(whose);
        self.whose.len() as u32 - 1
    }

    /// The line of the delivery that a line of the call is, or stands in for, if it is for one.
    pub fn whose(&self, line: u32) -> Option<u32> {
        self.whose.get(line as usize).copied().filter(|&line| line != NONE)
    }

    /// How many lines there are.
    pub fn len(&self) -> usize {
        self.counts.len()
    }

    /// The lines as a call takes them.
    pub fn lines(&self, dimension: Dimension) -> Lines<'_> {
        Lines {
            dimension,
            coordinates: &self.coordinates,
            counts: &self.counts,
            groups: &self.groups,
            kinds: &self.kinds,
        }
    }
}

/// Puts numbers behind others. Few are put without a call for the copy.
pub fn put(into: &mut Vec<f64>, numbers: &[f64]) {
    match *numbers {
        [a, b] => into.extend_from_slice(&[a, b]),
        [a, b, c, d] => into.extend_from_slice(&[a, b, c, d]),
        [a, b, c, d, e, f] => into.extend_from_slice(&[a, b, c, d, e, f]),
        [a, b, c, d, e, f, g, h] => into.extend_from_slice(&[a, b, c, d, e, f, g, h]),
        _ => into.extend_from_slice(numbers),
    }
}

/// The pieces of a finishing call.
#[derive(Debug, Default)]
pub struct LentPieces {
    records: Vec<u32>,
    members: Vec<u32>,
    marks: Vec<u8>,
    merged: Vec<f64>,
    /// The first member of the piece that is being put.
    first: usize,
}

/// The numbers of a piece's record.
const PIECE: usize = 5;

impl LentPieces {
    pub fn clear(&mut self) {
        self.records.clear();
        self.members.clear();
        self.marks.clear();
        self.merged.clear();
    }

    /// Begins a piece.
    pub fn begin(&mut self) {
        self.first = self.members.len();
    }

    /// Puts a line of the call into the piece, with its mark.
    pub fn put_line(&mut self, line: u32, mark: u8) {
        self.members.push(line);
        self.marks.push(mark);
    }

    /// Ends a piece of one line, of so many coordinates from one on.
    pub fn end_own(&mut self, first: usize, points: usize) {
        self.end(0, first, points);
    }

    /// Ends a piece of several lines with its numbers.
    pub fn end_merged(&mut self, numbers: &[f64], stride: usize) {
        let first = self.merged.len() / stride;
        self.merged.extend_from_slice(numbers);
        self.end(1, first, numbers.len() / stride);
    }

    fn end(&mut self, source: usize, first: usize, points: usize) {
        let record = [self.first, self.members.len() - self.first, source, first, points];
        self.records.extend(record.map(|number| number as u32));
    }

    /// The pieces as the call takes them. Round one's members stand in the order of its coordinates, so
    /// that they are the listing too.
    pub fn lent(&self) -> Pieces<'_> {
        Pieces {
            records: &self.records,
            members: &self.members,
            marks: &self.marks,
            listing: &self.members,
            merged: &self.merged,
        }
    }
}

/// The rooms that a call answers in.
#[derive(Debug, Default)]
pub struct Answer {
    pub table: Vec<u32>,
    pub members: Vec<u32>,
    pub marks: Vec<u8>,
    pub listing: Vec<u32>,
    pub merged: Vec<f64>,
    pub boxes: Vec<f64>,
    spare: Vec<f64>,
    pub workspace: Vec<u64>,
}

impl Answer {
    /// Makes the rooms long enough for so many lines and numbers.
    fn grow(&mut self, lines: usize, numbers: usize) {
        grow(&mut self.table, RECORD * lines);
        grow(&mut self.members, lines);
        grow(&mut self.marks, lines);
        grow(&mut self.listing, lines);
        grow(&mut self.merged, numbers);
        grow(&mut self.boxes, BOXES * lines + BOXES_BESIDE);
        grow(&mut self.spare, numbers);
        grow(&mut self.workspace, LINE_WORKSPACE * lines);
    }

    /// Builds the chains of lines by round one alone, and gives their number.
    pub fn build(&mut self, lines: Lines, settings: Settings) -> Result<usize, Refusal> {
        self.grow(lines.len(), lines.coordinates.len());
        let (switch, limit) = settings.switch_and_limit();
        let raw = RawSettings { tolerance: 0.0, origin: [0.0; 2], switch, limit };
        let Answer { table, members, marks, listing, merged, boxes, spare, workspace } = self;
        let rooms = BuildRooms { table, members, marks, listing, merged, boxes, spare, workspace };
        let answer = door::build(lines.dimension.wkb_type(), lines, raw, rooms);
        Ok(door::result(answer)? as usize)
    }

    /// Finishes pieces of lines by round two, and gives the number of chains.
    pub fn finish(
        &mut self,
        lines: Lines,
        pieces: Pieces,
        settings: Settings,
    ) -> Result<usize, Refusal> {
        self.grow(lines.len(), lines.coordinates.len());
        let (switch, limit) = settings.switch_and_limit();
        let Settings { tolerance, origin, .. } = settings;
        let raw = RawSettings { tolerance, origin, switch, limit };
        let Answer { table, members, marks, listing, merged, boxes, workspace, .. } = self;
        let rooms = FinishRooms { table, members, marks, listing, merged, boxes, workspace };
        let k = (pieces.records.len() / PIECE) as u64;
        let answer = door::finish(lines.dimension.wkb_type(), lines, pieces, k, raw, rooms);
        Ok(door::result(answer)? as usize)
    }

    /// The records of so many chains.
    pub fn records(&self, chains: usize) -> impl Iterator<Item = Record<'_>> {
        let record = move |numbers: &'_ [u32]| {
            let [member, members, first, count] = [numbers[0], numbers[1], numbers[3], numbers[4]];
            let first = first as usize;
            Record {
                members: part(&self.members, member, members, 1),
                marks: part(&self.marks, member, members, 1),
                listing: part(&self.listing, member, members, 1),
                points: first..first + count as usize,
            }
        };
        self.table.chunks_exact(RECORD).take(chains).map(record)
    }
}

/// A chain of a call.
#[derive(Clone, Debug)]
pub struct Record<'a> {
    pub members: &'a [u32],
    pub marks: &'a [u8],
    pub listing: &'a [u32],
    /// Its coordinates among those that it stands in.
    pub points: std::ops::Range<usize>,
}

/// Lends batches to the library, one after another, in the same rooms.
#[derive(Debug, Default)]
pub struct Caller {
    pub junctions: Junctions,
    pub gathered: Gathered,
    pub lent: Lent,
    pub pieces: LentPieces,
    pub answer: Answer,
    /// How many calls were made.
    pub calls: usize,
    /// The outlines of several pieces whose chains were laid without a call.
    pub laid: Vec<u32>,
}

/// A caller for each core.
#[derive(Debug, Default)]
pub struct Callers(Vec<Mutex<Caller>>);

impl Callers {
    /// Makes as many as there are cores.
    pub fn grow(&mut self, cores: Cores) {
        let count = cores.count().max(self.0.len());
        self.0.resize_with(count, Mutex::default);
    }

    /// The one of the core that this runs on. It is to be let go before the core does other work.
    pub fn this(&self, cores: Cores) -> MutexGuard<'_, Caller> {
        self.0[cores.this()].lock().unwrap_or_else(PoisonError::into_inner)
    }

    /// Takes out how many calls were made, and puts the outlines that were laid without one into a list.
    pub fn take(&self, laid: &mut Vec<u32>) -> usize {
        let mut calls = 0;
        for caller in &self.0 {
            let mut caller = caller.lock().unwrap_or_else(PoisonError::into_inner);
            calls += std::mem::take(&mut caller.calls);
            laid.append(&mut caller.laid);
        }
        calls
    }
}
