//! The chains of a delivery, put together as one call would leave them.

use super::boxing;
use super::cores::Cores;
use super::fitting::{fit, resize};
use super::pieces::{LinePieces, Pieces};
use super::rounds::Round;
use crate::size::{BOX, BOXES, BOXES_BESIDE, RECORD};
use std::ops::Range;

/// A core puts together about so many chains at a time.
const PART: usize = 2_048;

/// The chains of a delivery as one call would leave them, and what they are put together by.
#[derive(Debug, Default)]
pub struct Whole {
    pub table: Vec<u32>,
    pub members: Vec<u32>,
    pub marks: Vec<u8>,
    pub listing: Vec<u32>,
    /// The marks in the listing's order.
    pub way: Vec<u8>,
    pub merged: Vec<f64>,
    pub boxes: Vec<f64>,
    /// The lines that pass through.
    passing: Vec<u32>,
    /// Per chain how many members and merged coordinates stand before its own, and behind the last how
    /// many there are.
    before: Vec<[u32; 2]>,
}

/// The rounds of a delivery: the first, and where there is a tolerance the second.
#[derive(Clone, Copy)]
pub struct Rounds<'a> {
    pub lines: LinePieces<'a>,
    pub first: &'a Round,
    pub second: Option<&'a Round>,
}

/// The coordinates of a chain.
enum Run<'a> {
    /// Those of a line, untouched.
    Own(u32),
    /// Those that were laid.
    Merged(&'a [f64]),
}

impl<'a> Rounds<'a> {
    fn last(&self) -> &'a Round {
        self.second.unwrap_or(self.first)
    }

    fn stride(&self) -> usize {
        self.lines.lines.dimension.stride()
    }

    /// Tells of each piece of a chain the ends at which its lines are entered, and whether the piece is
    /// turned. Without a second round a chain is one piece.
    fn pieces(&self, chain: u32, mut piece: impl FnMut(&'a [u32], u32)) {
        match self.second {
            None => piece(self.first.outlines.steps(chain), 0),
            Some(second) => second
                .outlines
                .steps(chain)
                .iter()
                .for_each(|step| piece(self.first.outlines.steps(step >> 1), step & 1)),
        }
    }

    /// The coordinates of a chain.
    fn run(&self, chain: u32) -> Run<'a> {
        let stride = self.stride();
        let of = |round: &'a Round, outline: u32| match *round.outlines.steps(outline) {
            [step] => Err(step >> 1),
            _ => Ok(round.chain(outline, stride)),
        };
        let laid = match self.second {
            None => of(self.first, chain),
            Some(second) => of(second, chain).or_else(|piece| of(self.first, piece)),
        };
        laid.map_or_else(Run::Own, Run::Merged)
    }
}

impl Whole {
    /// Puts together the chains of the last round, and behind them the lines that pass through, with
    /// boxes if they are asked for.
    pub fn put_together(&mut self, rounds: Rounds, boxes: bool, cores: Cores) {
        let lines = rounds.lines.lines.len();
        self.passing.clear();
        self.passing.extend((0..lines as u32).filter(|&line| rounds.lines.passes(line)));
        self.count(rounds);
        let chains = self.before.len() - 1;
        let [members, points] = self.before[chains].map(|count| count as usize);
        // Every number is written below, but for boxes above all levels, which are not looked at.
        resize(&mut self.table, RECORD * chains, 0);
        resize(&mut self.members, members, 0);
        resize(&mut self.marks, members, 0);
        resize(&mut self.listing, members, 0);
        resize(&mut self.way, members, 0);
        resize(&mut self.merged, rounds.stride() * points, 0.0);
        let part = Part {
            table: &mut self.table,
            members: &mut self.members,
            marks: &mut self.marks,
            listing: &mut self.listing,
            way: &mut self.way,
            merged: &mut self.merged,
        };
        let Whole { passing, before, .. } = self;
        let putting = Putting { rounds, passing, before, cores };
        putting.put(0..chains, part);
        let boxed = if boxes { BOXES * chains + BOXES_BESIDE } else { 0 };
        resize(&mut self.boxes, boxed, 0.0);
        if boxes {
            putting.put_boxes(0..chains, &mut self.boxes);
            boxing::put_levels(&mut self.boxes, chains);
        }
    }

    /// Counts what stands before each chain.
    fn count(&mut self, rounds: Rounds) {
        let stride = rounds.stride();
        let [mut members, mut points] = [0; 2];
        self.before.clear();
        fit(&mut self.before, rounds.last().outlines.len() + self.passing.len() + 1);
        self.before.push([0; 2]);
        for chain in 0..rounds.last().outlines.len() as u32 {
            rounds.pieces(chain, |steps, _| members += steps.len() as u32);
            if let Run::Merged(numbers) = rounds.run(chain) {
                points += (numbers.len() / stride) as u32;
            }
            self.before.push([members, points]);
        }
        self.before.extend((1..=self.passing.len() as u32).map(|more| [members + more, points]));
    }
}

/// What chains are put into: a part of each of the tables of all.
struct Part<'a> {
    table: &'a mut [u32],
    members: &'a mut [u32],
    marks: &'a mut [u8],
    listing: &'a mut [u32],
    way: &'a mut [u8],
    merged: &'a mut [f64],
}

impl<'a> Part<'a> {
    /// The part of so many chains with so many members and numbers, and what is behind it.
    fn split(self, chains: usize, members: usize, numbers: usize) -> [Part<'a>; 2] {
        let (table, table_behind) = self.table.split_at_mut(RECORD * chains);
        let (of_members, members_behind) = self.members.split_at_mut(members);
        let (marks, marks_behind) = self.marks.split_at_mut(members);
        let (listing, listing_behind) = self.listing.split_at_mut(members);
        let (way, way_behind) = self.way.split_at_mut(members);
        let (merged, merged_behind) = self.merged.split_at_mut(numbers);
        [
            Part { table, members: of_members, marks, listing, way, merged },
            Part {
                table: table_behind,
                members: members_behind,
                marks: marks_behind,
                listing: listing_behind,
                way: way_behind,
                merged: merged_behind,
            },
        ]
    }

    /// Puts a line of a chain at places among the members and in the listing.
    fn put_line(&mut self, line: u32, mark: u8, member: usize, place: usize) {
        self.members[member] = line;
        self.marks[member] = mark;
        self.listing[place] = line;
        self.way[place] = mark;
    }
}

/// The putting together of chains.
struct Putting<'a> {
    rounds: Rounds<'a>,
    passing: &'a [u32],
    before: &'a [[u32; 2]],
    cores: Cores,
}

impl Putting<'_> {
    fn put(&self, chains: Range<usize>, mut part: Part) {
        let [from, _] = [self.before[chains.start], self.before[chains.end]];
        if chains.len() > PART && self.cores != Cores::One {
            let middle = chains.start + chains.len() / 2;
            let [members, points] = [0, 1].map(|k| (self.before[middle][k] - from[k]) as usize);
            let numbers = self.rounds.stride() * points;
            let [one, other] = part.split(middle - chains.start, members, numbers);
            let after = middle..chains.end;
            self.cores.both(|| self.put(chains.start..middle, one), || self.put(after, other));
            return;
        }
        for (place, chain) in chains.enumerate() {
            let [member, point] = [0, 1].map(|k| (self.before[chain][k] - from[k]) as usize);
            let record = self.put_chain(chain, [member, point], &mut part);
            part.table[RECORD * place..RECORD * (place + 1)].copy_from_slice(&record);
        }
    }

    /// Puts the lines and the merged coordinates of a chain at places in a part, and gives its record.
    fn put_chain(&self, chain: usize, [at, point]: [usize; 2], part: &mut Part) -> [u32; RECORD] {
        let members = self.put_lines(chain, at, part);
        let (source, first, numbers) = match self.run(chain) {
            Run::Own(line) => {
                (0, self.rounds.lines.firsts[line as usize], self.rounds.lines.numbers(line))
            }
            Run::Merged(numbers) => {
                let from = self.rounds.stride() * point;
                part.merged[from..from + numbers.len()].copy_from_slice(numbers);
                (1, self.before[chain][1], numbers)
            }
        };
        let points = numbers.len() / self.rounds.stride();
        let looped = boxing::is_loop(numbers, self.rounds.stride());
        [self.before[chain][0], members as u32, source, first, points as u32, u32::from(looped)]
    }

    /// Puts the lines of a chain from a place on, and gives how many there are.
    fn put_lines(&self, chain: usize, at: usize, part: &mut Part) -> usize {
        if let Some(place) = chain.checked_sub(self.rounds.last().outlines.len()) {
            part.put_line(self.passing[place], 0, at, at);
            return 1;
        }
        let mut from = at;
        self.rounds.pieces(chain as u32, |steps, turned| {
            let last = from + steps.len() - 1;
            for (k, &step) in steps.iter().enumerate() {
                let place = if turned == 0 { from + k } else { last - k };
                part.put_line(step >> 1, (step & 1 ^ turned) as u8, from + k, place);
            }
            from += steps.len();
        });
        from - at
    }

    /// The coordinates of a chain, or of a line that passes through.
    fn run(&self, chain: usize) -> Run<'_> {
        match chain.checked_sub(self.rounds.last().outlines.len()) {
            Some(place) => Run::Own(self.passing[place]),
            None => self.rounds.run(chain as u32),
        }
    }

    /// Puts the boxes of chains.
    fn put_boxes(&self, chains: Range<usize>, boxes: &mut [f64]) {
        if chains.len() > PART && self.cores != Cores::One {
            let middle = chains.start + chains.len() / 2;
            let (before, after) = (chains.start..middle, middle..chains.end);
            let (boxes, others) = boxes.split_at_mut(BOX * before.len());
            self.cores.both(|| self.put_boxes(before, boxes), || self.put_boxes(after, others));
            return;
        }
        for (chain, room) in chains.zip(boxes.chunks_exact_mut(BOX)) {
            let numbers = match self.run(chain) {
                Run::Own(line) => self.rounds.lines.numbers(line),
                Run::Merged(numbers) => numbers,
            };
            room.copy_from_slice(&boxing::of(numbers, self.rounds.stride()));
        }
    }
}
