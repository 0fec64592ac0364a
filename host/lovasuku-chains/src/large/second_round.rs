//! Round two: the pieces that round one left, joined where ends lie in one cell.

use super::calling::{put, Caller, Record};
use super::pieces::{stand_in, LinePieces, Pieces};
use super::rounds::{Lender, Round};
use super::NONE;
use crate::{Refusal, Settings};

/// The chains of round one as the pieces of round two.
#[derive(Clone, Copy)]
pub struct ChainPieces<'a> {
    pub lines: LinePieces<'a>,
    pub first: &'a Round,
}

impl<'a> ChainPieces<'a> {
    /// The ends at which a piece's lines are entered.
    fn steps(&self, piece: u32) -> &'a [u32] {
        self.first.outlines.steps(piece)
    }

    /// The numbers of a piece.
    #[inline]
    fn of_piece(&self, piece: u32) -> &'a [f64] {
        match *self.steps(piece) {
            [step] => self.lines.of_line(step >> 1),
            _ => self.first.chain(piece, self.stride()),
        }
    }

    /// Lends the lines of a piece of several, and its coordinates.
    fn lend_several(&self, caller: &mut Caller, piece: u32) {
        let (numbers, stride) = (self.numbers(piece), self.stride());
        caller.pieces.begin();
        for step in self.steps(piece) {
            let line = step >> 1;
            put(&mut caller.lent.coordinates, self.lines.numbers(line));
            let lent = caller.lent.end_line(self.lines.points(line), self.group(piece), line);
            caller.pieces.put_line(lent, (step & 1) as u8);
        }
        caller.pieces.end_merged(numbers, stride);
    }

    /// Ends a piece of one line, whose numbers have been put from a place on.
    fn end_alone(&self, caller: &mut Caller, from: usize, group: u32, whose: u32) {
        let stride = self.stride();
        let points = (caller.lent.coordinates.len() - from) / stride;
        let line = caller.lent.end_line(points, group, whose);
        caller.pieces.begin();
        caller.pieces.put_line(line, 0);
        caller.pieces.end_own(from / stride, points);
    }
}

impl Pieces for ChainPieces<'_> {
    fn count(&self) -> usize {
        self.first.outlines.len()
    }

    fn stride(&self) -> usize {
        self.lines.stride()
    }

    fn group(&self, piece: u32) -> u32 {
        self.lines.group(self.line_of(piece))
    }

    #[inline]
    fn numbers(&self, piece: u32) -> &[f64] {
        self.of_piece(piece)
    }

    fn passes(&self, _: u32) -> bool {
        false
    }

    fn lines(&self, piece: u32) -> usize {
        self.steps(piece).len()
    }

    fn points(&self, piece: u32) -> usize {
        self.steps(piece).iter().map(|step| self.lines.points(step >> 1)).sum()
    }

    fn room(&self, piece: u32) -> usize {
        self.numbers(piece).len() / self.stride()
    }
}

impl Lender for ChainPieces<'_> {
    fn lend(&self, caller: &mut Caller, piece: u32, whole: bool) {
        if whole && self.lines(piece) > 1 {
            return self.lend_several(caller, piece);
        }
        let (numbers, stride) = (self.numbers(piece), self.stride());
        let coordinates = &mut caller.lent.coordinates;
        let from = coordinates.len();
        match whole {
            true => put(coordinates, numbers),
            false => stand_in(numbers, stride, |some| put(coordinates, some)),
        }
        self.end_alone(caller, from, self.group(piece), self.line_of(piece));
    }

    fn block(&self, caller: &mut Caller, end: u32) {
        let (numbers, stride) = (self.numbers(end >> 1), self.stride());
        let at = if end & 1 == 0 { 0 } else { numbers.len() - stride };
        let from = caller.lent.coordinates.len();
        for _ in 0..2 {
            put(&mut caller.lent.coordinates, &numbers[at..at + stride]);
        }
        self.end_alone(caller, from, self.group(end >> 1), NONE);
    }

    fn call(&self, caller: &mut Caller, settings: Settings) -> Result<usize, Refusal> {
        let Caller { lent, pieces, answer, .. } = caller;
        answer.finish(lent.lines(self.lines.lines.dimension), pieces.lent(), settings)
    }

    fn all_lines(&self) -> usize {
        self.lines.all_lines()
    }

    fn piece_of(&self, line: u32) -> u32 {
        self.first.outlines.of(line)
    }

    fn line_of(&self, piece: u32) -> u32 {
        self.steps(piece)[0] >> 1
    }

    fn is_same(&self, caller: &Caller, record: &Record, steps: &[u32]) -> bool {
        let Record { members, marks, listing, .. } = *record;
        let mut from = 0;
        for step in steps {
            let (lines, turned) = (self.steps(step >> 1), step & 1);
            let to = from + lines.len();
            if to > members.len() {
                return false;
            }
            let entered = members[from..to].iter().zip(&marks[from..to]).map(|(&line, &mark)| {
                caller.lent.whose(line).map(|line| 2 * line + (u32::from(mark) ^ turned))
            });
            let passed = listing[from..to].iter().map(|&line| caller.lent.whose(line));
            let wanted = lines.iter().map(|step| Some(step >> 1));
            let same_way = match turned {
                0 => passed.eq(wanted),
                _ => passed.eq(wanted.rev()),
            };
            if !same_way || !entered.eq(lines.iter().copied().map(Some)) {
                return false;
            }
            from = to;
        }
        from == members.len()
    }
}
