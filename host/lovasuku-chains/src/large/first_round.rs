//! Round one: the lines of a delivery, joined where ends agree bit for bit.

use super::calling::{put, Caller, Record};
use super::pieces::{stand_in, LinePieces, Pieces};
use super::rounds::Lender;
use super::NONE;
use crate::{Refusal, Settings};

impl LinePieces<'_> {
    /// The numbers of the coordinate at an end.
    fn at(&self, end: u32) -> &[f64] {
        let (numbers, stride) = (self.numbers(end >> 1), self.stride());
        match end & 1 {
            0 => &numbers[..stride],
            _ => &numbers[numbers.len() - stride..],
        }
    }
}

impl Lender for LinePieces<'_> {
    fn lend(&self, caller: &mut Caller, line: u32, whole: bool) {
        let numbers = self.numbers(line);
        let (lent, stride) = (&mut caller.lent, self.stride());
        let before = lent.coordinates.len();
        match whole {
            true => put(&mut lent.coordinates, numbers),
            false => stand_in(numbers, stride, |some| put(&mut lent.coordinates, some)),
        }
        let points = (lent.coordinates.len() - before) / stride;
        lent.end_line(points, self.group(line), line);
    }

    fn block(&self, caller: &mut Caller, end: u32) {
        for _ in 0..2 {
            caller.lent.coordinates.extend(self.at(end));
        }
        caller.lent.end_line(2, self.group(end >> 1), NONE);
    }

    fn call(&self, caller: &mut Caller, settings: Settings) -> Result<usize, Refusal> {
        caller.answer.build(caller.lent.lines(self.lines.dimension), settings)
    }

    fn all_lines(&self) -> usize {
        self.lines.len()
    }

    fn piece_of(&self, line: u32) -> u32 {
        line
    }

    fn line_of(&self, piece: u32) -> u32 {
        piece
    }

    fn is_same(&self, caller: &Caller, record: &Record, steps: &[u32]) -> bool {
        let entered =
            record.members.iter().zip(record.marks).map(|(&line, &mark)| {
                caller.lent.whose(line).map(|line| 2 * line + u32::from(mark))
            });
        entered.eq(steps.iter().copied().map(Some)) && record.members == record.listing
    }
}
