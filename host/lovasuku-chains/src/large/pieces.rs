//! What a round joins: pieces, with their ends and what a node sees of them.

use super::Point;
use crate::Lines;

/// The pieces of a round, each by its number. End 0 of piece p has the number 2 p, its end 1 the number
/// 2 p + 1.
pub trait Pieces: Sync {
    /// How many there are.
    fn count(&self) -> usize;

    /// The numbers of a coordinate.
    fn stride(&self) -> usize;

    /// The group of a piece.
    fn group(&self, piece: u32) -> u32;

    /// The numbers of a piece.
    fn numbers(&self, piece: u32) -> &[f64];

    /// True where a piece passes through.
    fn passes(&self, piece: u32) -> bool;

    /// How many lines it has.
    fn lines(&self, piece: u32) -> usize;

    /// How many coordinates its lines have.
    fn points(&self, piece: u32) -> usize;

    /// How many coordinates it has itself.
    fn room(&self, piece: u32) -> usize;

    /// The point of an end.
    fn end(&self, end: u32) -> Option<Point> {
        end_of(self.numbers(end >> 1), self.stride(), end & 1)
    }
}

/// The first or the last point of a run.
pub fn end_of(run: &[f64], stride: usize, side: u32) -> Option<Point> {
    let from = if side == 0 { 0 } else { run.len().checked_sub(stride)? };
    Some([*run.get(from)?, *run.get(from + 1)?])
}

/// The direction at an end of a run, into it: from the end's point to the nearest one inward that
/// differs. None where none does, or where the two are too near for a length.
pub fn direction([x, y]: Point, run: &[f64], stride: usize, side: u32) -> Option<Point> {
    let [to_x, to_y] = inward([x, y], run, stride, side).map(|p| [p[0], p[1]])?;
    let (dx, dy) = (to_x - x, to_y - y);
    let length = (dx * dx + dy * dy).sqrt();
    (length > 0.0).then(|| [dx / length, dy / length])
}

/// The coordinate nearest to an end of a run that differs from its point.
fn inward([x, y]: Point, run: &[f64], stride: usize, side: u32) -> Option<&[f64]> {
    let differs = |p: &&[f64]| p[0] != x || p[1] != y;
    match side {
        0 => run.chunks_exact(stride).find(differs),
        _ => run.rchunks_exact(stride).find(differs),
    }
}

/// The most coordinates of a stand-in.
pub const STAND_IN: usize = 4;

/// What stands in for a piece where nothing is laid of it: its ends and, of each, the nearest
/// coordinate that differs. A node sees no more of a piece than these: its ends' places and directions.
/// A piece of one coordinate has it twice, as a line must.
pub fn stand_in(run: &[f64], stride: usize, mut put: impl FnMut(&[f64])) {
    if run.len() <= STAND_IN * stride {
        put(run);
        return if run.len() == stride {
            put(run)
        };
    }
    put(&run[..stride]);
    for side in [0, 1] {
        let inward = end_of(run, stride, side).and_then(|end| inward(end, run, stride, side));
        inward.into_iter().for_each(&mut put);
    }
    put(&run[run.len() - stride..]);
}

/// The lines of a delivery as the pieces of round one.
#[derive(Clone, Copy, Debug)]
pub struct LinePieces<'a> {
    pub lines: Lines<'a>,
    /// The first coordinate of each line, and behind the last how many there are.
    pub firsts: &'a [u32],
}

impl<'a> LinePieces<'a> {
    /// All numbers of a line.
    #[inline]
    pub fn of_line(&self, line: u32) -> &'a [f64] {
        let stride = self.lines.dimension.stride();
        let line = line as usize;
        let [from, to] = [self.firsts[line], self.firsts[line + 1]].map(|at| stride * at as usize);
        &self.lines.coordinates[from..to]
    }
}

impl Pieces for LinePieces<'_> {
    fn count(&self) -> usize {
        self.lines.len()
    }

    fn stride(&self) -> usize {
        self.lines.dimension.stride()
    }

    fn group(&self, piece: u32) -> u32 {
        self.lines.groups[piece as usize]
    }

    #[inline]
    fn numbers(&self, piece: u32) -> &[f64] {
        self.of_line(piece)
    }

    /// By its kind, or for want of two coordinates.
    #[inline]
    fn passes(&self, piece: u32) -> bool {
        self.lines.kinds[piece as usize] != 0 || self.lines.counts[piece as usize] < 2
    }

    fn lines(&self, _: u32) -> usize {
        1
    }

    fn points(&self, piece: u32) -> usize {
        self.lines.counts[piece as usize] as usize
    }

    fn room(&self, piece: u32) -> usize {
        self.points(piece)
    }
}

#[cfg(test)]
mod tests {
    use super::{end_of, stand_in, Point};

    fn direction(run: &[f64], stride: usize, side: u32) -> Option<Point> {
        super::direction(end_of(run, stride, side)?, run, stride, side)
    }

    fn standing_in(run: &[f64]) -> Vec<f64> {
        let mut all = Vec::new();
        stand_in(run, 2, |numbers| all.extend(numbers));
        all
    }

    #[test]
    fn a_stand_in_has_the_ends_and_directions_of_its_piece() {
        let mut bits: u64 = 3;
        let mut next = |bound: u64| {
            bits = bits.wrapping_mul(6_364_136_223_846_793_005).wrapping_add(1);
            (bits >> 33) % bound
        };
        let numbers = [0.0, -0.0, 1.0, 2.5, 1e-200, 1e300, -1e300];
        let mut absent = 0;
        for round in 0..4_000 {
            let (count, kinds) = (1 + next(12), 1 + round % 7);
            let run: Vec<f64> = (0..2 * count).map(|_| numbers[next(kinds) as usize]).collect();
            let stood = standing_in(&run);
            assert!(stood.len() <= 8 && stood.len() >= 4);
            for side in [0, 1] {
                let [all, few] = [&run, &stood].map(|run| direction(run, 2, side));
                let bits = |toward: Option<[f64; 2]>| toward.map(|two| two.map(f64::to_bits));
                assert_eq!(bits(all), bits(few), "{run:?}");
                absent += usize::from(all.is_none());
            }
            let ends = |run: &[f64]| [run[0], run[1], run[run.len() - 2], run[run.len() - 1]];
            assert_eq!(ends(&run).map(f64::to_bits), ends(&stood).map(f64::to_bits));
        }
        assert!(absent > 500, "{absent}");
    }

    #[test]
    fn directions_at_the_edge_of_a_length() {
        // 2^-537 is the least difference with a length, 2^511 the greatest with a finite one.
        let power = |exponent: i32| 2f64.powi(exponent);
        let toward = |dx: f64| direction(&[0.0, 0.0, dx, 0.0], 2, 0);
        assert_eq!(toward(power(-537)), Some([1.0, 0.0]));
        assert_eq!(toward(power(-538)), None);
        assert_eq!(toward(power(511)), Some([1.0, 0.0]));
        assert_eq!(toward(power(512)), Some([0.0, 0.0]));
        assert_eq!(direction(&[1.0, 2.0, 1.0, 2.0], 2, 1), None);
    }
}
