//! The search through a delivery, chain by chain.

use super::Unacceptable;
use crate::chains::part;
use crate::large::key;
use crate::size::POINT;
use crate::{Delivered, Lines, Points, Settings, PASSING};
use std::collections::BTreeSet;

/// A line that is at fault, if it is one line, and why.
type Fault = (Option<u32>, Unacceptable);

type Point = [f64; POINT];

/// What a search knows.
pub struct Search<'a> {
    lines: Lines<'a>,
    chains: Delivered<'a>,
    settings: Settings,
    /// The first coordinate of each line.
    firsts: Vec<usize>,
    /// The chain that each line stands in, as far as chains have been looked at.
    stands_in: Vec<Option<usize>>,
}

/// How far choices of directions have come: the numbers of the chain's coordinates that the lines so far
/// can be, where the last of them is travelled as it was drawn, and where it is turned.
#[derive(Default)]
struct Ways([BTreeSet<usize>; 2]);

/// The two directions: as drawn, and turned.
const DIRECTIONS: [bool; 2] = [false, true];

impl<'a> Search<'a> {
    pub fn of(lines: Lines<'a>, chains: Delivered<'a>, settings: Settings) -> Self {
        let firsts = lines.firsts();
        Search { lines, chains, settings, firsts, stands_in: vec![None; lines.len()] }
    }

    /// The first line that stands in no chain that has been looked at.
    pub fn missing(&self) -> Option<u32> {
        self.stands_in.iter().position(Option::is_none).map(|line| line as u32)
    }

    /// What is not acceptable of a chain.
    pub fn chain(&mut self, chain: usize) -> Option<Fault> {
        let (listed, numbers) = match self.chains.named(self.lines, chain) {
            None => return Some((None, Unacceptable::Record)),
            Some(named) => named,
        };
        match *listed {
            [] if numbers.is_empty() => None,
            [] => Some((None, Unacceptable::NoLine)),
            [line] => self.stand(chain, line).or_else(|| self.alone(line, numbers)),
            [first, ..] => self.joined(chain, first, listed, numbers).err(),
        }
    }

    /// Lets a line stand in a chain, unless it stands in one already.
    fn stand(&mut self, chain: usize, line: u32) -> Option<Fault> {
        let stands_in = self.stands_in.get_mut(line as usize)?;
        match *stands_in {
            Some(chain) => Some((Some(line), Unacceptable::Again { chain })),
            None => {
                *stands_in = Some(chain);
                None
            }
        }
    }

    /// The numbers of a line.
    fn numbers(&self, line: u32) -> &'a [f64] {
        let stride = self.lines.dimension.stride();
        let first = self.firsts.get(line as usize).copied().unwrap_or(usize::MAX);
        let count = self.lines.counts.get(line as usize).copied().unwrap_or_default();
        let from = first.checked_mul(stride).and_then(|from| self.lines.coordinates.get(from..));
        part(from.unwrap_or_default(), 0, count, stride)
    }

    /// What is not acceptable of a line that stands alone.
    fn alone(&self, line: u32, numbers: &[f64]) -> Option<Fault> {
        let own = self.numbers(line);
        let both = own.iter().zip(numbers);
        let same = both.take_while(|(a, b)| a.to_bits() == b.to_bits()).count();
        let whole = same == own.len() && same == numbers.len();
        let at = same / self.lines.dimension.stride();
        (!whole).then_some((Some(line), Unacceptable::Touched { at }))
    }

    /// Goes through the lines of a chain of several. The error is the first that is at fault, or the
    /// chain.
    fn joined(
        &mut self,
        chain: usize,
        first: u32,
        listed: &[u32],
        numbers: &[f64],
    ) -> Result<(), Fault> {
        let points: Vec<Point> = Points::of(numbers, self.lines.dimension).collect();
        let (mut ways, mut before) = (Ways::default(), None);
        for &line in listed {
            if let Some(fault) = self.stand(chain, line).or_else(|| self.unfit(first, line)) {
                return Err(fault);
            }
            let onward = self.onward(&ways, before, line, &points);
            ways = onward.map_err(|why| (Some(line), why))?;
            before = Some(line);
        }
        match ways.furthest() {
            at if at < points.len() => Err((None, Unacceptable::Longer { at })),
            _ => Ok(()),
        }
    }

    /// What is not acceptable of a line among several, whatever the coordinates are.
    fn unfit(&self, first: u32, line: u32) -> Option<Fault> {
        let of = |line: u32| self.lines.groups.get(line as usize);
        let count = self.lines.counts.get(line as usize).copied().unwrap_or_default();
        if self.lines.kinds.get(line as usize) == Some(&PASSING) || count < 2 {
            Some((Some(line), Unacceptable::Passing))
        } else if of(line) != of(first) {
            Some((Some(line), Unacceptable::Group { first }))
        } else {
            None
        }
    }

    /// How far choices come with a line behind the one before it, if any does.
    fn onward(
        &self,
        ways: &Ways,
        before: Option<u32>,
        line: u32,
        chain: &[Point],
    ) -> Result<Ways, Unacceptable> {
        let (mut onward, mut met, mut furthest) = (Ways::default(), false, 0);
        for turned in DIRECTIONS {
            let mut points: Vec<Point> =
                Points::of(self.numbers(line), self.lines.dimension).collect();
            if turned {
                points.reverse();
            }
            let from = self.entered_from(ways, before, points.first());
            met |= !from.is_empty();
            for at in from {
                match laid(chain, at, &points) {
                    Ok(to) => {
                        onward.0[usize::from(turned)].insert(to);
                    }
                    Err(to) => furthest = furthest.max(to),
                }
            }
        }
        match before {
            _ if onward.0.iter().any(|places| !places.is_empty()) => Ok(onward),
            Some(before) if !met => Err(Unacceptable::Apart { before }),
            _ => Err(Unacceptable::Differs { at: furthest }),
        }
    }

    /// The places from which a line can be entered at a point: those of the directions in which the line
    /// before it is left where the two meet.
    fn entered_from(
        &self,
        ways: &Ways,
        before: Option<u32>,
        point: Option<&Point>,
    ) -> BTreeSet<usize> {
        let before = match before {
            None => return BTreeSet::from([0]),
            Some(before) => Points::of(self.numbers(before), self.lines.dimension),
        };
        let left =
            |turned: bool| if turned { before.clone().next() } else { before.clone().next_back() };
        let key_of = |point: Point| key(0, point, self.settings);
        let meets = |turned: &bool| matches!((left(*turned), point), (Some(a), Some(b)) if key_of(a) == key_of(*b));
        let met = DIRECTIONS.into_iter().filter(meets);
        met.flat_map(|turned| ways.0[usize::from(turned)].iter().copied()).collect()
    }
}

impl Ways {
    /// The furthest place that a choice comes to.
    fn furthest(&self) -> usize {
        self.0
            .iter()
            .filter_map(|places| places.iter().next_back())
            .copied()
            .max()
            .unwrap_or_default()
    }
}

/// Lays points behind the first so many coordinates of a chain, without repeats, and gives how many are
/// then laid. The error is the coordinate that is not the point's.
fn laid(chain: &[Point], mut at: usize, points: &[Point]) -> Result<usize, usize> {
    for point in points {
        let last = at.checked_sub(1).and_then(|last| chain.get(last));
        if last == Some(point) {
            continue;
        }
        match chain.get(at) {
            Some(next) if next == point => at += 1,
            _ => return Err(at),
        }
    }
    Ok(at)
}
