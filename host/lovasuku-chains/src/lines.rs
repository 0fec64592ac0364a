//! The lines of a building call.

use crate::size::{MOST_LINES, MOST_POINTS, POINT};
use crate::two::one_by_one;
use crate::{Dimension, Refusal};
use std::iter::repeat;

/// A line that may be joined.
pub const PLAIN: u8 = 0;

/// A line that passes through unjoined, whatever it meets.
pub const PASSING: u8 = 1;

/// The lines of a building call, as four slices of the caller's. One line follows another.
///
/// ```
/// use lovasuku_chains::{Dimension, Lines, PLAIN};
///
/// // Two lines, of two and of three coordinates.
/// let lines = Lines {
///     dimension: Dimension::Xy,
///     coordinates: &[0.0, 0.0, 1.0, 0.0, 1.0, 0.0, 2.0, 0.0, 2.0, 5.0],
///     counts: &[2, 3],
///     groups: &[0, 0],
///     kinds: &[PLAIN, PLAIN],
/// };
/// assert_eq!(lines.len(), 2);
/// ```
#[derive(Clone, Copy, Debug, Default, PartialEq)]
pub struct Lines<'a> {
    /// What each coordinate has: x and y, and at times a height, a measure or both.
    pub dimension: Dimension,
    /// x, y, x, y .. of all lines, with each coordinate's extras behind its y. x and y may be any finite
    /// float, extras any float; each comes back bit for bit.
    pub coordinates: &'a [f64],
    /// The number of coordinates of each line.
    pub counts: &'a [u32],
    /// The group of each line. Lines of different groups are never joined. Those below
    /// [`BORDER`](crate::size::BORDER) are the first district's and the others the second's, and each district
    /// may bring [`MOST_DISTRICT_LINES`](crate::size::MOST_DISTRICT_LINES) and
    /// [`MOST_DISTRICT_POINTS`](crate::size::MOST_DISTRICT_POINTS).
    pub groups: &'a [u32],
    /// The kind of each line: [`PLAIN`] or [`PASSING`].
    pub kinds: &'a [u8],
}

impl<'a> Lines<'a> {
    /// Lines of x and y by their points, one line behind another, which are not copied.
    ///
    /// ```
    /// use lovasuku_chains::{Lines, PLAIN};
    ///
    /// let points = [[0.0, 0.0], [1.0, 0.0], [1.0, 0.0], [2.0, 0.0], [2.0, 5.0]];
    /// let lines = Lines::of_points(&points, &[2, 3], &[0, 0], &[PLAIN, PLAIN]);
    /// assert_eq!(lines.coordinates[6..], [2.0, 0.0, 2.0, 5.0]);
    /// ```
    pub fn of_points(
        points: &'a [[f64; POINT]],
        counts: &'a [u32],
        groups: &'a [u32],
        kinds: &'a [u8],
    ) -> Self {
        let (dimension, coordinates) = (Dimension::Xy, one_by_one(points));
        Lines { dimension, coordinates, counts, groups, kinds }
    }
}

impl Lines<'_> {
    /// The number of lines.
    pub fn len(&self) -> usize {
        self.counts.len()
    }

    /// True where there is no line.
    pub fn is_empty(&self) -> bool {
        self.counts.is_empty()
    }

    /// Refusals 1 to 5: those that speak of the lengths, and the one about kinds between them.
    pub(crate) fn test_lengths(&self) -> Result<(), Refusal> {
        let (n, numbers) = (self.len(), self.coordinates.len());
        let stride = self.dimension.stride();
        if n > MOST_LINES {
            Err(Refusal::TooMany)
        } else if self.groups.len() != n || self.kinds.len() != n {
            Err(Refusal::TablesDiffer)
        } else if self.kinds.iter().any(|&kind| kind > PASSING) {
            Err(Refusal::MarkAboveOne)
        } else if stride as u64 * self.points() != numbers as u64 {
            Err(Refusal::CountsDoNotAddUp)
        } else if numbers > stride * MOST_POINTS {
            Err(Refusal::TooManyCoordinates)
        } else {
            Ok(())
        }
    }

    /// The first coordinate of each line.
    pub(crate) fn firsts(&self) -> Vec<usize> {
        let after = |sum: &mut usize, &count: &u32| {
            let first = *sum;
            *sum = first.saturating_add(count as usize);
            Some(first)
        };
        self.counts.iter().scan(0, after).collect()
    }

    /// The sum of the counts.
    fn points(&self) -> u64 {
        self.counts.iter().map(|&count| u64::from(count)).sum()
    }
}

/// Lines in the making, one at a time.
///
/// ```
/// use lovasuku_chains::{LinesBuf, Rooms, Settings};
///
/// # fn main() -> Result<(), lovasuku_chains::Refusal> {
/// let mut lines = LinesBuf::default();
/// lines.push([[0.0, 0.0], [1.0, 0.0]], 0);
/// lines.push([[1.0, 0.0], [2.0, 0.0]], 0);
/// let mut rooms = Rooms::default();
/// assert_eq!(rooms.build(lines.lines(), Settings::default())?.len(), 1);
/// # Ok(())
/// # }
/// ```
///
/// With heights:
///
/// ```
/// use lovasuku_chains::{Dimension, LinesBuf, Rooms, Settings};
///
/// # fn main() -> Result<(), lovasuku_chains::Refusal> {
/// let mut lines = LinesBuf::of(Dimension::Xyz);
/// lines.push([[0.0, 0.0, 210.5], [1.0, 0.0, 211.0]], 0);
/// lines.push([[2.0, 0.0, 214.0], [1.0, 0.0, 213.0]], 0);
/// let mut rooms = Rooms::default();
/// let chains = rooms.build(lines.lines(), Settings::default())?;
/// // Where they meet, the height of the line that comes first stays.
/// assert_eq!(chains.merged(), [0.0, 0.0, 210.5, 1.0, 0.0, 211.0, 2.0, 0.0, 214.0]);
/// # Ok(())
/// # }
/// ```
#[derive(Clone, Debug, Default, PartialEq)]
pub struct LinesBuf {
    dimension: Dimension,
    coordinates: Vec<f64>,
    counts: Vec<u32>,
    groups: Vec<u32>,
    kinds: Vec<u8>,
}

impl LinesBuf {
    /// No lines so far, of coordinates of a dimension. Those of [`default`](Default::default) are x
    /// and y.
    pub fn of(dimension: Dimension) -> Self {
        LinesBuf { dimension, ..LinesBuf::default() }
    }

    /// Adds a plain line of a group. A number that a coordinate lacks becomes NaN, and one that it has
    /// too many is left out.
    pub fn push<const N: usize>(
        &mut self,
        coordinates: impl IntoIterator<Item = [f64; N]>,
        group: u32,
    ) {
        self.push_kind(coordinates, group, PLAIN);
    }

    /// Adds a line that passes through unjoined; its coordinates as with [`push`](LinesBuf::push).
    pub fn push_passing<const N: usize>(
        &mut self,
        coordinates: impl IntoIterator<Item = [f64; N]>,
        group: u32,
    ) {
        self.push_kind(coordinates, group, PASSING);
    }

    /// Adds a line of no coordinates that passes through.
    pub(crate) fn push_empty(&mut self, group: u32) {
        self.push_kind([[0.0; POINT]; 0], group, PASSING);
    }

    /// Adds a plain line whose extras stand apart from its points, those that are not there as NaN.
    pub fn push_apart(&mut self, points: &[[f64; POINT]], extras: &[f64], group: u32) {
        let width = self.dimension.extras();
        let first = self.coordinates.len();
        let mut rest = extras.iter().copied().chain(repeat(f64::NAN));
        for point in points {
            self.coordinates.extend(point);
            self.coordinates.extend(rest.by_ref().take(width));
        }
        self.end_line(first, group, PLAIN);
    }

    /// Adds a line of a kind by all numbers of its coordinates.
    pub(crate) fn push_numbers(&mut self, numbers: &[f64], group: u32, kind: u8) {
        let first = self.coordinates.len();
        self.coordinates.extend(numbers);
        self.end_line(first, group, kind);
    }

    fn push_kind<const N: usize>(
        &mut self,
        coordinates: impl IntoIterator<Item = [f64; N]>,
        group: u32,
        kind: u8,
    ) {
        let first = self.coordinates.len();
        let stride = self.dimension.stride();
        for numbers in coordinates {
            self.coordinates.extend(numbers.get(..stride).unwrap_or(&numbers));
            self.coordinates.extend(repeat(f64::NAN).take(stride.saturating_sub(N)));
        }
        self.end_line(first, group, kind);
    }

    /// Ends the line whose numbers begin at the given one.
    fn end_line(&mut self, first: usize, group: u32, kind: u8) {
        let count = (self.coordinates.len() - first) / self.dimension.stride();
        // A count beyond u32 cannot add up to the coordinates, so the call is refused.
        self.counts.push(u32::try_from(count).unwrap_or(u32::MAX));
        self.groups.push(group);
        self.kinds.push(kind);
    }

    /// Makes room for so many lines more with so many coordinates.
    pub fn reserve(&mut self, lines: usize, points: usize) {
        self.coordinates.reserve_exact(self.dimension.stride().saturating_mul(points));
        self.counts.reserve_exact(lines);
        self.groups.reserve_exact(lines);
        self.kinds.reserve_exact(lines);
    }

    /// All lines so far.
    pub fn lines(&self) -> Lines<'_> {
        Lines {
            dimension: self.dimension,
            coordinates: &self.coordinates,
            counts: &self.counts,
            groups: &self.groups,
            kinds: &self.kinds,
        }
    }

    /// The number of lines so far.
    pub fn len(&self) -> usize {
        self.counts.len()
    }

    /// True where there is no line so far.
    pub fn is_empty(&self) -> bool {
        self.counts.is_empty()
    }

    /// Takes all lines out and keeps the dimension and the room that they had.
    pub fn clear(&mut self) {
        self.coordinates.clear();
        self.counts.clear();
        self.groups.clear();
        self.kinds.clear();
    }
}
