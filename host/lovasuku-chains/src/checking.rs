//! Chains made elsewhere: whether they are acceptable as chains of these lines.

use crate::chains::part;
use crate::size::RECORD;
use crate::{chain_coordinates, door, Chains, Dimension, Lines, Refusal, Rooms, Settings};
use std::iter::repeat;

/// Chains that somebody delivers, as three slices of the caller's. They may come from anywhere.
#[derive(Clone, Copy, Debug, Default, PartialEq)]
pub struct Delivered<'a> {
    /// Six numbers a chain, as [`Chains::table`] has them: the first of its lines in the listing, their
    /// number, the source of its coordinates (0 those of the lines, 1 the merged ones), the first of these
    /// and their number, and one that is not looked at.
    pub table: &'a [u32],
    /// Positions of lines, in each chain in the order of travel.
    pub listing: &'a [u32],
    /// The coordinates of source 1, of the lines' dimension.
    pub merged: &'a [f64],
}

impl<'a> Delivered<'a> {
    /// The number of chains. A record that is not whole counts, and is then refused.
    pub fn len(&self) -> usize {
        self.table.chunks(RECORD).len()
    }

    /// True where there is no chain.
    pub fn is_empty(&self) -> bool {
        self.table.is_empty()
    }

    /// The lines that a chain lists and all numbers of its coordinates, where its record names such of
    /// these lines.
    pub(crate) fn named(&self, lines: Lines<'a>, chain: usize) -> Option<(&'a [u32], &'a [f64])> {
        let Lines { dimension, coordinates, .. } = lines;
        let Delivered { table, listing, merged } = *self;
        let numbers =
            chain_coordinates(dimension, coordinates, merged, table, chain as u64).ok()?;
        let record = table.chunks_exact(RECORD).nth(chain)?;
        let (first, count) = (*record.first()?, *record.get(1)?);
        let listed = part(listing, first, count, 1);
        let within = first as usize + count as usize <= listing.len();
        let known = listed.iter().all(|&line| (line as usize) < lines.len());
        (within && known).then_some((listed, numbers))
    }
}

impl<'a> Chains<'a> {
    /// The chains as they would be delivered: [`Rooms::check`] accepts them under the same tolerance and
    /// origin.
    pub fn delivered(&self) -> Delivered<'a> {
        Delivered { table: self.table, listing: self.listing, merged: self.merged }
    }
}

impl Rooms {
    /// Checks chains made elsewhere: accepts them exactly where every line stands in exactly one chain,
    /// once, and every chain fits its lines.
    ///
    /// A chain of one line has that line's coordinates, bit for bit, with their extras. The lines of any
    /// other are of one group, none of them passes through, and a direction can be chosen for each such
    /// that consecutive lines meet, in the same x and y bit for bit or, where the tolerance is above 0, in
    /// the same cell, and that these lines laid end to end without repeats of x and y are the chain's
    /// coordinates by `==`. The limit is not looked at: chains that building would have cut or joined
    /// otherwise are accepted too, as long as their lines meet.
    ///
    /// ```
    /// use lovasuku_chains::{find, DeliveredBuf, LinesBuf, Refusal, Rooms, Settings};
    ///
    /// # fn main() -> Result<(), Refusal> {
    /// let mut roads = LinesBuf::default();
    /// roads.push([[0.0, 0.0], [1.25, 0.0]], 0);
    /// roads.push([[3.5, 0.0], [1.75, 0.0]], 0);
    /// let mut chains = DeliveredBuf::default();
    /// chains.push([1, 0], [[3.5, 0.0], [1.75, 0.0], [1.25, 0.0], [0.0, 0.0]]);
    ///
    /// let mut rooms = Rooms::default();
    /// let (lines, exact) = (roads.lines(), Settings::default());
    /// assert_eq!(rooms.check(lines, chains.delivered(), exact.with_tolerance(1.0)), Ok(()));
    /// let refused = rooms.check(lines, chains.delivered(), exact);
    /// assert_eq!(refused, Err(Refusal::NotAcceptable));
    /// let fault = find(lines, chains.delivered(), exact).unwrap();
    /// assert_eq!(
    ///     fault.to_string(),
    ///     "chain 0, line 0: it does not meet line 1, which is listed before it"
    /// );
    /// // What was built is accepted.
    /// let chains = rooms.build(lines, exact)?;
    /// assert_eq!(Rooms::default().check(lines, chains.delivered(), exact), Ok(()));
    /// # Ok(())
    /// # }
    /// ```
    ///
    /// # Errors
    ///
    /// The first of these that applies: [`Refusal::TooMany`], [`Refusal::TablesDiffer`],
    /// [`Refusal::MarkAboveOne`], [`Refusal::CountsDoNotAddUp`], [`Refusal::TooManyCoordinates`],
    /// [`Refusal::DistrictOverLines`], [`Refusal::DistrictOverCoordinates`], [`Refusal::NoPlace`],
    /// [`Refusal::BadOrigin`], [`Refusal::BadRecord`], [`Refusal::NotAcceptable`].
    pub fn check(
        &mut self,
        lines: Lines<'_>,
        chains: Delivered<'_>,
        settings: Settings,
    ) -> Result<(), Refusal> {
        lines.test_lengths()?;
        let workspace = self.workspace_for(lines.len());
        let meeting = (settings.tolerance, settings.origin);
        let (wkb_type, k) = (lines.dimension.wkb_type(), chains.len() as u64);
        door::result(door::check(wkb_type, lines, meeting, chains, k, workspace)).map(|_| ())
    }
}

/// Chains to be delivered in the making, one at a time. Their coordinates all stand in source 1.
///
/// ```
/// use lovasuku_chains::{DeliveredBuf, LinesBuf, Rooms, Settings};
///
/// let mut roads = LinesBuf::default();
/// roads.push([[0.0, 0.0], [1.0, 0.0]], 0);
/// let mut chains = DeliveredBuf::default();
/// chains.push([0], [[0.0, 0.0], [1.0, 0.0]]);
/// let checked = Rooms::default().check(roads.lines(), chains.delivered(), Settings::default());
/// assert_eq!(checked, Ok(()));
/// ```
#[derive(Clone, Debug, Default, PartialEq)]
pub struct DeliveredBuf {
    dimension: Dimension,
    table: Vec<u32>,
    listing: Vec<u32>,
    merged: Vec<f64>,
}

impl DeliveredBuf {
    /// No chains so far, of coordinates of a dimension. Those of [`default`](Default::default) are x and
    /// y.
    pub fn of(dimension: Dimension) -> Self {
        DeliveredBuf { dimension, ..DeliveredBuf::default() }
    }

    /// Adds a chain by its lines in the order of travel and by its coordinates. A number that a
    /// coordinate lacks becomes NaN, and one that it has too many is left out.
    pub fn push<const N: usize>(
        &mut self,
        lines: impl IntoIterator<Item = u32>,
        coordinates: impl IntoIterator<Item = [f64; N]>,
    ) {
        let (line, number) = (self.listing.len(), self.merged.len());
        self.listing.extend(lines);
        let stride = self.dimension.stride();
        for numbers in coordinates {
            self.merged.extend(numbers.get(..stride).unwrap_or(&numbers));
            self.merged.extend(repeat(f64::NAN).take(stride.saturating_sub(N)));
        }
        self.end_chain(line, number);
    }

    /// Adds a chain by its lines and by all numbers of its coordinates. Numbers that do not make up a
    /// coordinate at the end are left out.
    pub fn push_numbers(&mut self, lines: impl IntoIterator<Item = u32>, numbers: &[f64]) {
        let (line, number) = (self.listing.len(), self.merged.len());
        self.listing.extend(lines);
        let whole = numbers.len() - numbers.len() % self.dimension.stride();
        self.merged.extend(numbers.get(..whole).unwrap_or_default());
        self.end_chain(line, number);
    }

    /// Ends the chain whose lines and numbers begin at the given ones.
    fn end_chain(&mut self, line: usize, number: usize) {
        let stride = self.dimension.stride();
        let (lines, points) = (self.listing.len() - line, (self.merged.len() - number) / stride);
        let named = [line, lines, number / stride, points].map(|number| u32::try_from(number).ok());
        // What no u32 can name is of a source that is none, so that it is refused.
        let record = match named {
            [Some(line), Some(lines), Some(first), Some(count)] => {
                [line, lines, 1, first, count, 0]
            }
            _ => [0, 0, u32::MAX, 0, 0, 0],
        };
        self.table.extend(record);
    }

    /// All chains so far.
    pub fn delivered(&self) -> Delivered<'_> {
        Delivered { table: &self.table, listing: &self.listing, merged: &self.merged }
    }

    /// The number of chains so far.
    pub fn len(&self) -> usize {
        self.table.len() / RECORD
    }

    /// True where there is no chain so far.
    pub fn is_empty(&self) -> bool {
        self.table.is_empty()
    }

    /// Takes all chains out and keeps the dimension and the room that they had.
    pub fn clear(&mut self) {
        self.table.clear();
        self.listing.clear();
        self.merged.clear();
    }
}
