//! The chains of an accepted building call.

use crate::rooms::first;
use crate::size::RECORD;
use crate::{Dimension, Lines, Points};
use std::slice::ChunksExact;

/// The chains of an accepted building call, borrowed from the rooms and from the caller's lines.
///
/// Every line stands in exactly one chain.
#[derive(Clone, Copy, Debug)]
pub struct Chains<'a> {
    pub(crate) lines: Lines<'a>,
    pub(crate) table: &'a [u32],
    pub(crate) members: &'a [u32],
    pub(crate) marks: &'a [u8],
    pub(crate) listing: &'a [u32],
    /// The turned marks in the listing's order.
    pub(crate) way: &'a [u8],
    pub(crate) merged: &'a [f64],
    pub(crate) boxes: &'a [f64],
    /// How many chains the boxes are of, which are more than those of a part.
    pub(crate) boxed: usize,
}

impl<'a> Chains<'a> {
    /// The number of chains.
    pub fn len(&self) -> usize {
        self.table.len() / RECORD
    }

    /// True where there is no chain, which is where there was no line.
    pub fn is_empty(&self) -> bool {
        self.table.is_empty()
    }

    /// Chain k, if there is one.
    pub fn get(&self, k: usize) -> Option<Chain<'a>> {
        let first = k.checked_mul(RECORD)?;
        let record = self.table.get(first..first.checked_add(RECORD)?)?;
        Some(self.chain(record))
    }

    /// The first k chains, all where there are fewer.
    pub fn first(&self, k: usize) -> Chains<'a> {
        Chains { table: first(self.table, RECORD.saturating_mul(k)), ..*self }
    }

    /// The chains in their order.
    pub fn iter(&self) -> Iter<'a> {
        Iter { chains: *self, records: self.table.chunks_exact(RECORD) }
    }

    /// The records of all chains, six numbers each: first member, member count, source (0 the
    /// caller's coordinates, 1 the merged ones), first coordinate, coordinate count, and 1 where the
    /// chain is a loop.
    pub fn table(&self) -> &'a [u32] {
        self.table
    }

    /// The members of all chains, one chain after another: positions of lines.
    pub fn members(&self) -> &'a [u32] {
        self.members
    }

    /// The turned mark of every member, in the members' order.
    pub fn marks(&self) -> &'a [u8] {
        self.marks
    }

    /// The lines of all chains, one chain after another as in the members, in the order in which the
    /// coordinates pass them.
    pub fn listing(&self) -> &'a [u32] {
        self.listing
    }

    /// All numbers of the coordinates of all chains of several lines, one chain after another.
    pub fn merged(&self) -> &'a [f64] {
        self.merged
    }

    /// The lines of the call.
    pub fn lines(&self) -> Lines<'a> {
        self.lines
    }

    fn chain(&self, record: &[u32]) -> Chain<'a> {
        let [member, members, source, first, count, looped] = match *record {
            [member, members, source, first, count, looped] => {
                [member, members, source, first, count, looped]
            }
            _ => [0; RECORD],
        };
        let merged = source == 1;
        let from = if merged { self.merged } else { self.lines.coordinates };
        let dimension = self.lines.dimension;
        Chain {
            members: part(self.members, member, members, 1),
            marks: part(self.marks, member, members, 1),
            listing: part(self.listing, member, members, 1),
            way: part(self.way, member, members, 1),
            coordinates: part(from, first, count, dimension.stride()),
            dimension,
            merged,
            looped: looped == 1,
        }
    }
}

/// A part of a slice, counted in units of the given width. The records of an accepted call always
/// name a part that is there.
pub(crate) fn part<T>(from: &[T], first: u32, count: u32, width: usize) -> &[T] {
    let first = width * first as usize;
    let length = width * count as usize;
    from.get(first..).and_then(|rest| rest.get(..length)).unwrap_or_default()
}

impl<'a> IntoIterator for Chains<'a> {
    type Item = Chain<'a>;
    type IntoIter = Iter<'a>;

    fn into_iter(self) -> Iter<'a> {
        self.iter()
    }
}

impl<'a> IntoIterator for &Chains<'a> {
    type Item = Chain<'a>;
    type IntoIter = Iter<'a>;

    fn into_iter(self) -> Iter<'a> {
        self.iter()
    }
}

/// The chains of a call in their order.
#[derive(Clone, Debug)]
pub struct Iter<'a> {
    chains: Chains<'a>,
    records: ChunksExact<'a, u32>,
}

impl<'a> Iterator for Iter<'a> {
    type Item = Chain<'a>;

    fn next(&mut self) -> Option<Chain<'a>> {
        self.records.next().map(|record| self.chains.chain(record))
    }

    fn size_hint(&self) -> (usize, Option<usize>) {
        self.records.size_hint()
    }
}

impl ExactSizeIterator for Iter<'_> {}

/// A line on the way of a chain.
#[derive(Clone, Copy, Debug, PartialEq, Eq, Hash)]
pub struct PathLine {
    /// The position of the line.
    pub line: u32,
    /// True where the way runs from the line's last coordinate to its first: the line was drawn
    /// against it.
    pub turned: bool,
}

/// One chain: its lines, the way each was drawn and its coordinates, none of them copied.
#[derive(Clone, Copy, Debug, PartialEq)]
pub struct Chain<'a> {
    members: &'a [u32],
    marks: &'a [u8],
    listing: &'a [u32],
    way: &'a [u8],
    coordinates: &'a [f64],
    dimension: Dimension,
    merged: bool,
    looped: bool,
}

impl<'a> Chain<'a> {
    /// Its lines in the order in which its coordinates pass them, each with the way in which it was
    /// drawn.
    ///
    /// Laid end to end in this order, each backwards where it is turned, without repeats of x and y,
    /// they are the chain's coordinates by `==`; so it is proved, with a tolerance too.
    ///
    /// ```
    /// use lovasuku_chains::{LinesBuf, Rooms, Settings};
    ///
    /// # fn main() -> Result<(), lovasuku_chains::Refusal> {
    /// let mut roads = LinesBuf::default();
    /// roads.push([[0.0, 0.0], [1.25, 0.0]], 0);
    /// roads.push([[4.5, 0.0], [3.5, 0.0]], 0);
    /// roads.push([[3.5, 0.0], [1.75, 0.0]], 0);
    /// let mut rooms = Rooms::default();
    /// let chains = rooms.build(roads.lines(), Settings::default().with_tolerance(1.0))?;
    /// let chain = chains.get(0).unwrap();
    /// let path = chain.path().map(|step| (step.line, step.turned));
    /// assert!(path.eq([(0, false), (2, true), (1, true)]));
    /// // The members stand in the order in which the two rounds appended them.
    /// assert_eq!(chain.members(), [0, 1, 2]);
    /// # Ok(())
    /// # }
    /// ```
    pub fn path(&self) -> impl ExactSizeIterator<Item = PathLine> + 'a {
        let step = |(&line, &mark): (&u32, &u8)| PathLine { line, turned: mark == 1 };
        self.listing.iter().zip(self.way).map(step)
    }

    /// The positions of its lines in the order in which its coordinates pass them.
    pub fn listing(&self) -> &'a [u32] {
        self.listing
    }

    /// The positions of its lines in the order in which they were appended. Within a piece of several
    /// lines that round two turned that is the piece's own order, not that of the coordinates.
    pub fn members(&self) -> &'a [u32] {
        self.members
    }

    /// The turned mark of each member: 1 where the line was turned in an odd number of rounds, so that
    /// it was drawn against the chain.
    pub fn marks(&self) -> &'a [u8] {
        self.marks
    }

    /// The turned marks as truths, in the members' order.
    pub fn turned(&self) -> impl ExactSizeIterator<Item = bool> + 'a {
        self.marks.iter().map(|&mark| mark == 1)
    }

    /// The numbers of the chain, x, y, x, y .. with each coordinate's extras behind its y: a part of
    /// the caller's coordinates for a chain of one line, and of the merged ones for any other.
    pub fn coordinates(&self) -> &'a [f64] {
        self.coordinates
    }

    /// The same coordinates one by one, each with its extras.
    pub fn positions(&self) -> ChunksExact<'a, f64> {
        self.coordinates.chunks_exact(self.dimension.stride())
    }

    /// x and y of each coordinate.
    pub fn points(&self) -> Points<'a> {
        Points::of(self.coordinates, self.dimension)
    }

    /// What each coordinate has.
    pub fn dimension(&self) -> Dimension {
        self.dimension
    }

    /// True where the chain has several lines, false where it is a line of the caller's, untouched.
    pub fn is_merged(&self) -> bool {
        self.merged
    }

    /// True where the chain has at least three coordinates, of which the first and the last agree in
    /// x and y bit for bit: a turning loop, but also a line there and back. A chain of one line and a
    /// line that passes through may be loops too.
    ///
    /// ```
    /// use lovasuku_chains::{LinesBuf, Rooms, Settings};
    ///
    /// # fn main() -> Result<(), lovasuku_chains::Refusal> {
    /// let mut roads = LinesBuf::default();
    /// roads.push([[0.0, 0.0], [1.0, 0.0], [1.0, 1.0]], 0);
    /// roads.push([[0.0, 0.0], [0.0, 1.0], [1.0, 1.0]], 0);
    /// roads.push([[5.0, 0.0], [6.0, 0.0]], 0);
    /// let mut rooms = Rooms::default();
    /// let chains = rooms.build(roads.lines(), Settings::default())?;
    /// assert!(chains.iter().map(|chain| chain.is_loop()).eq([true, false]));
    /// # Ok(())
    /// # }
    /// ```
    pub fn is_loop(&self) -> bool {
        self.looped
    }
}
