//! The nodes of a round: which ends meet, and which of them are joined.

use super::arranging::{Arranger, Bounds, Code, Key, Keys, FIRST};
use super::calling::Callers;
use super::cores::Cores;
use super::fitting::{fit, resize};
use super::junctions::Junctions;
use super::pieces::Pieces;
use super::sorting::sort;
use super::spots::{Grid, Spot};
use super::touching::touch;
use super::{Fault, NONE};
use crate::rooms::grow;
use std::ops::Range;
use std::sync::atomic::{AtomicU32, Ordering::Relaxed};

/// A core looks at about so many ends at a time.
const PART: usize = 16_384;

/// What ends and outlines are sorted in. Nothing in it is kept beyond a round.
#[derive(Debug, Default)]
pub struct Sorting {
    /// What is seen of pieces that meet by cells, which take longer to tell than to look up.
    seen: Vec<Seen>,
    code: Code,
    entries: Vec<u64>,
    spare: Vec<u64>,
}

/// The ends of pieces, by what they meet by.
pub struct Ends<'a, P> {
    pub pieces: &'a P,
    pub grid: Grid,
}

impl<P> Clone for Ends<'_, P> {
    fn clone(&self) -> Self {
        *self
    }
}

impl<P> Copy for Ends<'_, P> {}

impl<P: Pieces> Ends<'_, P> {
    #[inline]
    fn spot(&self, end: u32) -> Spot {
        self.grid.spot(self.pieces.end(end).unwrap_or_default())
    }
}

/// What is seen of a piece: the spots of its ends, and its group.
#[derive(Clone, Copy, Debug, Default)]
struct Seen {
    spots: [Spot; 2],
    group: u32,
}

/// The ends of pieces, and what was seen of these, or nothing.
struct Looked<'a, P> {
    ends: Ends<'a, P>,
    seen: &'a [Seen],
}

impl<P: Pieces> Keys for Looked<'_, P> {
    #[inline]
    fn key(&self, end: u32) -> Key {
        match self.seen.get((end >> 1) as usize) {
            Some(seen) => (seen.spots[(end & 1) as usize], seen.group),
            None => (self.ends.spot(end), self.ends.pieces.group(end >> 1)),
        }
    }
}

/// The nodes of a round.
#[derive(Debug, Default)]
pub struct Nodes {
    /// All ends, node by node, those of a node ascending and the first of it marked; near nodes are near
    /// each other.
    ends: Vec<u32>,
    /// Per end the one that it is joined with, if there is one.
    joins: Vec<AtomicU32>,
    /// Per end where the ends of its node begin, if there are three or more.
    crossings: Vec<AtomicU32>,
}

impl Nodes {
    /// Groups the ends of pieces by their spots, and joins them: two ends of two pieces, and of three
    /// or more, where there is a limit, those that pairing selects.
    pub fn meet<P: Pieces>(
        &mut self,
        ends: Ends<P>,
        limit: Option<f64>,
        (sorting, lean): (&mut Sorting, bool),
        (cores, callers): (Cores, &Callers),
    ) -> Result<(), Fault> {
        let pieces = ends.pieces;
        let count = 2 * pieces.count();
        sorting.look(ends, cores);
        let Sorting { seen, code, entries, spare } = sorting;
        fit(spare, entries.len());
        grow(spare, entries.len());
        self.ends.clear();
        resize(&mut self.ends, entries.len(), 0);
        let arranger = Arranger { keys: &Looked { ends, seen }, cores };
        arranger.arrange(*code, entries, spare, &mut self.ends);
        if lean {
            (sorting.entries, sorting.spare) = Default::default();
        }
        forget(&mut self.joins, count, cores);
        forget(&mut self.crossings, count, cores);
        let joining = Joining { pieces, limit, nodes: self, cores, callers };
        joining.join(&self.ends, 0)
    }

    /// Lets go of all but where crossings are.
    pub fn let_go(&mut self) {
        self.ends = Vec::new();
        self.joins = Vec::new();
    }

    /// The end that an end is joined with.
    pub fn joined(&self, end: u32) -> Option<u32> {
        some(&self.joins, end)
    }

    /// Asks for what the ends are joined with that lie behind those that pieces are joined with.
    pub fn touch(&self, pieces: Range<u32>) {
        touch((2 * pieces.start..2 * pieces.end).map(|end| {
            let other = self.joins[end as usize].load(Relaxed);
            let behind = if other == NONE { end } else { other ^ 1 };
            u64::from(self.joins[behind as usize].load(Relaxed))
        }));
    }

    /// Joins two ends, whatever they are joined with.
    #[cfg(test)]
    pub fn join_anyhow(&self, one: u32, other: u32) {
        self.joins[one as usize].store(other, Relaxed);
        self.joins[other as usize].store(one, Relaxed);
    }

    /// Where the ends of an end's node begin, if there are three or more.
    pub fn crossing(&self, end: u32) -> Option<u32> {
        some(&self.crossings, end)
    }

    /// The ends of a node that begin at a place, ascending.
    pub fn at(&self, crossing: u32) -> impl Iterator<Item = u32> + '_ {
        let ends = &self.ends[crossing as usize..];
        let more = ends[1..].iter().take_while(|&&end| end & FIRST == 0);
        ends[..1].iter().chain(more).map(|&end| end & !FIRST)
    }
}

/// What stands for an end in a table, unless it is nothing.
fn some(table: &[AtomicU32], end: u32) -> Option<u32> {
    Some(table[end as usize].load(Relaxed)).filter(|&number| number != NONE)
}

/// Makes a table of so many that are nothing.
fn forget(table: &mut Vec<AtomicU32>, count: usize, cores: Cores) {
    table.truncate(count);
    let clear = |_, part: &mut [AtomicU32]| part.iter_mut().for_each(|each| *each.get_mut() = NONE);
    cores.parts((0, &mut table[..]), PART, &clear, &|(), ()| ());
    fit(table, count);
    table.resize_with(count, || AtomicU32::new(NONE));
}

impl Sorting {
    /// Looks at the ends of all pieces but those that pass through.
    fn look<P: Pieces>(&mut self, ends: Ends<P>, cores: Cores) {
        let count = ends.pieces.count();
        self.entries.clear();
        fit(&mut self.entries, 2 * count);
        for piece in 0..count as u32 {
            if !ends.pieces.passes(piece) {
                self.entries.extend([2 * piece, 2 * piece + 1].map(u64::from));
            }
        }
        self.see(ends, cores);
        let keys = Looked { ends, seen: &self.seen };
        let look = |_, part: &mut [u64]| {
            let spots = part.iter().map(|&end| keys.key(end as u32).0);
            spots.fold(Bounds::NONE, Bounds::with)
        };
        let bounds = cores.parts((0, &mut self.entries[..]), PART, &look, &|a, b| a.and(b));
        self.code = Code::of_grid(ends.grid, bounds);
    }

    /// Sees all pieces where they meet by cells.
    fn see<P: Pieces>(&mut self, ends: Ends<P>, cores: Cores) {
        self.seen.clear();
        if ends.grid == Grid::Exact {
            return;
        }
        resize(&mut self.seen, ends.pieces.count(), Seen::default());
        let see = |first: usize, part: &mut [Seen]| {
            for (piece, seen) in (first as u32..).zip(part) {
                let spots = [2 * piece, 2 * piece + 1].map(|end| ends.spot(end));
                *seen = Seen { spots, group: ends.pieces.group(piece) };
            }
        };
        cores.parts((0, &mut self.seen[..]), PART, &see, &|(), ()| ());
    }

    /// Sorts numbers by where the ends that they are given with lie, so that near ones are near each
    /// other.
    pub fn by_place<P: Pieces>(
        &mut self,
        ends: Ends<P>,
        all: impl Iterator<Item = (u32, u32)>,
        cores: Cores,
    ) -> impl ExactSizeIterator<Item = u32> + '_ {
        let Sorting { seen, code, entries, spare } = self;
        let keys = Looked { ends, seen };
        let entry =
            |(end, number): (u32, u32)| code.of(keys.key(end).0) << u32::BITS | u64::from(number);
        entries.clear();
        entries.extend(all.map(entry));
        grow(spare, entries.len());
        sort(entries, spare, cores);
        entries.iter().map(|&entry| entry as u32)
    }
}

/// The joining of a round's ends.
struct Joining<'a, P> {
    pieces: &'a P,
    limit: Option<f64>,
    nodes: &'a Nodes,
    cores: Cores,
    callers: &'a Callers,
}

impl<P: Pieces> Joining<'_, P> {
    /// Joins the ends of whole nodes, which begin at a place among all.
    fn join(&self, ends: &[u32], place: usize) -> Result<(), Fault> {
        if ends.len() > PART && self.cores != Cores::One {
            let middle = ends.len() / 2;
            let more = ends[middle..].iter().take_while(|&&end| end & FIRST == 0).count();
            let (before, after) = ends.split_at(middle + more);
            if !after.is_empty() {
                let after_place = place + before.len();
                return self
                    .cores
                    .both_or(|| self.join(before, place), || self.join(after, after_place));
            }
        }
        self.join_in_turn(ends, place)
    }

    fn join_in_turn(&self, ends: &[u32], place: usize) -> Result<(), Fault> {
        let mut caller = self.callers.this(self.cores);
        // A fault may have left some behind.
        caller.junctions.clear();
        let mut from = 0;
        while from < ends.len() {
            let more = ends[from + 1..].iter().take_while(|&&end| end & FIRST == 0).count();
            let node = &ends[from..=from + more];
            match *node {
                [_] => (),
                [one, other] => self.join_two(one & !FIRST, other),
                _ => self.join_many(&mut caller.junctions, node, place + from)?,
            }
            from += node.len();
        }
        match self.limit {
            None => Ok(()),
            Some(limit) => caller.junctions.pair(self.pieces, limit, |a, b| self.join_two(a, b)),
        }
    }

    fn join_two(&self, one: u32, other: u32) {
        if one >> 1 != other >> 1 {
            self.nodes.joins[one as usize].store(other, Relaxed);
            self.nodes.joins[other as usize].store(one, Relaxed);
        }
    }

    fn join_many(
        &self,
        junctions: &mut Junctions,
        node: &[u32],
        place: usize,
    ) -> Result<(), Fault> {
        for end in node.iter().map(|&end| end & !FIRST) {
            self.nodes.crossings[end as usize].store(place as u32, Relaxed);
        }
        match self.limit {
            None => Ok(()),
            Some(limit) => junctions.take(self.pieces, node, limit, |a, b| self.join_two(a, b)),
        }
    }
}
