//! The rooms of a delivery.

use super::assembling::{Rounds, Whole};
use super::calling::Callers;
use super::capacity::Capacity;
use super::cores::Cores;
use super::joined::Joined;
use super::judging;
use super::nodes::Sorting;
use super::outlined::{self, Outlined};
use super::pieces::LinePieces;
use super::rounds::{Round, Ways};
use super::second_round::ChainPieces;
use super::spots::Grid;
use super::Fault;
use crate::size::RECORD;
use crate::{Chains, Lines, Settings};
use std::fmt;
use std::sync::Arc;

/// So many lines make a batch whose rooms the caches of a core hold.
const BATCH: usize = 512;

/// How a delivery is joined. The chains are the same in any way.
#[derive(Clone, Copy)]
pub struct Way<'a> {
    /// How much a call may be given. Chains of more are laid without one.
    pub capacity: Capacity,
    /// Chains are built by one call up to so many lines together. One chain may have more.
    pub batch: usize,
    /// Whether every node at which lines were joined or kept apart is decided by a building call once
    /// more, with all its ends, as far as a call holds them.
    pub neighbours: bool,
    /// Whether boxes are kept, for questions which chains lie in a window.
    pub boxes: bool,
    /// On which cores.
    pub cores: Cores,
    /// Is told, from any of the cores, how many lines more are done.
    pub tell: &'a (dyn Fn(usize) + Sync),
}

impl<'a> Way<'a> {
    /// How the calls of a round are made.
    fn ways<'w>(self, settings: Settings, callers: &'w Callers) -> Ways<'w>
    where
        'a: 'w,
    {
        let Way { capacity, batch, neighbours, cores, tell, .. } = self;
        let (lean, keep) = (false, true);
        Ways { settings, capacity, batch, neighbours, cores, callers, lean, keep, tell }
    }
}

impl fmt::Debug for Way<'_> {
    fn fmt(&self, f: &mut fmt::Formatter<'_>) -> fmt::Result {
        f.debug_struct("Way")
            .field("capacity", &self.capacity)
            .field("batch", &self.batch)
            .field("neighbours", &self.neighbours)
            .field("boxes", &self.boxes)
            .field("cores", &self.cores)
            .finish_non_exhaustive()
    }
}

impl Default for Way<'_> {
    /// Calls as the library takes them, on all cores, with nothing told.
    fn default() -> Self {
        Way {
            capacity: Capacity::default(),
            batch: BATCH,
            neighbours: false,
            boxes: false,
            cores: Cores::default(),
            tell: &|_| (),
        }
    }
}

/// The rooms of deliveries, which are lent again and again.
///
/// They grow where a delivery needs more than any before it, and never shrink, so that a run of
/// deliveries soon allocates nothing: on one core nothing at all, and on several what rayon's queue asks
/// for now and then. [`most_bytes`](Rooms::most_bytes) tells how much they hold at most.
///
/// ```
/// use lovasuku_chains::large::Rooms;
/// use lovasuku_chains::{LinesBuf, Settings};
///
/// # fn main() -> Result<(), lovasuku_chains::large::Fault> {
/// let mut roads = LinesBuf::default();
/// for k in 0..3_000 {
///     roads.push([[0.0, f64::from(k)], [1.0, f64::from(k)]], 0);
///     roads.push([[2.0, f64::from(k)], [1.0, f64::from(k)]], 0);
/// }
/// let mut rooms = Rooms::default();
/// let joined = rooms.build(roads.lines(), Settings::default())?;
/// assert_eq!(joined.chains().len(), 3_000);
/// assert!(joined.chains().iter().all(|chain| chain.marks() == [0, 1]));
/// // The library laid them, some hundreds by each call.
/// assert!(joined.laid().is_empty() && joined.calls() > 1);
/// # Ok(())
/// # }
/// ```
#[derive(Debug, Default)]
pub struct Rooms {
    firsts: Arc<Vec<u32>>,
    sorting: Sorting,
    callers: Callers,
    first: Round,
    second: Round,
    /// Whether there was a second round.
    finished: bool,
    whole: Whole,
    /// Whether the rooms let go of what is not needed any more, so that nothing can be run again in them.
    lean: bool,
    /// Whether chains are told of by their lines alone, so that their coordinates are not kept.
    outlining: bool,
    /// The pieces of round one that were laid without a call, and its calls.
    first_laid: Vec<u32>,
    first_calls: usize,
    /// The chains that were laid without a call.
    laid: Vec<u32>,
    calls: usize,
}

impl Rooms {
    /// The most bytes that rooms hold for so many lines, numbers of coordinates and cores: 400 a line,
    /// 24 a number, which is three times what it takes itself, and 12 megabytes a core.
    pub fn most_bytes(lines: usize, numbers: usize, cores: usize) -> usize {
        400 * lines + 24 * numbers + 12_000_000 * cores
    }

    /// Joins lines into chains, on all cores. No number of lines is refused that can be told apart by
    /// numbers of 32 bits.
    ///
    /// # Errors
    ///
    /// What [`Rooms::build`](crate::Rooms::build) refuses of a call, in that order, but for how much a
    /// call holds; more ends at a node than can be paired, where they are to be; and a chain that a call
    /// built otherwise than it was outlined.
    pub fn build<'a>(
        &'a mut self,
        lines: Lines<'a>,
        settings: Settings,
    ) -> Result<Joined<'a>, Fault> {
        self.build_by(lines, settings, Way::default())
    }

    /// Joins lines into chains in a given way.
    pub fn build_by<'a>(
        &'a mut self,
        lines: Lines<'a>,
        settings: Settings,
        way: Way,
    ) -> Result<Joined<'a>, Fault> {
        self.run(lines, settings, way)?;
        Ok(self.joined(lines))
    }

    /// Joins lines into chains, which stay in the rooms.
    pub(super) fn run(&mut self, lines: Lines, settings: Settings, way: Way) -> Result<(), Fault> {
        way.cores.within(|| {
            self.first(lines, settings, way)?;
            self.finish(lines, settings, way)
        })
    }

    /// Joins the lines that were joined last once more, by another tolerance. Round one is that of before.
    pub(super) fn run_again(
        &mut self,
        lines: Lines,
        settings: Settings,
        way: Way,
    ) -> Result<(), Fault> {
        judging::judge(lines, settings, way.cores)?;
        way.cores.within(|| self.finish(lines, settings, way))
    }

    /// The chains of the lines that were joined last.
    pub(super) fn joined<'a>(&'a self, lines: Lines<'a>) -> Joined<'a> {
        let Whole { table, members, marks, listing, way, merged, boxes, .. } = &self.whole;
        let boxed = table.len() / RECORD;
        let chains = Chains { lines, table, members, marks, listing, way, merged, boxes, boxed };
        let Round { nodes, outlines, .. } = &self.first;
        let lines = LinePieces { lines, firsts: &self.firsts };
        let (laid, calls) = (&self.laid, self.calls);
        Joined { chains, lines, nodes, pieces: outlines, laid, calls }
    }

    /// Has chains told of by their lines, for the last time or not. For a window their coordinates are kept
    /// all the same.
    pub(super) fn outlining(&mut self, lean: bool, window: bool) {
        (self.lean, self.outlining) = (lean, !window);
    }

    /// The chains of the lines that were joined last, by their lines.
    pub(super) fn outlined<'a>(&self, lines: Lines<'a>) -> Outlined<'a> {
        let second = self.finished.then_some(&self.second);
        let rounds = outlined::Rounds { first: &self.first, second };
        Outlined::of(lines, &self.firsts, rounds, &self.laid)
    }

    /// Round one.
    fn first(&mut self, lines: Lines, settings: Settings, way: Way) -> Result<(), Fault> {
        judging::judge(lines, settings, way.cores)?;
        judging::count(lines.counts, Arc::make_mut(&mut self.firsts));
        self.callers.grow(way.cores);
        let Rooms { firsts, sorting, callers, first, first_laid, first_calls, .. } = self;
        // What a build that ended with a fault left behind is of no use.
        callers.take(first_laid);
        first_laid.clear();
        let lines = LinePieces { lines, firsts };
        let lean = self.lean && Grid::of_round_two(settings).is_none();
        let keep = !(self.outlining && lean);
        let ways = Ways { lean, keep, ..way.ways(settings, callers) };
        first.run(&lines, Grid::Exact, sorting, ways)?;
        *first_calls = callers.take(first_laid);
        Ok(())
    }

    /// Round two, where there is a tolerance, over what round one left, and the chains put together.
    fn finish(&mut self, lines: Lines, settings: Settings, way: Way) -> Result<(), Fault> {
        let (lean, keep) = (self.lean, !self.outlining);
        let Rooms { firsts, sorting, callers, first, second, whole, laid, calls, .. } = self;
        laid.clone_from(&self.first_laid);
        *calls = self.first_calls;
        let lines = LinePieces { lines, firsts };
        let ways = Ways { lean, keep, ..way.ways(settings, callers) };
        let mut rounds = Rounds { lines, first, second: None };
        if let Some(grid) = Grid::of_round_two(settings) {
            second.run(&ChainPieces { lines, first }, grid, sorting, ways)?;
            laid.iter_mut().for_each(|piece| *piece = second.outlines.of(*piece));
            *calls += callers.take(laid);
            rounds.second = Some(second);
        }
        laid.sort_unstable();
        laid.dedup();
        self.finished = rounds.second.is_some();
        if keep {
            whole.put_together(rounds, way.boxes, way.cores);
        }
        if lean {
            first.let_go();
            second.let_go();
        }
        Ok(())
    }
}
