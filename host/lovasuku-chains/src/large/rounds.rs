//! A round: nodes, outlines, and the chains of these from the library's calls.

use super::batching::{Batches, Cutting, Plan};
use super::calling::{Caller, Callers, Record};
use super::capacity::Capacity;
use super::cores::Cores;
use super::fitting::resize;
use super::gathering::Cut;
use super::making::Making;
use super::nodes::{Ends, Nodes, Sorting};
use super::outlines::Outlines;
use super::pieces::Pieces;
use super::spots::Grid;
use super::Fault;
use crate::{Refusal, Settings};
use std::sync::atomic::{AtomicUsize, Ordering::Relaxed};

/// What the calls of a round are lent.
pub trait Lender: Pieces {
    /// Lends a piece, whole or by a stand-in.
    fn lend(&self, caller: &mut Caller, piece: u32, whole: bool);

    /// Lends a line without length at the point of an end.
    fn block(&self, caller: &mut Caller, end: u32);

    /// Makes the call, and gives the number of its chains.
    fn call(&self, caller: &mut Caller, settings: Settings) -> Result<usize, Refusal>;

    /// How many lines all pieces have, with those that pass through.
    fn all_lines(&self) -> usize;

    /// The piece that a line of the delivery is of.
    fn piece_of(&self, line: u32) -> u32;

    /// The first line of a piece.
    fn line_of(&self, piece: u32) -> u32;

    /// True where a chain of a call is the one of these steps, whose pieces were lent whole.
    fn is_same(&self, caller: &Caller, record: &Record, steps: &[u32]) -> bool;
}

/// How the calls of a round are made.
#[derive(Clone, Copy)]
pub struct Ways<'a> {
    pub settings: Settings,
    pub capacity: Capacity,
    pub batch: usize,
    pub neighbours: bool,
    pub cores: Cores,
    pub callers: &'a Callers,
    /// Whether what was needed is let go of at once, for want of another round.
    pub lean: bool,
    /// Whether the coordinates of chains are kept. Else what a call laid is compared with the pieces, from
    /// which it can be laid again.
    pub keep: bool,
    /// Is told how many lines are done.
    pub tell: &'a (dyn Fn(usize) + Sync),
}

/// A core looks at about so many outlines at a time.
const PART: usize = 16_384;

/// A round.
#[derive(Debug, Default)]
pub struct Round {
    pub nodes: Nodes,
    pub outlines: Outlines,
    pub batches: Batches,
    /// The coordinates of each slot's chain.
    sizes: Vec<u32>,
    /// The coordinates of chains of several pieces, each in the room of its slot.
    laid: Vec<f64>,
    /// Per outline of several pieces where its chain was laid: the first coordinate, and how many.
    places: Vec<[u32; 2]>,
}

impl Round {
    /// Joins pieces.
    pub fn run(
        &mut self,
        pieces: &impl Lender,
        grid: Grid,
        sorting: &mut Sorting,
        ways: Ways,
    ) -> Result<(), Fault> {
        let Ways { settings, cores, callers, lean, .. } = ways;
        let ends = Ends { pieces, grid };
        self.nodes.meet(ends, settings.limit, (sorting, lean), (cores, callers))?;
        self.outlines.walk(pieces, &self.nodes);
        self.make(ends, sorting, ways)
    }

    /// Makes the chains of the outlines.
    fn make<P: Lender>(
        &mut self,
        ends: Ends<P>,
        sorting: &mut Sorting,
        ways: Ways,
    ) -> Result<(), Fault> {
        let pieces = ends.pieces;
        let Ways { capacity, batch, neighbours, cores, .. } = ways;
        let plan = Plan { nodes: &self.nodes, outlines: &self.outlines };
        self.batches.cut(ends, plan, sorting, Cutting { capacity, batch, neighbours, cores });
        if ways.lean {
            *sorting = Sorting::default();
        }
        self.sizes.clear();
        resize(&mut self.sizes, self.batches.slots(), 0);
        let room = self.batches.room(0..self.batches.slots() as u32);
        // Whatever was laid there before is written over or not looked at.
        let kept = if ways.keep { pieces.stride() * room.len() } else { 0 };
        resize(&mut self.laid, kept, 0.0);
        let Round { nodes, outlines, batches, sizes, laid, .. } = self;
        let told = AtomicUsize::new(0);
        let tell = |lines: usize| {
            told.fetch_add(lines, Relaxed);
            (ways.tell)(lines);
        };
        let (cut, ways) = (Cut { nodes, outlines, batches }, Ways { tell: &tell, ..ways });
        Making { pieces, cut, ways }.batches(batches.all(), sizes, laid)?;
        // The lines for which no call was needed.
        tell(pieces.all_lines().saturating_sub(told.load(Relaxed)));
        if ways.keep {
            self.find_places(cores);
        }
        if ways.lean {
            self.batches = Batches::default();
            self.sizes = Vec::new();
        }
        Ok(())
    }

    /// Finds where the chain of each outline of several pieces was laid.
    fn find_places(&mut self, cores: Cores) {
        let Round { outlines, batches, sizes, places, .. } = self;
        resize(places, outlines.len(), [0; 2]);
        let find = |first: usize, part: &mut [[u32; 2]]| {
            for (outline, place) in (first as u32..).zip(part) {
                let slot = match *outlines.steps(outline) {
                    [_] => None,
                    ref steps => batches.slot(steps[0] >> 1),
                };
                *place = slot.map_or([0; 2], |slot| {
                    [batches.room(slot..slot + 1).start as u32, sizes[slot as usize]]
                });
            }
        };
        cores.parts((0, &mut places[..]), PART, &find, &|(), ()| ());
    }

    /// Lets go of all but what tells of joints.
    pub fn let_go(&mut self) {
        self.nodes.let_go();
        self.batches = Batches::default();
        self.sizes = Vec::new();
        self.places = Vec::new();
        self.laid = Vec::new();
    }

    /// The numbers of the chain of an outline of several pieces.
    pub fn chain(&self, outline: u32, stride: usize) -> &[f64] {
        let [first, count] = self.places[outline as usize].map(|number| number as usize);
        &self.laid[stride * first..stride * (first + count)]
    }
}

#[cfg(test)]
mod tests {
    use super::{Callers, Capacity, Cores, Ends, Fault, Grid, Round, Settings, Sorting, Ways};
    use crate::large::pieces::LinePieces;
    use crate::LinesBuf;

    /// The fault of a round over lines of two points, whose nodes or outlines are altered.
    fn fault(
        lines: &[[[f64; 2]; 2]],
        limit: Option<f64>,
        neighbours: bool,
        alter: impl Fn(&mut Round, &LinePieces),
    ) -> Option<Fault> {
        let mut all = LinesBuf::default();
        lines.iter().for_each(|&line| all.push(line, 0));
        let firsts: Vec<u32> = (0..=lines.len() as u32).map(|line| 2 * line).collect();
        let pieces = LinePieces { lines: all.lines(), firsts: &firsts };
        let (cores, mut callers) = (Cores::One, Callers::default());
        callers.grow(cores);
        let ways = Ways {
            settings: Settings { limit, ..Settings::default() },
            capacity: Capacity::default(),
            batch: 512,
            neighbours,
            cores,
            callers: &callers,
            lean: false,
            keep: true,
            tell: &|_| (),
        };
        let (mut round, mut sorting) = (Round::default(), Sorting::default());
        let ends = Ends { pieces: &pieces, grid: Grid::Exact };
        round.nodes.meet(ends, limit, (&mut sorting, false), (cores, &callers)).unwrap();
        round.outlines.walk(&pieces, &round.nodes);
        alter(&mut round, &pieces);
        round.make(ends, &mut sorting, ways).err()
    }

    const SPUR: [[[f64; 2]; 2]; 3] =
        [[[-1.0, 0.0], [0.0, 0.0]], [[0.0, 0.0], [1.0, 0.0]], [[0.0, 0.0], [0.0, 1.0]]];

    #[test]
    fn a_wrong_join_is_found_with_neighbours() {
        let join = |round: &mut Round, pieces: &LinePieces| {
            round.nodes.join_anyhow(1, 2);
            round.outlines.walk(pieces, &round.nodes);
        };
        assert_eq!(fault(&SPUR, None, true, |_, _| ()), None);
        assert_eq!(fault(&SPUR, None, true, join), Some(Fault::Differs { line: 0 }));
        // That two ends are joined is not asked again where the third is not lent.
        assert_eq!(fault(&SPUR, None, false, join), None);
    }

    #[test]
    fn a_wrong_pair_is_found() {
        let cross = [[-1.0, 0.0], [1.0, 0.0], [0.0, -1.0], [0.0, 1.0]].map(|to| [[0.0, 0.0], to]);
        let pair = |round: &mut Round, pieces: &LinePieces| {
            round.nodes.join_anyhow(0, 4);
            round.nodes.join_anyhow(2, 6);
            round.outlines.walk(pieces, &round.nodes);
        };
        for neighbours in [false, true] {
            assert_eq!(fault(&cross, Some(0.0), neighbours, |_, _| ()), None);
            let found = fault(&cross, Some(0.0), neighbours, pair);
            assert!(matches!(found, Some(Fault::Differs { .. })), "{found:?}");
        }
    }

    #[test]
    fn an_outline_that_is_walked_wrongly_is_found() {
        let road = [[[0.0, 0.0], [1.0, 0.0]], [[1.0, 0.0], [2.0, 0.0]], [[2.0, 0.0], [3.0, 0.0]]];
        for neighbours in [false, true] {
            assert_eq!(fault(&road, None, neighbours, |_, _| ()), None);
            let turn = |round: &mut Round, _: &LinePieces| round.outlines.turn();
            let found = fault(&road, None, neighbours, turn);
            assert_eq!(found, Some(Fault::Differs { line: 2 }));
        }
    }
}
