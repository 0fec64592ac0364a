//! Outlines: the pieces of each chain in the order in which a walk over the joins comes to them.

use super::fitting::{fit, resize};
use super::nodes::Nodes;
use super::pieces::Pieces;
use super::touching::TOGETHER;
use super::NONE;

/// The outlines of a round, in the order of its chains.
#[derive(Debug, Default)]
pub struct Outlines {
    /// The ends at which the walks enter their pieces, walk by walk.
    steps: Vec<u32>,
    /// The first step of each outline, and behind the last how many there are.
    firsts: Vec<u32>,
    /// The outline of each piece, if it has one.
    of: Vec<u32>,
    /// The steps of a walk behind its start.
    behind: Vec<u32>,
}

impl Outlines {
    /// Walks over the joins of a round. Starts ascend: from each that was not come to before the walk
    /// goes back from its end 0 to a free end, or in a ring to the start again, and then forward.
    pub fn walk(&mut self, pieces: &impl Pieces, nodes: &Nodes) {
        self.steps.clear();
        self.firsts.clear();
        self.of.clear();
        resize(&mut self.of, pieces.count(), NONE);
        fit(&mut self.steps, pieces.count());
        fit(&mut self.firsts, pieces.count() + 1);
        for start in 0..pieces.count() as u32 {
            if start as usize % TOGETHER == 0 {
                nodes.touch(start..(pieces.count() as u32).min(start + TOGETHER as u32));
            }
            if self.of[start as usize] == NONE && !pieces.passes(start) {
                let (outline, first) = (self.firsts.len() as u32, self.steps.len());
                self.firsts.push(first as u32);
                self.walk_from(nodes, start);
                for step in &self.steps[first..] {
                    self.of[(step >> 1) as usize] = outline;
                }
            }
        }
        self.firsts.push(self.steps.len() as u32);
    }

    /// Puts the steps of the walk of a start. Both ways from it are gone at once, so that the memory is
    /// asked for two ends at a time.
    fn walk_from(&mut self, nodes: &Nodes, start: u32) {
        let first = self.steps.len();
        let (mut back, mut forth) = (2 * start, nodes.joined(2 * start + 1));
        self.behind.clear();
        while let Some(exit) = nodes.joined(back) {
            if exit >> 1 == start {
                // In a ring what was passed on the way back is all that follows the start.
                self.steps.push(2 * start);
                self.steps[first..].reverse();
                return;
            }
            back = exit ^ 1;
            self.steps.push(back);
            if let Some(entry) = forth {
                self.behind.push(entry);
                forth = nodes.joined(entry ^ 1);
            }
        }
        self.steps[first..].reverse();
        self.steps.push(2 * start);
        self.steps.append(&mut self.behind);
        while let Some(entry) = forth {
            self.steps.push(entry);
            forth = nodes.joined(entry ^ 1);
        }
    }

    /// Turns the steps of all outlines, which are one.
    #[cfg(test)]
    pub fn turn(&mut self) {
        self.steps.reverse();
        self.steps.iter_mut().for_each(|step| *step ^= 1);
    }

    /// How many there are.
    pub fn len(&self) -> usize {
        self.firsts.len().saturating_sub(1)
    }

    /// The ends at which an outline's pieces are entered.
    pub fn steps(&self, outline: u32) -> &[u32] {
        let outline = outline as usize;
        &self.steps[self.firsts[outline] as usize..self.firsts[outline + 1] as usize]
    }

    /// The outline of a piece that does not pass through.
    pub fn of(&self, piece: u32) -> u32 {
        self.of[piece as usize]
    }
}

#[cfg(test)]
mod tests {
    use super::{Nodes, Outlines};
    use crate::large::calling::Callers;
    use crate::large::cores::Cores;
    use crate::large::nodes::{Ends, Sorting};
    use crate::large::pieces::LinePieces;
    use crate::large::spots::Grid;
    use crate::LinesBuf;

    /// The steps of a walk as it is told: back from end 0 of its start to a free end, or in a ring to the
    /// start, and then forward.
    fn plainly(nodes: &Nodes, start: u32) -> Vec<u32> {
        let mut head = 2 * start;
        while let Some(back) = nodes.joined(head) {
            if back >> 1 == start {
                head = 2 * start;
                break;
            }
            head = back ^ 1;
        }
        let mut steps = vec![head];
        let mut entry = nodes.joined(head ^ 1);
        while let Some(end) = entry.filter(|end| !steps.iter().any(|step| step >> 1 == end >> 1)) {
            steps.push(end);
            entry = nodes.joined(end ^ 1);
        }
        steps
    }

    #[test]
    fn walks_are_those_that_go_back_and_then_forward() {
        let mut bits: u64 = 11;
        let mut next = |bound: u64| {
            bits = bits.wrapping_mul(6_364_136_223_846_793_005).wrapping_add(1);
            (bits >> 33) % bound
        };
        let (mut rings, mut long) = (0, 0);
        for round in 0..600 {
            // A road of lines in no order, which may be a ring, with a line left out here and there.
            let (count, places) = (1 + next(90), 2 + next(90));
            let mut lines = LinesBuf::default();
            let by = [1, 7, 11, 13][round % 4];
            for k in 0..count {
                let from = if next(9 + round as u64) == 0 { next(places) } else { k * by % places };
                let ends = [from, (from + 1) % places].map(|at| [at as f64, 0.0]);
                lines.push(if next(2) == 0 { ends } else { [ends[1], ends[0]] }, 0);
            }
            let firsts: Vec<u32> = (0..=count as u32).map(|line| 2 * line).collect();
            let pieces = LinePieces { lines: lines.lines(), firsts: &firsts };
            let (mut nodes, mut callers) = (Nodes::default(), Callers::default());
            callers.grow(Cores::One);
            let ends = Ends { pieces: &pieces, grid: Grid::Exact };
            let sorting = &mut Sorting::default();
            nodes.meet(ends, None, (sorting, false), (Cores::One, &callers)).unwrap();
            let mut outlines = Outlines::default();
            outlines.walk(&pieces, &nodes);
            let mut starts = 0..count as u32;
            for outline in 0..outlines.len() as u32 {
                let steps = outlines.steps(outline);
                let start = steps.iter().map(|step| step >> 1).min().unwrap();
                assert_eq!(steps, plainly(&nodes, start), "round {round}");
                assert!(steps.iter().all(|step| outlines.of(step >> 1) == outline));
                assert!(starts.any(|line| line == start), "the starts of outlines do not ascend");
                let ring = steps.len() > 1 && nodes.joined(steps[0]).is_some();
                rings += usize::from(ring);
                long += usize::from(steps.len() > 6);
            }
        }
        assert!(rings > 20 && long > 300, "{rings} {long}");
    }
}
