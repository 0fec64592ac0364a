//! Why lines are joined or not: for every joint of every chain its reason, and for any two ends that
//! meet why they are joined or were left.
//!
//! Where ends meet is told by the rules: in round one by their bits, in round two, which has a tolerance,
//! by their cells. Of two ends nothing has to be asked; which pairs of three or more are joined, and why
//! another pair is not, the library tells by its own pairing calls. Round two has the ends of the pieces
//! that round one left, and those are the chains of a call without a tolerance.
//!
//! ```
//! use lovasuku_chains::explain::{explain, Round, Why};
//! use lovasuku_chains::large::{join, Chain, Line, Way};
//! use lovasuku_chains::{Dimension, Reason, Rooms, Settings};
//!
//! # fn main() -> Result<(), Box<dyn std::error::Error>> {
//! // A road that goes on straight, and one that turns off.
//! let roads = [[[-1.0, 0.0], [0.0, 0.0]], [[0.0, 0.0], [1.0, 0.0]], [[0.0, 0.0], [0.0, 1.0]]];
//! let lines = [0, 1, 2].map(|k| Line { points: Some(&roads[k]), extras: &[], group: 0 });
//! let settings = Settings::default().with_limit(-0.5);
//! let told = join(Dimension::Xy, &lines, (settings, None), Way::default())?;
//! let chains: Vec<Chain> = told.chains().collect();
//! let explained = explain(&lines, &chains, settings, Way::default())?;
//!
//! // The first two are joined: of three ends that meet in round one theirs are the first pair.
//! let joint = explained.joints(0)[0];
//! let node = &explained.nodes()[joint.node];
//! assert_eq!((node.round, node.ends.len()), (Round::Exact, 3));
//! assert_eq!((node.rank(joint.ends), node.measure(joint.ends)), (Some(0), Some(-1.0)));
//!
//! // The third meets the first, and is not joined with it: the bend is sharper than the limit.
//! let meeting = explained.meetings(0, 2)[0];
//! let why = node.why(&mut Rooms::default(), settings.limit, meeting.ends)?;
//! assert_eq!(why, Why::Junction(Reason::NotQualifying));
//! # Ok(())
//! # }
//! ```

mod nodes;
mod plane;

use crate::large::{self, exact_key, join, key, Chain, Line, Point, Told, Way};
use crate::{Dimension, PathLine, Refusal, Rooms, Settings};
use nodes::{nodes, Piece};
pub use nodes::{End, Node, Round, Why};
pub use plane::bend_of;
use std::error::Error;
use std::fmt;

/// Two ends that meet: the node, and the places of the ends there.
#[derive(Clone, Copy, Debug, PartialEq, Eq, Hash)]
pub struct Meeting {
    /// The position of the node among all.
    pub node: usize,
    /// The places of the two ends at the node. Of a joint the first is where the way of the chain leaves
    /// a line, and the second where it enters the next.
    pub ends: [u32; 2],
}

/// Why the lines of a call's chains are joined.
#[derive(Clone, Debug, PartialEq)]
pub struct Explained {
    nodes: Vec<Node>,
    joints: Vec<Vec<Meeting>>,
    closings: Vec<Option<Meeting>>,
    met: [Met; 2],
}

/// Why nothing can be explained.
#[derive(Clone, Debug, PartialEq)]
pub enum Fault {
    /// The lines cannot be joined.
    Join(large::Fault),
    /// Two lines follow each other in a chain, and no rule joins them: the chains are not those of the
    /// lines under these settings.
    NoReason {
        /// The positions of the two.
        lines: [u32; 2],
    },
}

impl fmt::Display for Fault {
    fn fmt(&self, f: &mut fmt::Formatter<'_>) -> fmt::Result {
        match self {
            Fault::Join(fault) => fault.fmt(f),
            Fault::NoReason { lines: [a, b] } => write!(
                f,
                "lines {a} and {b} follow each other in a chain, and no rule joins them under \
                 these settings"
            ),
        }
    }
}

impl Error for Fault {}

impl From<large::Fault> for Fault {
    fn from(fault: large::Fault) -> Self {
        Fault::Join(fault)
    }
}

impl From<Refusal> for Fault {
    fn from(refusal: Refusal) -> Self {
        Fault::Join(refusal.into())
    }
}

/// Explains chains that lines were joined into under settings. Where there is a tolerance the lines are
/// joined once more without it, in that way.
///
/// # Errors
///
/// [`Fault::Join`] where the lines cannot be joined, [`Fault::NoReason`] where the chains are others.
pub fn explain(
    lines: &[Line],
    chains: &[Chain],
    settings: Settings,
    way: Way,
) -> Result<Explained, Fault> {
    let pieces = match settings.tolerance > 0.0 {
        true => join(Dimension::Xy, lines, (settings.with_tolerance(0.0), None), way)?,
        false => Told::default(),
    };
    let pieces: Vec<Chain> = pieces.chains().collect();
    Explained::of(lines, chains, &pieces, settings)
}

/// The cell of a point, its column and its row, where there is a tolerance.
pub fn cell_of(point: Point, settings: Settings) -> Option<[i64; 2]> {
    let (_, column, row) = key(0, point, settings);
    (settings.tolerance > 0.0).then_some([column, row])
}

impl Explained {
    /// The same where the pieces of round one are at hand, as for a host that works on several cores: the
    /// chains of the lines without a tolerance, and else with the same settings. Without a tolerance they
    /// are not looked at.
    ///
    /// # Errors
    ///
    /// Those of [`explain`].
    pub fn of(
        lines: &[Line],
        chains: &[Chain],
        pieces: &[Chain],
        settings: Settings,
    ) -> Result<Self, Fault> {
        let mut rooms = Rooms::default();
        let limit = settings.limit;
        let mut all = nodes(Round::Exact, of_lines(lines), exact_key, (&mut rooms, limit))?;
        let exact = Met::at(lines.len(), &all, 0);
        let first = all.len();
        if settings.tolerance > 0.0 {
            let of_cells = |group, point| key(group, point, settings);
            let pieces = of_pieces(lines, pieces);
            all.extend(nodes(Round::Cells, pieces, of_cells, (&mut rooms, limit))?);
        }
        let cells = Met::at(lines.len(), &all, first);
        let (nodes, met) = (all, [exact, cells]);
        let mut explained = Explained { nodes, joints: Vec::new(), closings: Vec::new(), met };
        for chain in chains {
            let joints = chain.path.windows(2).map(|two| explained.joint(two[0], two[1]));
            explained.joints.push(joints.collect::<Result<_, Fault>>()?);
            explained.closings.push(explained.closes(chain));
        }
        Ok(explained)
    }

    /// All nodes at which two ends or more meet: those of round one, and then those of round two, each
    /// in the order of their lowest ends.
    pub fn nodes(&self) -> &[Node] {
        &self.nodes
    }

    /// Where the lines of a chain are joined, in the order of its path: one for each two that follow each
    /// other. None for a chain that is not there.
    pub fn joints(&self, chain: usize) -> &[Meeting] {
        self.joints.get(chain).map(Vec::as_slice).unwrap_or_default()
    }

    /// Where the last line of a chain is joined with its first, if it is: the chain is then a ring, walked
    /// once around. Its points do not come back to the first where the tolerance joined these two.
    pub fn closing(&self, chain: usize) -> Option<Meeting> {
        self.closings.get(chain).copied().flatten()
    }

    /// The node that an end of a line has in a round, and its place there; nothing where it meets no
    /// other, or where it lies within a piece.
    pub fn node_of(&self, round: Round, line: u32, last: bool) -> Option<(usize, u32)> {
        self.met[usize::from(round == Round::Cells)].place(line, last)
    }

    /// Where ends of one line meet ends of another, or of a line its own two: round one first, and the
    /// first line's first end before its last.
    pub fn meetings(&self, line: u32, other: u32) -> Vec<Meeting> {
        let ends = match line == other {
            true => vec![[false, true]],
            false => vec![[false, false], [false, true], [true, false], [true, true]],
        };
        let meeting = |round: Round, [last, others_last]: [bool; 2]| {
            let (node, place) = self.node_of(round, line, last)?;
            let (others_node, others_place) = self.node_of(round, other, others_last)?;
            (node == others_node).then_some(Meeting { node, ends: [place, others_place] })
        };
        let in_round = |round| ends.iter().filter_map(move |&ends| meeting(round, ends));
        in_round(Round::Exact).chain(in_round(Round::Cells)).collect()
    }

    /// The meeting of two ends that are joined, in round one or else in round two.
    fn joined(&self, from: (u32, bool), to: (u32, bool)) -> Option<Meeting> {
        let meeting = |round: Round| {
            let (node, place) = self.node_of(round, from.0, from.1)?;
            let (other, other_place) = self.node_of(round, to.0, to.1)?;
            let ends = [place, other_place];
            let joined = node == other && self.nodes.get(node)?.rank(ends).is_some();
            joined.then_some(Meeting { node, ends })
        };
        meeting(Round::Exact).or_else(|| meeting(Round::Cells))
    }

    /// The joint of two lines that follow each other.
    fn joint(&self, from: PathLine, to: PathLine) -> Result<Meeting, Fault> {
        let joined = self.joined((from.line, !from.turned), (to.line, to.turned));
        joined.ok_or(Fault::NoReason { lines: [from.line, to.line] })
    }

    /// The meeting of a chain's last end with its first, where they are joined.
    fn closes(&self, chain: &Chain) -> Option<Meeting> {
        let (first, last) = (chain.path.first()?, chain.path.last()?);
        self.joined((last.line, !last.turned), (first.line, first.turned))
    }
}

/// The node and the place of each end of a line that meets another, by the line's position.
#[derive(Clone, Debug, PartialEq)]
struct Met(Vec<[Option<(u32, u32)>; 2]>);

impl Met {
    /// Those of the nodes from a first one on, of so many lines.
    fn at(lines: usize, nodes: &[Node], first: usize) -> Self {
        let mut met = vec![[None; 2]; lines];
        for (node, each) in nodes.iter().enumerate().skip(first) {
            for (place, end) in each.ends.iter().enumerate() {
                if let Some(ends) = met.get_mut(end.line as usize) {
                    ends[usize::from(end.last)] = Some((node as u32, place as u32));
                }
            }
        }
        Met(met)
    }

    fn place(&self, line: u32, last: bool) -> Option<(usize, u32)> {
        let ends = self.0.get(line as usize)?;
        ends[usize::from(last)].map(|(node, place)| (node as usize, place))
    }
}

/// The pieces of round one: the lines that may be joined.
fn of_lines<'a>(lines: &'a [Line<'a>]) -> impl Iterator<Item = Piece<'a>> + 'a {
    let piece = |(line, number): (&'a Line<'a>, u32)| {
        line.ends()?;
        let (points, group) = (line.points?, line.group);
        Some(Piece { number, group, points, ends: [(number, false), (number, true)] })
    };
    lines.iter().zip(0..).filter_map(piece)
}

/// The pieces of round two: what round one left of the lines that may be joined.
fn of_pieces<'a>(
    lines: &'a [Line<'a>],
    pieces: &'a [Chain<'a>],
) -> impl Iterator<Item = Piece<'a>> + 'a {
    let piece = |(piece, number): (&'a Chain<'a>, u32)| {
        let (first, last) = (piece.path.first()?, piece.path.last()?);
        let line = lines.get(first.line as usize)?;
        line.ends()?;
        let points = piece.points.or(line.points)?;
        let ends = [(first.line, first.turned), (last.line, !last.turned)];
        Some(Piece { number, group: line.group, points, ends })
    };
    pieces.iter().zip(0..).filter_map(piece)
}
