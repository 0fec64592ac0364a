//! Chains that own what they hold, in the shape of tylertoo's `build_chains`.

use crate::large::{self, Fault};
use crate::size::POINT;
use crate::{Chain, LinesBuf, PathLine, Refusal, Rooms, Settings};

/// A line for [`build_chains`].
#[derive(Clone, Debug)]
pub struct LineInput<P> {
    /// The points of a plain line, or nothing for geometry of any other kind, which passes
    /// through unjoined.
    pub points: Option<P>,
    /// The compatibility group. Lines of different groups are never joined.
    pub group: u32,
}

/// A chain for a caller that keeps it.
#[derive(Clone, Debug, PartialEq)]
pub struct OwnedChain {
    /// Positions of the lines among those given.
    pub members: Vec<usize>,
    /// The same lines in the order in which the points pass them, each with the way it was drawn.
    pub path: Vec<PathLine>,
    /// The chain's points, x and y of each. A line that was given without points has none.
    pub points: Vec<(f64, f64)>,
    /// Whether it is a loop, as [`Chain::is_loop`] tells. A line that was given without points is none.
    pub is_loop: bool,
}

impl From<Chain<'_>> for OwnedChain {
    fn from(chain: Chain<'_>) -> Self {
        OwnedChain {
            members: chain.members().iter().map(|&line| line as usize).collect(),
            path: chain.path().collect(),
            points: chain.points().map(|[x, y]| (x, y)).collect(),
            is_loop: chain.is_loop(),
        }
    }
}

/// Joins lines as tylertoo's function of this name does: a snap tolerance, and an angle in degrees
/// up to which junctions are paired (0 and below: not at all).
///
/// In coalesce.rs it stands in for the Rust like this, with `LineString` and `Geometry` of geo:
///
/// ```text
/// let inputs = lines.iter().map(|line| LineInput {
///     points: match line.geom {
///         Geometry::LineString(ls) => Some(ls.coords().map(|c| (c.x, c.y))),
///         _ => None,
///     },
///     group: line.group,
/// });
/// let chains = build_chains(inputs, snap_tol, junction_angle_deg)?;
/// chains.into_iter().map(|chain| RawChain {
///     geom: match (&chain.members[..], &lines[chain.members[0]].geom) {
///         ([_], alone) => (*alone).clone(),
///         _ => Geometry::LineString(LineString::from(chain.points)),
///     },
///     members: chain.members,
/// })
/// ```
///
/// The Rust compares degrees that a library's arc cosine rounds; here the angle becomes a limit of
/// the dot product once, by [`limit_of_bend`](crate::limit_of_bend).
///
/// There may be any number of lines: what one call does not hold is joined by [`large`], on all
/// cores.
///
/// # Errors
///
/// [`Refusal::NoPlace`], and more ends at one node than can be paired, [`Fault::Crowded`].
///
/// ```
/// use lovasuku_chains::{build_chains, LineInput};
///
/// # fn main() -> Result<(), lovasuku_chains::large::Fault> {
/// let lines = [
///     LineInput { points: Some(vec![(0.0, 0.0), (1.0, 0.0)]), group: 3 },
///     LineInput { points: None, group: 3 },
///     LineInput { points: Some(vec![(1.0, 0.0), (2.0, 0.5)]), group: 3 },
/// ];
/// let chains = build_chains(lines, 0.0, 0.0)?;
/// assert_eq!(chains[0].members, [0, 2]);
/// assert_eq!(chains[0].points, [(0.0, 0.0), (1.0, 0.0), (2.0, 0.5)]);
/// assert_eq!(chains[1].members, [1]);
/// # Ok(())
/// # }
/// ```
pub fn build_chains<P>(
    lines: impl IntoIterator<Item = LineInput<P>>,
    snap_tol: f64,
    junction_angle_deg: f64,
) -> Result<Vec<OwnedChain>, Fault>
where
    P: IntoIterator<Item = (f64, f64)>,
{
    let mut all = LinesBuf::default();
    for line in lines {
        match line.points {
            Some(points) => all.push(points.into_iter().map(point), line.group),
            None => all.push_empty(line.group),
        }
    }
    let settings = Settings::default().with_tolerance(snap_tol).with_bend(junction_angle_deg);
    let owned = |chains: crate::Chains| chains.iter().map(OwnedChain::from).collect();
    match Rooms::default().build(all.lines(), settings) {
        Ok(chains) => Ok(owned(chains)),
        Err(refusal) if is_of_size(refusal) => {
            let mut rooms = large::Rooms::default();
            rooms.build(all.lines(), settings).map(|joined| owned(joined.chains()))
        }
        Err(refusal) => Err(refusal.into()),
    }
}

/// True where a call was refused for holding too much.
fn is_of_size(refusal: Refusal) -> bool {
    let of_size = [
        Refusal::TooMany,
        Refusal::TooManyCoordinates,
        Refusal::DistrictOverLines,
        Refusal::DistrictOverCoordinates,
    ];
    of_size.contains(&refusal)
}

fn point((x, y): (f64, f64)) -> [f64; POINT] {
    [x, y]
}
