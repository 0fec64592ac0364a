//! Chains of a delivery with all that is told of them.

use super::joints::Joint;
use super::outlined::Outlined;
use super::rooms::{Rooms, Way};
use super::{Fault, Line, Point};
use crate::size::POINT;
use crate::two::by_two;
use crate::{Dimension, Lines, LinesBuf, PathLine, Settings, Window, WindowBuf};

/// A chain: lines that were joined, or one that was not.
#[derive(Clone, Copy, Debug, PartialEq)]
pub struct Chain<'a> {
    /// The positions of its lines, in the library's order.
    pub members: &'a [u32],
    /// The same lines in the order in which its points pass them, each with the way it was drawn.
    pub path: &'a [PathLine],
    /// Its points, or nothing where it is one line, untouched.
    pub points: Option<&'a [Point]>,
    /// The extras of its points, as many for each as the dimension has; none where it is one line.
    pub extras: &'a [f64],
    /// Whether it is a loop, as [`Chain::is_loop`](crate::Chain::is_loop) tells. Geometry without points
    /// is none.
    pub is_loop: bool,
    /// Whether its extent meets the window that was asked for, and true where none was. Geometry
    /// without points meets none.
    pub in_window: bool,
    /// Where its lines were joined, in the order of its points.
    pub joints: &'a [Joint],
}

/// Chains of a delivery, with their coordinates and what each was joined by.
///
/// Four bytes a line, eight more on its way, 48 a joint, 16 a chain, and the coordinates of chains of
/// several lines.
#[derive(Clone, Debug, Default)]
pub struct Told {
    pub(super) members: Vec<u32>,
    pub(super) path: Vec<PathLine>,
    pub(super) joints: Vec<Joint>,
    /// x, y, x, y .. of chains of several lines, and the extras of these.
    points: Vec<f64>,
    extras: Vec<f64>,
    dimension: Dimension,
    chains: Vec<Record>,
    laid: Vec<u32>,
}

impl PartialEq for Told {
    /// Whether the same is told of the same chains.
    fn eq(&self, other: &Told) -> bool {
        self.laid == other.laid && self.chains().eq(other.chains())
    }
}

/// A chain by where its members and its points end, which begin where those of the chain before end.
#[derive(Clone, Copy, Debug, Default)]
struct Record {
    members: u32,
    points: u32,
    is_loop: bool,
    in_window: bool,
}

/// Joins lines of a dimension in a given way, and tells which chains meet a window.
///
/// ```
/// use lovasuku_chains::large::{join, JointKind, Line, Way};
/// use lovasuku_chains::{Dimension, Settings};
///
/// # fn main() -> Result<(), lovasuku_chains::large::Fault> {
/// let roads = [[[0.0, 0.0], [1.25, 0.0]], [[3.5, 0.0], [1.75, 0.0]]];
/// let lines = [0, 1].map(|k| Line { points: Some(&roads[k]), extras: &[], group: 0 });
/// let settings = Settings::default().with_tolerance(1.0);
/// let told = join(Dimension::Xy, &lines, (settings, None), Way::default())?;
/// let chain = told.chains().next().unwrap();
/// assert_eq!(chain.members, [0, 1]);
/// // The chain has a segment that is of no line, made by the tolerance.
/// assert_eq!(chain.joints[0].kind, JointKind::Tolerance);
/// assert_eq!(chain.joints[0].ends, [[1.25, 0.0], [1.75, 0.0]]);
/// # Ok(())
/// # }
/// ```
///
/// # Errors
///
/// Those of [`Rooms::build`].
pub fn join(
    dimension: Dimension,
    lines: &[Line],
    (settings, window): (Settings, Option<Window>),
    way: Way,
) -> Result<Told, Fault> {
    let zooms = join_zooms(dimension, lines, (settings, window), &[settings.tolerance], way)?;
    Ok(zooms.into_iter().next().unwrap_or_default())
}

/// Joins lines as [`join`] does for each of several tolerances, with one round one for all. The chains of each
/// are those of a run with it alone.
///
/// # Errors
///
/// Those of [`Rooms::build`].
pub fn join_zooms(
    dimension: Dimension,
    lines: &[Line],
    (settings, window): (Settings, Option<Window>),
    tolerances: &[f64],
    way: Way,
) -> Result<Vec<Told>, Fault> {
    let lent = lent(dimension, lines);
    let zooms = join_lines(lent.lines(), (settings, window), tolerances, way)?;
    Ok(zooms.iter().map(Outlined::whole).collect())
}

/// Joins lines that lie one behind another, and of which no copy is made, for each of several tolerances, with
/// one round one for all. The coordinates of chains are laid when they are asked for.
///
/// ```
/// use lovasuku_chains::large::{join_lines, Way};
/// use lovasuku_chains::{LinesBuf, Settings};
///
/// # fn main() -> Result<(), lovasuku_chains::large::Fault> {
/// let mut roads = LinesBuf::default();
/// roads.push([[0.0, 0.0], [1.25, 0.0]], 0);
/// roads.push([[3.5, 0.0], [1.75, 0.0]], 0);
/// let asked = (Settings::default(), None);
/// let zooms = join_lines(roads.lines(), asked, &[0.0, 1.0], Way::default())?;
/// assert_eq!([zooms[0].len(), zooms[1].len()], [2, 1]);
/// let told = zooms[1].told([0]);
/// let chain = told.chains().next().unwrap();
/// assert_eq!(chain.points.unwrap(), [[0.0, 0.0], [1.25, 0.0], [1.75, 0.0], [3.5, 0.0]]);
/// # Ok(())
/// # }
/// ```
///
/// # Errors
///
/// Those of [`Rooms::build`].
pub fn join_lines<'a>(
    lines: Lines<'a>,
    (settings, window): (Settings, Option<Window>),
    tolerances: &[f64],
    way: Way,
) -> Result<Vec<Outlined<'a>>, Fault> {
    let mut rooms = Rooms::default();
    let way = Way { boxes: window.is_some(), ..way };
    let mut zooms = Vec::with_capacity(tolerances.len());
    for (k, &tolerance) in tolerances.iter().enumerate() {
        let settings = settings.with_tolerance(tolerance);
        rooms.outlining(k + 1 == tolerances.len(), window.is_some());
        match k {
            0 => rooms.run(lines, settings, way)?,
            _ => rooms.run_again(lines, settings, way)?,
        }
        let mut outlined = rooms.outlined(lines);
        if let Some(window) = window {
            let mut found = WindowBuf::default();
            let inside = rooms.joined(lines).chains().window(window, &mut found)?;
            outlined.put_inside(inside.into_iter().map(|(chain, _)| chain));
        }
        zooms.push(outlined);
    }
    Ok(zooms)
}

/// The lines as a delivery.
fn lent(dimension: Dimension, lines: &[Line]) -> LinesBuf {
    let mut lent = LinesBuf::of(dimension);
    lent.reserve(lines.len(), lines.iter().map(|line| line.points.map_or(0, <[Point]>::len)).sum());
    for line in lines {
        match line.points {
            Some(points) => lent.push_apart(points, line.extras, line.group),
            None => lent.push_empty(line.group),
        }
    }
    lent
}

impl Told {
    /// No chains so far, of coordinates of a dimension, of a delivery of which the given chains were laid
    /// without a call.
    pub(super) fn of(dimension: Dimension, laid: &[u32]) -> Self {
        Told { dimension, laid: laid.to_vec(), ..Told::default() }
    }

    /// Ends a chain, whose lines and joints have been put, by its numbers, if it has several lines.
    pub(super) fn end(&mut self, numbers: &[f64], is_loop: bool, in_window: bool) {
        match self.dimension.extras() {
            0 => self.points.extend_from_slice(numbers),
            _ => {
                for numbers in numbers.chunks_exact(self.dimension.stride()) {
                    let (point, extras) = numbers.split_at(POINT);
                    self.points.extend(point);
                    self.extras.extend(extras);
                }
            }
        }
        let (members, points) = (self.members.len() as u32, (self.points.len() / POINT) as u32);
        self.chains.push(Record { members, points, is_loop, in_window });
    }

    /// How many chains there are.
    pub fn len(&self) -> usize {
        self.chains.len()
    }

    /// True where there is no chain.
    pub fn is_empty(&self) -> bool {
        self.chains.is_empty()
    }

    /// The chains in their order.
    pub fn chains(&self) -> impl ExactSizeIterator<Item = Chain<'_>> {
        (0..self.chains.len()).map(|k| self.chain(k))
    }

    /// The positions of the chains of the delivery of which more was to be laid than a call holds, so that it
    /// was done without one.
    pub fn laid(&self) -> &[u32] {
        &self.laid
    }

    fn chain(&self, k: usize) -> Chain<'_> {
        let before = k.checked_sub(1).map(|last| self.chains[last]).unwrap_or_default();
        let Record { members, points, is_loop, in_window } = self.chains[k];
        let lines = before.members as usize..members as usize;
        // A chain of so many lines has one joint less.
        let joints = lines.start - k..lines.end - k - 1;
        let run = before.points as usize..points as usize;
        let width = self.dimension.extras();
        let numbers = POINT * run.start..POINT * run.end;
        Chain {
            members: &self.members[lines.clone()],
            path: &self.path[lines.clone()],
            points: (lines.len() > 1).then(|| by_two(&self.points[numbers])),
            extras: &self.extras[width * run.start..width * run.end],
            is_loop,
            in_window,
            joints: &self.joints[joints],
        }
    }
}
