//! The rooms that are lent to every call.

use crate::chains::Chains;
use crate::door::{self, BuildRooms, PairRooms, RawSettings};
use crate::size::{BOXES, BOXES_BESIDE, END_WORKSPACE, LINE_WORKSPACE, RECORD};
use crate::size::{MOST_ENDS, MOST_LINES, MOST_POINTS};
use crate::two::by_two;
use crate::{Dimension, Ends, Lines, Reason, Refusal, Route, Settings};

/// The rooms that are lent to every call, again and again.
///
/// They grow where a call needs more than any before it, and never shrink, so that a run of calls
/// soon allocates nothing: 1,635 bytes for each line and 16 for each number of a coordinate of the
/// largest call, at most 8.8 megabytes for x and y.
///
/// ```
/// use lovasuku_chains::{Dimension, Lines, Rooms, Settings};
///
/// # fn main() -> Result<(), lovasuku_chains::Refusal> {
/// let lines = Lines {
///     dimension: Dimension::Xy,
///     coordinates: &[1.0, 0.0, 0.0, 0.0, 1.0, 0.0, 2.0, 0.0],
///     counts: &[2, 2],
///     groups: &[0, 0],
///     kinds: &[0, 0],
/// };
/// let mut rooms = Rooms::default();
/// let chains = rooms.build(lines, Settings::default())?;
/// let chain = chains.get(0).unwrap();
/// assert_eq!(chain.members(), [1, 0]);
/// assert_eq!(chain.marks(), [1, 0]);
/// assert!(chain.points().eq([[2.0, 0.0], [1.0, 0.0], [0.0, 0.0]]));
/// # Ok(())
/// # }
/// ```
#[derive(Clone, Debug, Default)]
pub struct Rooms {
    table: Vec<u32>,
    members: Vec<u32>,
    marks: Vec<u8>,
    listing: Vec<u32>,
    turned: Vec<u8>,
    way: Vec<u8>,
    merged: Vec<f64>,
    boxes: Vec<f64>,
    spare: Vec<f64>,
    pairs: Vec<u32>,
    workspace: Vec<u64>,
}

impl Rooms {
    /// Rooms without length, which the first call makes grow.
    pub fn new() -> Self {
        Rooms::default()
    }

    /// Rooms for building calls of up to so many lines and coordinates of x and y.
    pub fn for_building(lines: usize, points: usize) -> Self {
        Rooms::for_dimension(Dimension::Xy, lines, points)
    }

    /// Rooms for building calls of up to so many lines and coordinates of a dimension.
    pub fn for_dimension(dimension: Dimension, lines: usize, points: usize) -> Self {
        let mut rooms = Rooms::default();
        let numbers = dimension.stride() * points.min(MOST_POINTS);
        rooms.grow_for_building(lines.min(MOST_LINES), numbers);
        rooms
    }

    /// Rooms for pairing calls of up to so many ends.
    pub fn for_pairing(ends: usize) -> Self {
        let mut rooms = Rooms::default();
        rooms.grow_for_pairing(ends.min(MOST_ENDS));
        rooms
    }

    /// Joins lines into chains.
    ///
    /// Round one joins ends that agree bit for bit in x, y and group. Round two, where the
    /// tolerance is above 0, joins the ends of what round one left that lie in one cell. Two ends
    /// that meet with no third are joined at any angle, unless they are the two ends of one piece;
    /// of three or more the straightest pairs are, if a limit is set. Heights and measures are not
    /// looked at and ride along with their points. The chains borrow from the lines and from these
    /// rooms.
    ///
    /// Two districts may share a call, by the top bit of their groups, and what one brings does not
    /// alter the other's chains:
    ///
    /// ```
    /// use lovasuku_chains::size::BORDER;
    /// use lovasuku_chains::{LinesBuf, Rooms, Settings};
    ///
    /// # fn main() -> Result<(), lovasuku_chains::Refusal> {
    /// let mut lines = LinesBuf::default();
    /// lines.push([[0.0, 0.0], [1.0, 0.0]], 7);
    /// lines.push([[1.0, 0.0], [1.0, 5.0]], BORDER | 7);
    /// lines.push([[1.0, 0.0], [2.0, 0.0]], 7);
    /// let mut rooms = Rooms::default();
    /// let chains = rooms.build(lines.lines(), Settings::default())?;
    /// let members: Vec<&[u32]> = chains.iter().map(|chain| chain.members()).collect();
    /// assert_eq!(members, [&[0, 2][..], &[1]]);
    /// # Ok(())
    /// # }
    /// ```
    ///
    /// # Errors
    ///
    /// The first of these that applies: [`Refusal::TooMany`], [`Refusal::TablesDiffer`],
    /// [`Refusal::MarkAboveOne`], [`Refusal::CountsDoNotAddUp`], [`Refusal::TooManyCoordinates`],
    /// [`Refusal::DistrictOverLines`], [`Refusal::DistrictOverCoordinates`], [`Refusal::NoPlace`],
    /// [`Refusal::BadLimit`], [`Refusal::BadOrigin`].
    pub fn build<'a>(
        &'a mut self,
        lines: Lines<'a>,
        settings: Settings,
    ) -> Result<Chains<'a>, Refusal> {
        lines.test_lengths()?;
        let (switch, limit) = settings.switch_and_limit();
        let Settings { tolerance, origin, .. } = settings;
        let raw = RawSettings { tolerance, origin, switch, limit };
        let wkb_type = lines.dimension.wkb_type();
        self.built(lines, |rooms| door::build(wkb_type, lines, raw, rooms))
    }

    /// The chains that a call leaves in rooms for lines whose lengths have been tested.
    pub(crate) fn built<'a>(
        &'a mut self,
        lines: Lines<'a>,
        call: impl FnOnce(BuildRooms<'_>) -> i64,
    ) -> Result<Chains<'a>, Refusal> {
        let n = lines.len();
        self.grow_for_building(n, lines.coordinates.len());
        let Rooms { table, members, marks, listing, merged, boxes, spare, workspace, .. } = self;
        let rooms = BuildRooms { table, members, marks, listing, merged, boxes, spare, workspace };
        let chains = door::result(call(rooms))? as usize;
        self.mark_the_way(n);
        let table = first(&self.table, RECORD * chains);
        Ok(Chains {
            lines,
            table,
            members: first(&self.members, n),
            marks: first(&self.marks, n),
            listing: first(&self.listing, n),
            way: first(&self.way, n),
            merged: first(&self.merged, lines.dimension.stride() * merged_points(table)),
            boxes: first(&self.boxes, BOXES * chains + BOXES_BESIDE),
            boxed: chains,
        })
    }

    /// Selects, of the ends at one node, the pairs that continue each other best.
    ///
    /// A pair's measure is the dot product of its two directions, held within -1 to 1. Over all
    /// ends of different pieces that have a direction, the pairs with a measure at or below the
    /// limit are taken in order of measure, then of the lower end, then of the higher one, each if
    /// neither of its ends is taken. Each pair has its lower end first.
    ///
    /// ```
    /// use lovasuku_chains::{Ends, Rooms, Route};
    ///
    /// # fn main() -> Result<(), lovasuku_chains::Refusal> {
    /// let ends = Ends {
    ///     present: &[1, 1, 1, 1],
    ///     directions: &[1.0, 0.0, -1.0, 0.0, 0.0, 1.0, 1.0, 0.0],
    ///     pieces: &[0, 1, 2, 3],
    /// };
    /// let mut rooms = Rooms::default();
    /// assert_eq!(rooms.pairs(Route::Chosen, ends, -1.0)?, [[0, 1]]);
    /// assert_eq!(rooms.pairs(Route::Chosen, ends, 0.0)?, [[0, 1], [2, 3]]);
    /// # Ok(())
    /// # }
    /// ```
    ///
    /// # Errors
    ///
    /// The first of these that applies: [`Refusal::TooMany`], [`Refusal::TablesDiffer`],
    /// [`Refusal::MarkAboveOne`], [`Refusal::BadLimit`], [`Refusal::PieceTooOften`], and for the
    /// indexed route [`Refusal::NotFinite`].
    pub fn pairs(
        &mut self,
        route: Route,
        ends: Ends<'_>,
        limit: f64,
    ) -> Result<&[[u32; 2]], Refusal> {
        ends.test_lengths()?;
        self.grow_for_pairing(ends.len());
        let Rooms { pairs, workspace, .. } = self;
        let rooms = PairRooms { pairs, workspace };
        let pairs = door::result(door::pairs(route, ends, limit, rooms))? as usize;
        Ok(first(by_two(&self.pairs), pairs))
    }

    /// Tells why two ends at one node are joined or not, under a limit; which of them comes first
    /// does not matter.
    ///
    /// ```
    /// use lovasuku_chains::{Ends, Reason, Rooms};
    ///
    /// # fn main() -> Result<(), lovasuku_chains::Refusal> {
    /// let ends = Ends {
    ///     present: &[1, 1, 1, 1],
    ///     directions: &[1.0, 0.0, -1.0, 0.0, 0.0, 1.0, 1.0, 0.0],
    ///     pieces: &[0, 1, 2, 3],
    /// };
    /// let mut rooms = Rooms::default();
    /// assert_eq!(rooms.why(ends, 0.0, [2, 3])?, Reason::Selected);
    /// assert_eq!(rooms.why(ends, -1.0, [2, 3])?, Reason::NotQualifying);
    /// let blocked = Reason::Blocked { place: 0, pair: [0, 1] };
    /// assert_eq!(rooms.why(ends, -1.0, [3, 1])?, blocked);
    /// # Ok(())
    /// # }
    /// ```
    ///
    /// # Errors
    ///
    /// The first of these that applies: [`Refusal::TooMany`], [`Refusal::TablesDiffer`],
    /// [`Refusal::MarkAboveOne`], [`Refusal::BadLimit`], [`Refusal::PieceTooOften`],
    /// [`Refusal::NoTwoEnds`].
    pub fn why(&mut self, ends: Ends<'_>, limit: f64, of: [u32; 2]) -> Result<Reason, Refusal> {
        ends.test_lengths()?;
        self.grow_for_pairing(ends.len());
        let Rooms { pairs, workspace, .. } = self;
        let rooms = PairRooms { pairs, workspace };
        let number = door::result(door::why(ends, limit, of, rooms))?;
        Reason::of_number(number, by_two(&self.pairs)).ok_or(Refusal::Unknown(number as i64))
    }

    /// Puts the marks, which stand in the members' order, in that of the listing too, for so many
    /// lines.
    fn mark_the_way(&mut self, lines: usize) {
        for (&line, &mark) in self.members.iter().zip(&self.marks).take(lines) {
            if let Some(turned) = self.turned.get_mut(line as usize) {
                *turned = mark;
            }
        }
        for (mark, &line) in self.way.iter_mut().zip(&self.listing).take(lines) {
            *mark = self.turned.get(line as usize).copied().unwrap_or_default();
        }
    }

    fn grow_for_building(&mut self, lines: usize, numbers: usize) {
        grow(&mut self.table, RECORD * lines);
        grow(&mut self.members, lines);
        grow(&mut self.marks, lines);
        grow(&mut self.listing, lines);
        grow(&mut self.turned, lines);
        grow(&mut self.way, lines);
        grow(&mut self.merged, numbers);
        grow(&mut self.boxes, BOXES * lines + BOXES_BESIDE);
        grow(&mut self.spare, numbers);
        grow(&mut self.workspace, LINE_WORKSPACE * lines);
    }

    /// The workspace of a call that needs no other room, for so many lines.
    pub(crate) fn workspace_for(&mut self, lines: usize) -> &mut [u64] {
        grow(&mut self.workspace, LINE_WORKSPACE * lines);
        &mut self.workspace
    }

    fn grow_for_pairing(&mut self, ends: usize) {
        grow(&mut self.pairs, ends);
        grow(&mut self.workspace, END_WORKSPACE * ends);
    }
}

/// Makes a room at least so long.
pub(crate) fn grow<T: Clone + Default>(room: &mut Vec<T>, length: usize) {
    if room.len() < length {
        room.resize(length, T::default());
    }
}

/// How many coordinates are merged: they end where those of the last merged chain do.
fn merged_points(table: &[u32]) -> usize {
    let end = |record: &[u32]| match *record {
        [_, _, 1, first, count, _] => Some(first as usize + count as usize),
        _ => None,
    };
    table.chunks_exact(RECORD).rev().find_map(end).unwrap_or(0)
}

/// The first so many of a slice, all where it has fewer.
pub(crate) fn first<T>(of: &[T], count: usize) -> &[T] {
    of.get(..count).unwrap_or(of)
}
