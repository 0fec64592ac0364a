//! One exact round, many zooms: the pieces of round one, finished again and again.

use crate::door::{self, FinishRooms, FirstRooms, RawSettings};
use crate::rooms::{first, grow};
use crate::size::PIECE;
use crate::{Chains, Lines, Refusal, Rooms, Settings};

/// Pieces of lines, as five slices of the caller's. They may come from anywhere; those of [`First`] come from
/// round one.
#[derive(Clone, Copy, Debug, Default, PartialEq)]
pub struct Pieces<'a> {
    /// Five numbers a piece: its first member, its number of members, the source of its coordinates (0 those of
    /// the lines, 1 the merged ones), the first of these and their number.
    pub records: &'a [u32],
    /// The members of all pieces: positions of lines.
    pub members: &'a [u32],
    /// The turned mark of each member.
    pub marks: &'a [u8],
    /// The lines of each piece in the order in which its coordinates pass them.
    pub listing: &'a [u32],
    /// The coordinates of the pieces of several lines, of the lines' dimension.
    pub merged: &'a [f64],
}

impl Pieces<'_> {
    /// The number of pieces. A record that is not whole counts, and is then refused.
    pub fn len(&self) -> usize {
        self.records.chunks(PIECE).len()
    }

    /// True where there is no piece.
    pub fn is_empty(&self) -> bool {
        self.records.is_empty()
    }

    /// The piece that each of so many lines is a member of; none for a line that passes through.
    pub fn of_lines(&self, lines: usize) -> Vec<Option<u32>> {
        let mut of_lines = vec![None; lines];
        for (piece, record) in self.records.chunks_exact(PIECE).enumerate() {
            if let [from, count, ..] = *record {
                for &line in crate::chains::part(self.members, from, count, 1) {
                    if let Some(of) = of_lines.get_mut(line as usize) {
                        *of = Some(piece as u32);
                    }
                }
            }
        }
        of_lines
    }
}

/// The buffers that round one leaves its pieces in. They grow where a call needs more than any before it.
#[derive(Clone, Debug, Default)]
pub struct FirstBuf {
    records: Vec<u32>,
    members: Vec<u32>,
    marks: Vec<u8>,
    listing: Vec<u32>,
    merged: Vec<f64>,
}

impl FirstBuf {
    /// Buffers without length, which the first call makes grow.
    pub fn new() -> Self {
        FirstBuf::default()
    }

    fn grow(&mut self, lines: usize, numbers: usize) {
        grow(&mut self.records, PIECE * lines);
        grow(&mut self.members, lines);
        grow(&mut self.marks, lines);
        grow(&mut self.listing, lines);
        grow(&mut self.merged, numbers);
    }
}

/// Lines with their pieces of round one, lent to [`Rooms::finish`] again and again.
#[derive(Clone, Copy, Debug, PartialEq)]
pub struct First<'a> {
    lines: Lines<'a>,
    pieces: Pieces<'a>,
}

impl<'a> First<'a> {
    /// The lines.
    pub fn lines(&self) -> Lines<'a> {
        self.lines
    }

    /// The pieces.
    pub fn pieces(&self) -> Pieces<'a> {
        self.pieces
    }
}

impl Rooms {
    /// Round one of building: joins ends that agree bit for bit in x, y and group, and leaves the pieces in
    /// buffers. Of the settings the limit alone is looked at.
    ///
    /// Zoom levels that differ in tolerance share it:
    ///
    /// ```
    /// use lovasuku_chains::{FirstBuf, LinesBuf, Rooms, Settings};
    ///
    /// # fn main() -> Result<(), lovasuku_chains::Refusal> {
    /// let mut roads = LinesBuf::default();
    /// roads.push([[0.0, 0.0], [1.25, 0.0]], 0);
    /// roads.push([[4.5, 0.0], [3.5, 0.0]], 0);
    /// roads.push([[3.5, 0.0], [1.75, 0.0]], 0);
    /// let (mut rooms, mut buffers) = (Rooms::default(), FirstBuf::default());
    /// let settings = Settings::default().with_limit(-0.5);
    /// let first = rooms.first(roads.lines(), settings, &mut buffers)?;
    /// assert_eq!(first.pieces().len(), 2);
    /// for (tolerance, chains) in [(0.0, 2), (0.25, 2), (1.0, 1)] {
    ///     let finished = rooms.finish(first, settings.with_tolerance(tolerance))?;
    ///     assert_eq!(finished.len(), chains);
    /// }
    /// # Ok(())
    /// # }
    /// ```
    ///
    /// # Errors
    ///
    /// Those of [`build`](Rooms::build) but for the origin's.
    pub fn first<'a>(
        &mut self,
        lines: Lines<'a>,
        settings: Settings,
        buffers: &'a mut FirstBuf,
    ) -> Result<First<'a>, Refusal> {
        lines.test_lengths()?;
        let n = lines.len();
        buffers.grow(n, lines.coordinates.len());
        let (switch, limit) = settings.switch_and_limit();
        let FirstBuf { records, members, marks, listing, merged } = buffers;
        let workspace = self.workspace_for(n);
        let rooms = FirstRooms { pieces: records, members, marks, listing, merged, workspace };
        let wkb_type = lines.dimension.wkb_type();
        let pieces = door::result(door::first(wkb_type, lines, switch, limit, rooms))? as usize;
        let records = first(&buffers.records, PIECE * pieces);
        let [joined, points] = ends(records);
        Ok(First {
            lines,
            pieces: Pieces {
                records,
                members: first(&buffers.members, joined),
                marks: first(&buffers.marks, joined),
                listing: first(&buffers.listing, joined),
                merged: first(&buffers.merged, lines.dimension.stride() * points),
            },
        })
    }

    /// Finishes the pieces of round one: round two, where the tolerance is above 0, and the lines that pass
    /// through behind them. With the limit that round one had the chains are those of
    /// [`build`](Rooms::build), bit for bit; so it is proved.
    ///
    /// # Errors
    ///
    /// [`Refusal::BadLimit`], [`Refusal::BadOrigin`].
    pub fn finish<'a>(
        &'a mut self,
        first: First<'a>,
        settings: Settings,
    ) -> Result<Chains<'a>, Refusal> {
        self.finish_pieces(first.lines, first.pieces, settings)
    }

    /// Finishes pieces that may come from anywhere, as they are lent: in any order, with members and listing
    /// of each in any order, and with any finite coordinates.
    ///
    /// # Errors
    ///
    /// Those of [`build`](Rooms::build), and behind them [`Refusal::BadPieces`] where the members or the
    /// listing are not the lines that do not pass through, each once, or differ in a piece; a piece has no
    /// line or no coordinate, several groups, what is not lent, a coordinate that is no place, or another
    /// source than its own; all have more coordinates than the lines; or a mark is above 1.
    pub fn finish_pieces<'a>(
        &'a mut self,
        lines: Lines<'a>,
        pieces: Pieces<'a>,
        settings: Settings,
    ) -> Result<Chains<'a>, Refusal> {
        lines.test_lengths()?;
        let (switch, limit) = settings.switch_and_limit();
        let Settings { tolerance, origin, .. } = settings;
        let raw = RawSettings { tolerance, origin, switch, limit };
        self.built(lines, |rooms| {
            let rooms = FinishRooms {
                table: rooms.table,
                members: rooms.members,
                marks: rooms.marks,
                listing: rooms.listing,
                merged: rooms.merged,
                boxes: rooms.boxes,
                workspace: rooms.workspace,
            };
            let (wkb_type, k) = (lines.dimension.wkb_type(), pieces.len() as u64);
            door::finish(wkb_type, lines, pieces, k, raw, rooms)
        })
    }
}

/// How many members pieces of round one have, and how many coordinates are merged: both end where those of the
/// last piece do.
fn ends(records: &[u32]) -> [usize; 2] {
    let mut ends = [0; 2];
    for record in records.chunks_exact(PIECE) {
        if let [member, members, source, from, points] = *record {
            ends[0] = ends[0].max(member as usize + members as usize);
            if source == 1 {
                ends[1] = ends[1].max(from as usize + points as usize);
            }
        }
    }
    ends
}
