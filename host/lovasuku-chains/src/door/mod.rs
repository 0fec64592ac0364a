//! The door itself: one function for each call of the library, on slices, with its bare answer.
//!
//! Most callers want [`Rooms`](crate::Rooms), which lends the rooms and names the refusals. These
//! functions are for tests, benchmarks and hosts that lend rooms of their own. The library tests
//! every number and every length that it is given, so any slices whatever may be lent. An answer
//! from 0 up is a result, and an answer below 0 is minus the number of a refusal.
//!
//! Each unsafe line passes pointers and lengths of live slices, of which the mutable ones lie apart
//! from all others, so the library may read and write all that it is told of.
#![allow(unsafe_code)]

mod pieces;

use crate::declared::{self, PairsFunction, PairsOffsetFunction};
use crate::{Delivered, Ends, Lines, Refusal, Route, Window};
pub use pieces::{finish, first, FinishRooms, FirstRooms};

/// Tolerance, origin, switch and limit as they are lent, unchecked.
#[derive(Clone, Copy, Debug, PartialEq)]
pub struct RawSettings {
    /// The snap tolerance.
    pub tolerance: f64,
    /// x and y of the corner that cells are counted from.
    pub origin: [f64; 2],
    /// 1 where junctions are paired, 0 where they are not.
    pub switch: u8,
    /// The limit; not looked at where the switch is 0.
    pub limit: f64,
}

/// Tolerance, origin, switch and offset as they are lent, unchecked.
#[derive(Clone, Copy, Debug, PartialEq)]
pub struct RawOffset {
    /// The snap tolerance.
    pub tolerance: f64,
    /// x and y of the corner that cells are counted from.
    pub origin: [f64; 2],
    /// 1 where junctions are paired, 0 where they are not.
    pub switch: u8,
    /// The offset in the limit's place, in millimetres per metre run; not looked at where the
    /// switch is 0.
    pub offset: u32,
}

/// The rooms of a building call, for n lines and c coordinates of w numbers each: 2 for type 2, 3 for
/// 1002 and 2002, 4 for 3002.
#[derive(Debug)]
pub struct BuildRooms<'a> {
    /// 6 n numbers: the chains' records.
    pub table: &'a mut [u32],
    /// n numbers: the members of all chains.
    pub members: &'a mut [u32],
    /// n bytes: the members' turned marks.
    pub marks: &'a mut [u8],
    /// n numbers: the lines of all chains in the order in which the coordinates pass them.
    pub listing: &'a mut [u32],
    /// w c numbers: the coordinates of the chains of several lines.
    pub merged: &'a mut [f64],
    /// 8 n + 64 numbers: the boxes of the chains, and those above them.
    pub boxes: &'a mut [f64],
    /// w c numbers, 0 after an accepted call.
    pub spare: &'a mut [f64],
    /// 192 n words, 0 after an accepted call.
    pub workspace: &'a mut [u64],
}

/// The rooms of a pairing call, for d ends.
#[derive(Debug)]
pub struct PairRooms<'a> {
    /// d numbers: the selected pairs, two numbers each.
    pub pairs: &'a mut [u32],
    /// 64 d words, 0 after an accepted call.
    pub workspace: &'a mut [u64],
}

/// The rooms of a reading call.
#[derive(Debug)]
pub struct ReadRooms<'a> {
    /// Two numbers, three or four for each coordinate of the records.
    pub coordinates: &'a mut [f64],
    /// One number for each record.
    pub counts: &'a mut [u32],
    /// One number: the type of all records, 2 where there is none.
    pub wkb_type: &'a mut [u32],
}

/// The rooms of a writing call, for k chains.
#[derive(Debug)]
pub struct WriteRooms<'a> {
    /// 9 bytes for each chain and 8 for each number of its coordinates.
    pub run: &'a mut [u8],
    /// k numbers: the records' lengths.
    pub lengths: &'a mut [u64],
}

/// The result of an answer, or its refusal.
pub fn result(answer: i64) -> Result<u64, Refusal> {
    u64::try_from(answer).map_err(|_| Refusal::of_number(answer.wrapping_neg()))
}

/// Builds the chains of lines of a type, which the library takes by its number, whatever dimension
/// the lines have. The result is the number of chains.
pub fn build(wkb_type: u32, lines: Lines<'_>, settings: RawSettings, rooms: BuildRooms<'_>) -> i64 {
    let [origin_x, origin_y] = settings.origin;
    unsafe {
        declared::lovasuku_build(
            wkb_type,
            lines.coordinates.as_ptr(),
            lines.coordinates.len(),
            lines.counts.as_ptr(),
            lines.counts.len(),
            lines.groups.as_ptr(),
            lines.groups.len(),
            lines.kinds.as_ptr(),
            lines.kinds.len(),
            settings.tolerance,
            origin_x,
            origin_y,
            settings.switch,
            settings.limit,
            rooms.table.as_mut_ptr(),
            rooms.table.len(),
            rooms.members.as_mut_ptr(),
            rooms.members.len(),
            rooms.marks.as_mut_ptr(),
            rooms.marks.len(),
            rooms.listing.as_mut_ptr(),
            rooms.listing.len(),
            rooms.merged.as_mut_ptr(),
            rooms.merged.len(),
            rooms.boxes.as_mut_ptr(),
            rooms.boxes.len(),
            rooms.spare.as_mut_ptr(),
            rooms.spare.len(),
            rooms.workspace.as_mut_ptr(),
            rooms.workspace.len(),
        )
    }
}

/// Selects pairs of ends by a route. The result is their number.
pub fn pairs(route: Route, ends: Ends<'_>, limit: f64, rooms: PairRooms<'_>) -> i64 {
    let function: PairsFunction = match route {
        Route::Plain => declared::lovasuku_pairs_plain,
        Route::Indexed => declared::lovasuku_pairs_indexed,
        Route::Chosen => declared::lovasuku_pairs_chosen,
    };
    unsafe {
        function(
            ends.present.as_ptr(),
            ends.present.len(),
            ends.directions.as_ptr(),
            ends.directions.len(),
            ends.pieces.as_ptr(),
            ends.pieces.len(),
            limit,
            rooms.pairs.as_mut_ptr(),
            rooms.pairs.len(),
            rooms.workspace.as_mut_ptr(),
            rooms.workspace.len(),
        )
    }
}

/// Asks why two ends are joined or not, in rooms of a pairing call. The result is the number of a
/// [`Reason`](crate::Reason): 4 + p where selected pair p blocks them.
pub fn why(ends: Ends<'_>, limit: f64, [i, j]: [u32; 2], rooms: PairRooms<'_>) -> i64 {
    unsafe {
        declared::lovasuku_why(
            ends.present.as_ptr(),
            ends.present.len(),
            ends.directions.as_ptr(),
            ends.directions.len(),
            ends.pieces.as_ptr(),
            ends.pieces.len(),
            limit,
            i,
            j,
            rooms.pairs.as_mut_ptr(),
            rooms.pairs.len(),
            rooms.workspace.as_mut_ptr(),
            rooms.workspace.len(),
        )
    }
}

/// The limit that an offset stands for. The answer is its 64 bits, or -22.
///
/// Bits are negative, as those of every number below 0: no answer but -22 is a refusal, and
/// [`result`] is not for this call.
pub fn offset_limit(offset: u32) -> i64 {
    unsafe { declared::lovasuku_offset_limit(offset) }
}

/// Builds the chains with an offset in the limit's place. The result is their number.
pub fn build_offset(
    wkb_type: u32,
    lines: Lines<'_>,
    settings: RawOffset,
    rooms: BuildRooms<'_>,
) -> i64 {
    let [origin_x, origin_y] = settings.origin;
    unsafe {
        declared::lovasuku_build_offset(
            wkb_type,
            lines.coordinates.as_ptr(),
            lines.coordinates.len(),
            lines.counts.as_ptr(),
            lines.counts.len(),
            lines.groups.as_ptr(),
            lines.groups.len(),
            lines.kinds.as_ptr(),
            lines.kinds.len(),
            settings.tolerance,
            origin_x,
            origin_y,
            settings.switch,
            settings.offset,
            rooms.table.as_mut_ptr(),
            rooms.table.len(),
            rooms.members.as_mut_ptr(),
            rooms.members.len(),
            rooms.marks.as_mut_ptr(),
            rooms.marks.len(),
            rooms.listing.as_mut_ptr(),
            rooms.listing.len(),
            rooms.merged.as_mut_ptr(),
            rooms.merged.len(),
            rooms.boxes.as_mut_ptr(),
            rooms.boxes.len(),
            rooms.spare.as_mut_ptr(),
            rooms.spare.len(),
            rooms.workspace.as_mut_ptr(),
            rooms.workspace.len(),
        )
    }
}

/// Selects pairs of ends by a route, with an offset in the limit's place. The result is their
/// number.
pub fn pairs_offset(route: Route, ends: Ends<'_>, offset: u32, rooms: PairRooms<'_>) -> i64 {
    let function: PairsOffsetFunction = match route {
        Route::Plain => declared::lovasuku_pairs_plain_offset,
        Route::Indexed => declared::lovasuku_pairs_indexed_offset,
        Route::Chosen => declared::lovasuku_pairs_chosen_offset,
    };
    unsafe {
        function(
            ends.present.as_ptr(),
            ends.present.len(),
            ends.directions.as_ptr(),
            ends.directions.len(),
            ends.pieces.as_ptr(),
            ends.pieces.len(),
            offset,
            rooms.pairs.as_mut_ptr(),
            rooms.pairs.len(),
            rooms.workspace.as_mut_ptr(),
            rooms.workspace.len(),
        )
    }
}

/// Asks whether record k of a table names a chain in coordinates of a type. The result is 0.
pub fn chain(wkb_type: u32, coordinates: &[f64], merged: &[f64], table: &[u32], k: u64) -> i64 {
    unsafe {
        declared::lovasuku_chain(
            wkb_type,
            coordinates.as_ptr(),
            coordinates.len(),
            merged.as_ptr(),
            merged.len(),
            table.as_ptr(),
            table.len(),
            k,
        )
    }
}

/// Asks which of k chains lie in a window, by their boxes. The result is their number.
pub fn window(boxes: &[f64], k: u64, window: Window, found: &mut [u32]) -> i64 {
    let Window { least: [least_x, least_y], greatest: [greatest_x, greatest_y] } = window;
    unsafe {
        declared::lovasuku_window(
            boxes.as_ptr(),
            boxes.len(),
            k,
            least_x,
            least_y,
            greatest_x,
            greatest_y,
            found.as_mut_ptr(),
            found.len(),
        )
    }
}

/// Asks whether k chains of a table, made elsewhere, are acceptable as chains of lines of a type, which
/// meet by a tolerance and the origin of its cells. The result is 0.
pub fn check(
    wkb_type: u32,
    lines: Lines<'_>,
    (tolerance, [origin_x, origin_y]): (f64, [f64; 2]),
    chains: Delivered<'_>,
    k: u64,
    workspace: &mut [u64],
) -> i64 {
    unsafe {
        declared::lovasuku_check(
            wkb_type,
            lines.coordinates.as_ptr(),
            lines.coordinates.len(),
            lines.counts.as_ptr(),
            lines.counts.len(),
            lines.groups.as_ptr(),
            lines.groups.len(),
            lines.kinds.as_ptr(),
            lines.kinds.len(),
            tolerance,
            origin_x,
            origin_y,
            chains.table.as_ptr(),
            chains.table.len(),
            k,
            chains.listing.as_ptr(),
            chains.listing.len(),
            chains.merged.as_ptr(),
            chains.merged.len(),
            workspace.as_mut_ptr(),
            workspace.len(),
        )
    }
}

/// Reads a run of WKB records, whose lengths stand in a table. The result is their number.
pub fn read_wkb(run: &[u8], lengths: &[u64], rooms: ReadRooms<'_>) -> i64 {
    unsafe {
        declared::lovasuku_read_wkb(
            run.as_ptr(),
            run.len(),
            lengths.as_ptr(),
            lengths.len(),
            rooms.coordinates.as_mut_ptr(),
            rooms.coordinates.len(),
            rooms.counts.as_mut_ptr(),
            rooms.counts.len(),
            rooms.wkb_type.as_mut_ptr(),
            rooms.wkb_type.len(),
        )
    }
}

/// Writes the first k chains of a table as WKB records of a type in a byte order. The result is the
/// number of bytes.
pub fn write_wkb(
    wkb_type: u32,
    coordinates: &[f64],
    merged: &[f64],
    table: &[u32],
    k: u64,
    order: u8,
    rooms: WriteRooms<'_>,
) -> i64 {
    unsafe {
        declared::lovasuku_write_wkb(
            wkb_type,
            coordinates.as_ptr(),
            coordinates.len(),
            merged.as_ptr(),
            merged.len(),
            table.as_ptr(),
            table.len(),
            k,
            order,
            rooms.run.as_mut_ptr(),
            rooms.run.len(),
            rooms.lengths.as_mut_ptr(),
            rooms.lengths.len(),
        )
    }
}
