//! Building in two calls: round one, whose pieces are left in lent buffers, and the rest.

use super::RawSettings;
use crate::{declared, Lines, Pieces};

/// The rooms of a first call, for n lines and c coordinates of w numbers each.
#[derive(Debug)]
pub struct FirstRooms<'a> {
    /// 5 n numbers: the pieces' records.
    pub pieces: &'a mut [u32],
    /// n numbers: the members of all pieces.
    pub members: &'a mut [u32],
    /// n bytes: the members' turned marks.
    pub marks: &'a mut [u8],
    /// n numbers: the lines of all pieces in the order in which the coordinates pass them.
    pub listing: &'a mut [u32],
    /// w c numbers: the coordinates of the pieces of several lines.
    pub merged: &'a mut [f64],
    /// 192 n words, 0 after an accepted call.
    pub workspace: &'a mut [u64],
}

/// The rooms of a finishing call, for n lines and c coordinates of w numbers each: those of building but for
/// the spare.
#[derive(Debug)]
pub struct FinishRooms<'a> {
    /// 6 n numbers: the chains' records.
    pub table: &'a mut [u32],
    /// n numbers: the members of all chains.
    pub members: &'a mut [u32],
    /// n bytes: the members' turned marks.
    pub marks: &'a mut [u8],
    /// n numbers: the lines of all chains in the order in which the coordinates pass them.
    pub listing: &'a mut [u32],
    /// w c numbers: the coordinates of the chains of several lines.
    pub merged: &'a mut [f64],
    /// 8 n + 64 numbers: the boxes of the chains, and those above them.
    pub boxes: &'a mut [f64],
    /// 192 n words, 0 after an accepted call.
    pub workspace: &'a mut [u64],
}

/// Round one of building lines of a type. The result is the number of pieces.
pub fn first(
    wkb_type: u32,
    lines: Lines<'_>,
    switch: u8,
    limit: f64,
    rooms: FirstRooms<'_>,
) -> i64 {
    unsafe {
        declared::lovasuku_first(
            wkb_type,
            lines.coordinates.as_ptr(),
            lines.coordinates.len(),
            lines.counts.as_ptr(),
            lines.counts.len(),
            lines.groups.as_ptr(),
            lines.groups.len(),
            lines.kinds.as_ptr(),
            lines.kinds.len(),
            switch,
            limit,
            rooms.pieces.as_mut_ptr(),
            rooms.pieces.len(),
            rooms.members.as_mut_ptr(),
            rooms.members.len(),
            rooms.marks.as_mut_ptr(),
            rooms.marks.len(),
            rooms.listing.as_mut_ptr(),
            rooms.listing.len(),
            rooms.merged.as_mut_ptr(),
            rooms.merged.len(),
            rooms.workspace.as_mut_ptr(),
            rooms.workspace.len(),
        )
    }
}

/// Finishes k pieces of lines of a type. The result is the number of chains.
pub fn finish(
    wkb_type: u32,
    lines: Lines<'_>,
    pieces: Pieces<'_>,
    k: u64,
    settings: RawSettings,
    rooms: FinishRooms<'_>,
) -> i64 {
    let [origin_x, origin_y] = settings.origin;
    unsafe {
        declared::lovasuku_finish(
            wkb_type,
            lines.coordinates.as_ptr(),
            lines.coordinates.len(),
            lines.counts.as_ptr(),
            lines.counts.len(),
            lines.groups.as_ptr(),
            lines.groups.len(),
            lines.kinds.as_ptr(),
            lines.kinds.len(),
            pieces.records.as_ptr(),
            pieces.records.len(),
            pieces.members.as_ptr(),
            pieces.members.len(),
            pieces.marks.as_ptr(),
            pieces.marks.len(),
            pieces.listing.as_ptr(),
            pieces.listing.len(),
            pieces.merged.as_ptr(),
            pieces.merged.len(),
            k,
            settings.tolerance,
            origin_x,
            origin_y,
            settings.switch,
            settings.limit,
            rooms.table.as_mut_ptr(),
            rooms.table.len(),
            rooms.members.as_mut_ptr(),
            rooms.members.len(),
            rooms.marks.as_mut_ptr(),
            rooms.marks.len(),
            rooms.listing.as_mut_ptr(),
            rooms.listing.len(),
            rooms.merged.as_mut_ptr(),
            rooms.merged.len(),
            rooms.boxes.as_mut_ptr(),
            rooms.boxes.len(),
            rooms.workspace.as_mut_ptr(),
            rooms.workspace.len(),
        )
    }
}
