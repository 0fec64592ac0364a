//! A building call, put to the library and held to the judge's answer.

use crate::room::{more, Dirt, Room};
use crate::{extras, laying, windows, zooms, Door, Judge};
use answers::offset::of_limit;
use answers::random::Random;
use answers::{BuildCall, Built, Refusal};
use lovasuku_chains::size::{BOXES, BOXES_BESIDE, LINE_WORKSPACE, RECORD};

/// The rooms of a building call.
pub struct BuildRooms {
    /// The chains' records.
    pub table: Room<u32>,
    /// The members of all chains.
    pub members: Room<u32>,
    /// The members' turned marks.
    pub marks: Room<u8>,
    /// The lines of all chains in the order in which the coordinates pass them.
    pub listing: Room<u32>,
    /// The coordinates of the chains of several lines.
    pub merged: Room<f64>,
    /// The boxes of the chains, and those above them.
    pub boxes: Room<f64>,
    /// Spare coordinates.
    pub spare: Room<f64>,
    /// Words of workspace.
    pub workspace: Room<u64>,
}

impl BuildRooms {
    /// The lengths that the rooms of a call must have, in the order of the fields.
    pub fn lengths(call: &BuildCall) -> [usize; 8] {
        let (n, numbers) = (call.counts.len(), call.coordinates.len());
        [RECORD * n, n, n, n, numbers, BOXES * n + BOXES_BESIDE, numbers, LINE_WORKSPACE * n]
    }

    /// Dirty rooms of exactly these lengths.
    pub fn new(random: &mut Random, lengths: [usize; 8]) -> Self {
        let [table, members, marks, listing, merged, boxes, spare, workspace] = lengths;
        BuildRooms {
            table: Room::new(Dirt::some(random), table),
            members: Room::new(Dirt::some(random), members),
            marks: Room::new(Dirt::some(random), marks),
            listing: Room::new(Dirt::some(random), listing),
            merged: Room::new(Dirt::some(random), merged),
            boxes: Room::new(Dirt::some(random), boxes),
            spare: Room::new(Dirt::some(random), spare),
            workspace: Room::new(Dirt::some(random), workspace),
        }
    }

    /// Dirty rooms for the call, some a little longer than they must be.
    pub fn for_call(random: &mut Random, call: &BuildCall) -> Self {
        let lengths = Self::lengths(call).map(|length| length + more(random));
        Self::new(random, lengths)
    }

    /// Tests that no room has changed.
    pub fn untouched(&self) -> Result<(), String> {
        self.table.untouched("table")?;
        self.members.untouched("members")?;
        self.marks.untouched("marks")?;
        self.listing.untouched("listing")?;
        self.merged.untouched("merged")?;
        self.boxes.untouched("boxes")?;
        self.spare.untouched("spare")?;
        self.workspace.untouched("workspace")
    }

    /// Tests that every room is as an accepted call with this answer leaves it.
    pub fn hold(&self, call: &BuildCall, built: &Built) -> Result<(), String> {
        let floats =
            |bits: &[u64]| -> Vec<f64> { bits.iter().map(|&b| f64::from_bits(b)).collect() };
        let (merged, boxes) = (floats(&built.merged), floats(&built.boxes));
        self.table.begins_with("table", &built.table.concat())?;
        self.members.begins_with("members", &built.members)?;
        self.marks.begins_with("marks", &built.marks)?;
        self.listing.begins_with("listing", &built.listing)?;
        self.merged.begins_with("merged", &merged)?;
        self.boxes.begins_with("boxes", &boxes)?;
        self.spare.cleared("spare", call.coordinates.len())?;
        self.workspace.cleared("workspace", LINE_WORKSPACE * call.counts.len())
    }
}

/// Puts the call to the door, in rooms that the seed determines, and holds it to the judge's
/// answer; once more with an offset in the limit's place, where the limit is of one; in two calls; and to
/// what is known without a judge of listings and marks, of windows over its chains, and of extras where there
/// are any. The error is a
/// sentence about the first difference.
pub fn compare_build(
    door: &dyn Door,
    judge: Judge,
    call: &BuildCall,
    seed: u64,
) -> Result<(), String> {
    let wanted = judge.build(call);
    hold_build(door, call, &wanted, seed)?;
    if let Some(door) = door.by_offset().filter(|_| of_limit(call.limit).is_some()) {
        hold_build(door, call, &wanted, seed).map_err(by_offset)?;
    }
    zooms::check(door, call, &wanted, seed)?;
    match &wanted {
        // The rooms have been seen to hold this answer.
        Ok(built) => {
            laying::check(call, built)?;
            windows::check(door, call, built, seed)?;
            extras::check(door, call, built, seed)
        }
        Err(_) => Ok(()),
    }
}

/// A difference of the call with an offset in the limit's place.
pub(crate) fn by_offset(difference: String) -> String {
    format!("with an offset in the limit's place: {difference}")
}

/// The same with an answer or a refusal that is known already.
pub fn hold_build(
    door: &dyn Door,
    call: &BuildCall,
    wanted: &Result<Built, Refusal>,
    seed: u64,
) -> Result<(), String> {
    let mut rooms = BuildRooms::for_call(&mut Random::new(seed), call);
    let answer = door.build(call, &mut rooms);
    match wanted {
        Ok(built) if answer == built.table.len() as i64 => rooms.hold(call, built),
        Ok(built) => Err(format!("the answer is {answer}, not {} chains", built.table.len())),
        Err(Refusal(number)) if answer == -i64::from(*number) => rooms.untouched(),
        Err(Refusal(number)) => Err(format!("the answer is {answer}, not refusal {number}")),
    }
}
