//! Building in two calls, put to the library: the pieces that the first leaves, held to the model; what the
//! second makes of them, held to the judge's answer to the one call; and pieces that come from anywhere, held
//! to the model.

use crate::lent::floats;
use crate::room::{more, Dirt, Room};
use crate::Door;
use answers::model::parting::{finished, first_refusal, forbidden, left, Forbidden};
use answers::random::Random;
use answers::{BuildCall, Built, FinishCall, Pieces, Refusal};
use lovasuku_chains::size::{BOXES, BOXES_BESIDE, LINE_WORKSPACE, PIECE, RECORD};

/// The rooms of a first call.
pub struct FirstRooms {
    /// The pieces' records.
    pub pieces: Room<u32>,
    /// The members of all pieces.
    pub members: Room<u32>,
    /// The members' turned marks.
    pub marks: Room<u8>,
    /// The lines of all pieces in the order in which the coordinates pass them.
    pub listing: Room<u32>,
    /// The coordinates of the pieces of several lines.
    pub merged: Room<f64>,
    /// Words of workspace.
    pub workspace: Room<u64>,
}

impl FirstRooms {
    /// The lengths that the rooms of a call must have, in the order of the fields.
    pub fn lengths(call: &BuildCall) -> [usize; 6] {
        let n = call.lines();
        [PIECE * n, n, n, n, call.coordinates.len(), LINE_WORKSPACE * n]
    }

    /// Dirty rooms of exactly these lengths.
    pub fn new(random: &mut Random, lengths: [usize; 6]) -> Self {
        let [pieces, members, marks, listing, merged, workspace] = lengths;
        FirstRooms {
            pieces: Room::new(Dirt::some(random), pieces),
            members: Room::new(Dirt::some(random), members),
            marks: Room::new(Dirt::some(random), marks),
            listing: Room::new(Dirt::some(random), listing),
            merged: Room::new(Dirt::some(random), merged),
            workspace: Room::new(Dirt::some(random), workspace),
        }
    }

    /// Tests that no room has changed.
    pub fn untouched(&self) -> Result<(), String> {
        self.pieces.untouched("pieces")?;
        self.members.untouched("members")?;
        self.marks.untouched("marks")?;
        self.listing.untouched("listing")?;
        self.merged.untouched("merged")?;
        self.workspace.untouched("workspace")
    }

    /// Tests that every room is as an accepted call that leaves these pieces leaves it.
    pub fn hold(&self, call: &BuildCall, left: &Pieces) -> Result<(), String> {
        self.pieces.begins_with("pieces", &left.records)?;
        self.members.begins_with("members", &left.members)?;
        self.marks.begins_with("marks", &left.marks)?;
        self.listing.begins_with("listing", &left.listing)?;
        self.merged.begins_with("merged", &floats(&left.merged))?;
        self.workspace.cleared("workspace", LINE_WORKSPACE * call.lines())
    }
}

/// The rooms of a finishing call.
pub struct FinishRooms {
    /// The chains' records.
    pub table: Room<u32>,
    /// The members of all chains.
    pub members: Room<u32>,
    /// The members' turned marks.
    pub marks: Room<u8>,
    /// The lines of all chains in the order in which the coordinates pass them.
    pub listing: Room<u32>,
    /// The coordinates of the chains of several lines.
    pub merged: Room<f64>,
    /// The boxes of the chains, and those above them.
    pub boxes: Room<f64>,
    /// Words of workspace.
    pub workspace: Room<u64>,
}

impl FinishRooms {
    /// The lengths that the rooms of a call must have, in the order of the fields.
    pub fn lengths(call: &BuildCall) -> [usize; 7] {
        let (n, numbers) = (call.lines(), call.coordinates.len());
        [RECORD * n, n, n, n, numbers, BOXES * n + BOXES_BESIDE, LINE_WORKSPACE * n]
    }

    /// Dirty rooms of exactly these lengths.
    pub fn new(random: &mut Random, lengths: [usize; 7]) -> Self {
        let [table, members, marks, listing, merged, boxes, workspace] = lengths;
        FinishRooms {
            table: Room::new(Dirt::some(random), table),
            members: Room::new(Dirt::some(random), members),
            marks: Room::new(Dirt::some(random), marks),
            listing: Room::new(Dirt::some(random), listing),
            merged: Room::new(Dirt::some(random), merged),
            boxes: Room::new(Dirt::some(random), boxes),
            workspace: Room::new(Dirt::some(random), workspace),
        }
    }

    /// Tests that no room has changed.
    pub fn untouched(&self) -> Result<(), String> {
        self.table.untouched("table")?;
        self.members.untouched("members")?;
        self.marks.untouched("marks")?;
        self.listing.untouched("listing")?;
        self.merged.untouched("merged")?;
        self.boxes.untouched("boxes")?;
        self.workspace.untouched("workspace")
    }

    /// Tests that every room is as an accepted call with this answer leaves it.
    pub fn hold(&self, call: &BuildCall, built: &Built) -> Result<(), String> {
        self.table.begins_with("table", &built.table.concat())?;
        self.members.begins_with("members", &built.members)?;
        self.marks.begins_with("marks", &built.marks)?;
        self.listing.begins_with("listing", &built.listing)?;
        self.merged.begins_with("merged", &floats(&built.merged))?;
        self.boxes.begins_with("boxes", &floats(&built.boxes))?;
        self.workspace.cleared("workspace", LINE_WORKSPACE * call.lines())
    }
}

/// Puts a building call to the door in two calls, in rooms that the seed determines: what the first leaves is
/// held to the model, and what the second makes of it to the answer or refusal of the one call.
pub fn check(
    door: &dyn Door,
    call: &BuildCall,
    wanted: &Result<Built, Refusal>,
    seed: u64,
) -> Result<(), String> {
    let mut random = Random::new(!seed);
    let lengths = FirstRooms::lengths(call).map(|length| length + more(&mut random));
    let mut rooms = FirstRooms::new(&mut random, lengths);
    let answer = door.first(call, &mut rooms);
    if let Some(Refusal(number)) = first_refusal(call) {
        let refused = answer == -i64::from(number);
        let sentence = || format!("the first answers {answer}, not refusal {number}");
        return refused.then(|| rooms.untouched()).unwrap_or_else(|| Err(sentence()));
    }
    let left = left(call);
    if answer != left.k as i64 {
        return Err(format!("the first answers {answer}, not {} pieces", left.k));
    }
    rooms.hold(call, &left).map_err(|difference| format!("of the first, {difference}"))?;
    let finish = FinishCall { lines: call.clone(), pieces: left };
    hold_finish(door, &finish, wanted, false, seed).map_err(|it| format!("in two calls, {it}"))
}

/// Puts a finishing call to the door, in rooms of which one may be too short, and holds it to an answer or a
/// refusal.
fn hold_finish(
    door: &dyn Door,
    call: &FinishCall,
    wanted: &Result<Built, Refusal>,
    short: bool,
    seed: u64,
) -> Result<(), String> {
    let mut random = Random::new(seed);
    let mut lengths = FinishRooms::lengths(&call.lines);
    match short {
        true => shorten(&mut random, &mut lengths),
        false => lengths = lengths.map(|length| length + more(&mut random)),
    }
    let mut rooms = FinishRooms::new(&mut random, lengths);
    let answer = door.finish(call, &mut rooms);
    match wanted {
        Ok(built) if answer == built.table.len() as i64 => rooms.hold(&call.lines, built),
        Ok(built) => Err(format!("the answer is {answer}, not {} chains", built.table.len())),
        Err(Refusal(number)) if answer == -i64::from(*number) => rooms.untouched(),
        Err(Refusal(number)) => Err(format!("the answer is {answer}, not refusal {number}")),
    }
}

/// Takes a number from a room that has one.
fn shorten(random: &mut Random, lengths: &mut [usize; 7]) {
    let some: Vec<usize> = (0..7).filter(|&room| lengths[room] > 0).collect();
    lengths[random.pick(&some)] -= 1;
}

/// Puts pieces that come from anywhere to the door, and holds it to the model. Gives the first clause of 19
/// that does not hold, if one does not. The error is a sentence about the first difference.
pub fn compare_finish(
    door: &dyn Door,
    call: &FinishCall,
    seed: u64,
) -> Result<Option<Forbidden>, String> {
    let short = Random::new(seed).one_in(16);
    hold_finish(door, call, &finished(call, short), short, seed)?;
    let lines = call.lines.refusal().is_none();
    Ok(lines.then(|| forbidden(call).first().copied()).flatten())
}

/// A clause of 19 in a few words; nothing where none is broken.
pub fn name(clause: Option<Forbidden>) -> &'static str {
    match clause {
        None => "not refused by 19",
        Some(Forbidden::Records) => "19 for records not lent",
        Some(Forbidden::LeavesMembers) => "19 for members not lent",
        Some(Forbidden::LeavesCoordinates) => "19 for coordinates not lent",
        Some(Forbidden::NoLine) => "19 for no line",
        Some(Forbidden::NoCoordinate) => "19 for no coordinate",
        Some(Forbidden::Members) => "19 for members",
        Some(Forbidden::Listing) => "19 for the listing",
        Some(Forbidden::OtherLines) => "19 for other lines listed",
        Some(Forbidden::Groups) => "19 for groups",
        Some(Forbidden::NotFinite) => "19 for what is no place",
        Some(Forbidden::NotOwn) => "19 for a lone line elsewhere",
        Some(Forbidden::NotMerged) => "19 for joined lines not merged",
        Some(Forbidden::TooMany) => "19 for too many coordinates",
        Some(Forbidden::Mark) => "19 for a mark",
    }
}
