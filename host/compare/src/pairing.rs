//! A pairing call, put to every route of the library and held to the judge's answer.

use crate::building::by_offset;
use crate::room::{more, Dirt, Room};
use crate::{Door, Judge};
use answers::offset::of_limit;
use answers::random::Random;
use answers::{Pair, PairingCall, Route};
use lovasuku_chains::door;
use lovasuku_chains::size::END_WORKSPACE;

/// All routes, whether they accept a call or not.
pub const ROUTES: [Route; 3] = [Route::Plain, Route::Indexed, Route::Chosen];

/// The rooms of a pairing call.
pub struct PairRooms {
    /// The selected pairs.
    pub pairs: Room<u32>,
    /// Words of workspace.
    pub workspace: Room<u64>,
}

impl PairRooms {
    /// The lengths that the rooms of a call must have, in the order of the fields.
    pub fn lengths(call: &PairingCall) -> [usize; 2] {
        let d = call.pieces.len();
        [d, END_WORKSPACE * d]
    }

    /// Dirty rooms of exactly these lengths.
    pub fn new(random: &mut Random, lengths: [usize; 2]) -> Self {
        let [pairs, workspace] = lengths;
        PairRooms {
            pairs: Room::new(Dirt::some(random), pairs),
            workspace: Room::new(Dirt::some(random), workspace),
        }
    }

    /// Dirty rooms for the call, some a little longer than they must be.
    pub fn for_call(random: &mut Random, call: &PairingCall) -> Self {
        let lengths = Self::lengths(call).map(|length| length + more(random));
        Self::new(random, lengths)
    }

    /// The rooms as they are lent.
    pub fn lent(&mut self) -> door::PairRooms<'_> {
        door::PairRooms { pairs: self.pairs.lent(), workspace: self.workspace.lent() }
    }

    /// Tests that no room has changed.
    pub fn untouched(&self) -> Result<(), String> {
        self.pairs.untouched("pairs")?;
        self.workspace.untouched("workspace")
    }

    /// Tests that every room is as an accepted call with these pairs leaves it.
    pub fn hold(&self, call: &PairingCall, pairs: &[Pair]) -> Result<(), String> {
        self.pairs.begins_with("pairs", &pairs.concat())?;
        self.workspace.cleared("workspace", END_WORKSPACE * call.pieces.len())
    }
}

/// Puts the call to the door by every route, in rooms that the seed determines, and holds it to
/// the judge's answer; once more with an offset in the limit's place, where the limit is of one. The
/// error is a sentence about the first difference.
pub fn compare_pairs(
    door: &dyn Door,
    judge: Judge,
    call: &PairingCall,
    seed: u64,
) -> Result<(), String> {
    let wanted = judge.pairs(call);
    hold_pairs(door, call, |route| wanted.by(route), seed)?;
    match door.by_offset().filter(|_| of_limit(call.limit).is_some()) {
        Some(door) => hold_pairs(door, call, |route| wanted.by(route), seed).map_err(by_offset),
        None => Ok(()),
    }
}

/// The same with answers that are known already. A route without one refuses the call.
pub fn hold_pairs<'a>(
    door: &dyn Door,
    call: &PairingCall,
    wanted: impl Fn(Route) -> Option<&'a [Pair]>,
    seed: u64,
) -> Result<(), String> {
    let mut random = Random::new(seed);
    for route in ROUTES {
        let mut rooms = PairRooms::for_call(&mut random, call);
        let answer = door.pairs(route, call, &mut rooms);
        check(call, wanted(route), answer, &rooms)
            .map_err(|difference| format!("the {route:?} route: {difference}"))?;
    }
    Ok(())
}

fn check(
    call: &PairingCall,
    wanted: Option<&[Pair]>,
    answer: i64,
    rooms: &PairRooms,
) -> Result<(), String> {
    match wanted {
        None if answer == -9 => rooms.untouched(),
        None => Err(format!("the answer is {answer}, not refusal 9")),
        Some(pairs) if answer == pairs.len() as i64 => rooms.hold(call, pairs),
        Some(pairs) => Err(format!("the answer is {answer}, not {} pairs", pairs.len())),
    }
}
