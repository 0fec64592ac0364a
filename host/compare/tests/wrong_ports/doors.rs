//! The model behind a door, in whole or with something wrong.

use crate::{answers_of, boxes_of, pieces_of, verdicts_of};
use answers::{stride_of, BuildCall, Built, CheckCall, FinishCall, Pieces};
use answers::{Pair, PairingCall, Refusal, Route, WhyCall, WindowCall};
use compare::building::BuildRooms;
use compare::pairing::PairRooms;
use compare::room::Room;
use compare::zooms::{FinishRooms, FirstRooms};
use compare::Door;

/// A port in which each part may be replaced by a wrong one.
pub struct Pretended {
    /// Whether a type is one of the four.
    pub typed: fn(u32) -> bool,
    /// The refusal of a building call with a district over its share.
    pub over_share: fn(&BuildCall) -> Option<Refusal>,
    /// Whether a building call is refused for a coordinate that is no place.
    pub nowhere: fn(&BuildCall) -> bool,
    /// Whether it is refused for an origin that is no place.
    pub adrift: fn(&BuildCall) -> bool,
    /// The answer to a building call.
    pub build: fn(&BuildCall) -> Built,
    /// The pairs of a pairing call.
    pub pairs: fn(&PairingCall) -> Vec<Pair>,
    /// What is told of two ends.
    pub told: fn(&WhyCall) -> i64,
    /// The chains that a window question finds with room for so many numbers, or its refusal.
    pub found: fn(&WindowCall, usize) -> Result<Vec<u32>, i64>,
    /// The answer to a delivery of chains with so many words of workspace.
    pub check: fn(&CheckCall, usize) -> i64,
    /// The pieces that a first call leaves, or its refusal.
    pub first: fn(&BuildCall) -> Result<Pieces, i64>,
    /// The answer to a finishing call with rooms of which one may be too short.
    pub finish: fn(&FinishCall, bool) -> Result<Built, i64>,
    /// What is done to the rooms behind a building call.
    pub after_build: fn(&mut BuildRooms, &BuildCall),
    /// What is done to the rooms behind a pairing call.
    pub after_pairs: fn(&mut PairRooms, &PairingCall),
    /// What is done to the rooms behind a question about two ends, refused or not.
    pub after_why: fn(&mut PairRooms, &WhyCall),
    /// What is done to the workspace behind a delivery of chains with this answer.
    pub after_check: fn(&mut Room<u64>, &CheckCall, i64),
    /// What is done to the rooms behind a finishing call that is accepted.
    pub after_finish: fn(&mut FinishRooms, &FinishCall),
    /// The number with which every call is refused.
    pub refusal: Option<i64>,
}

impl Default for Pretended {
    fn default() -> Self {
        Pretended {
            typed: |wkb_type| stride_of(wkb_type).is_some(),
            over_share: BuildCall::over_share,
            nowhere: BuildCall::nowhere,
            adrift: BuildCall::adrift,
            build: answers_of::right,
            pairs: answers_of::right_pairs,
            told: answers_of::right_reason,
            found: boxes_of::right_window,
            check: verdicts_of::right,
            first: pieces_of::right_first,
            finish: pieces_of::right,
            after_build: |_, _| (),
            after_pairs: |_, _| (),
            after_why: |_, _| (),
            after_check: |_, _, _| (),
            after_finish: |_, _| (),
            refusal: None,
        }
    }
}

impl Door for Pretended {
    fn build(&self, call: &BuildCall, rooms: &mut BuildRooms) -> i64 {
        if let Some(number) = self.refusal {
            return -number;
        }
        if !(self.typed)(call.wkb_type) {
            return -12;
        }
        if let Some(Refusal(number)) = (self.over_share)(call) {
            return -i64::from(number);
        }
        if (self.nowhere)(call) {
            return -15;
        }
        if (self.adrift)(call) {
            return -17;
        }
        let built = (self.build)(call);
        write(rooms.table.lent(), &built.table.concat());
        write(rooms.members.lent(), &built.members);
        write(rooms.marks.lent(), &built.marks);
        write(rooms.listing.lent(), &built.listing);
        write(rooms.merged.lent(), &floats(&built.merged));
        write(rooms.boxes.lent(), &floats(&built.boxes));
        rooms.spare.lent()[..call.coordinates.len()].fill(0.0);
        rooms.workspace.lent()[..192 * call.lines()].fill(0);
        (self.after_build)(rooms, call);
        built.table.len() as i64
    }

    fn pairs(&self, route: Route, call: &PairingCall, rooms: &mut PairRooms) -> i64 {
        if let Some(number) = self.refusal {
            return -number;
        }
        if !Route::for_call(call).contains(&route) {
            return -9;
        }
        let pairs = (self.pairs)(call);
        select(call, &pairs, rooms);
        (self.after_pairs)(rooms, call);
        pairs.len() as i64
    }

    fn why(&self, call: &WhyCall, rooms: &mut PairRooms) -> i64 {
        if let Some(number) = self.refusal {
            return -number;
        }
        let told = (self.told)(call);
        if told >= 0 {
            select(&call.pairing, &answers_of::right_pairs(&call.pairing), rooms);
        }
        (self.after_why)(rooms, call);
        told
    }

    fn window(&self, call: &WindowCall, found: &mut Room<u32>) -> i64 {
        if let Some(number) = self.refusal {
            return -number;
        }
        let room = found.lent().len();
        look((self.found)(call, room), found)
    }

    fn check(&self, call: &CheckCall, workspace: &mut Room<u64>) -> i64 {
        if let Some(number) = self.refusal {
            return -number;
        }
        let answer = (self.check)(call, workspace.lent().len());
        if answer == 0 {
            workspace.lent()[..192 * call.lines.lines()].fill(0);
        }
        (self.after_check)(workspace, call, answer);
        answer
    }

    fn first(&self, call: &BuildCall, rooms: &mut FirstRooms) -> i64 {
        match (self.refusal, (self.first)(call)) {
            (Some(number), _) | (None, Err(number)) => -number,
            (None, Ok(left)) => {
                write(rooms.pieces.lent(), &left.records);
                write(rooms.members.lent(), &left.members);
                write(rooms.marks.lent(), &left.marks);
                write(rooms.listing.lent(), &left.listing);
                write(rooms.merged.lent(), &floats(&left.merged));
                rooms.workspace.lent()[..192 * call.lines()].fill(0);
                left.k as i64
            }
        }
    }

    fn finish(&self, call: &FinishCall, rooms: &mut FinishRooms) -> i64 {
        let lengths = FinishRooms::lengths(&call.lines);
        let lent = [
            rooms.table.lent().len(),
            rooms.members.lent().len(),
            rooms.marks.lent().len(),
            rooms.listing.lent().len(),
            rooms.merged.lent().len(),
            rooms.boxes.lent().len(),
            rooms.workspace.lent().len(),
        ];
        let short = lent.iter().zip(lengths).any(|(&lent, needed)| lent < needed);
        match (self.refusal, (self.finish)(call, short)) {
            (Some(number), _) | (None, Err(number)) => -number,
            (None, Ok(built)) => {
                write(rooms.table.lent(), &built.table.concat());
                write(rooms.members.lent(), &built.members);
                write(rooms.marks.lent(), &built.marks);
                write(rooms.listing.lent(), &built.listing);
                write(rooms.merged.lent(), &floats(&built.merged));
                write(rooms.boxes.lent(), &floats(&built.boxes));
                let cleared = rooms.workspace.lent().iter_mut().take(192 * call.lines.lines());
                cleared.for_each(|word| *word = 0);
                (self.after_finish)(rooms, call);
                built.table.len() as i64
            }
        }
    }
}

/// The chains found, written, or the refusal.
fn look(found: Result<Vec<u32>, i64>, room: &mut Room<u32>) -> i64 {
    match found {
        Ok(chains) => {
            write(room.lent(), &chains);
            chains.len() as i64
        }
        Err(number) => -number,
    }
}

/// Writes the pairs and clears the workspace.
fn select(call: &PairingCall, pairs: &[Pair], rooms: &mut PairRooms) {
    write(rooms.pairs.lent(), &pairs.concat());
    rooms.workspace.lent()[..64 * call.ends()].fill(0);
}

/// A right port whose calls with an offset are put by another door.
pub struct WithOffsets<D>(pub Pretended, pub D);

impl<D: Door> Door for WithOffsets<D> {
    fn build(&self, call: &BuildCall, rooms: &mut BuildRooms) -> i64 {
        self.0.build(call, rooms)
    }

    fn pairs(&self, route: Route, call: &PairingCall, rooms: &mut PairRooms) -> i64 {
        self.0.pairs(route, call, rooms)
    }

    fn why(&self, call: &WhyCall, rooms: &mut PairRooms) -> i64 {
        self.0.why(call, rooms)
    }

    fn window(&self, call: &WindowCall, found: &mut Room<u32>) -> i64 {
        self.0.window(call, found)
    }

    fn check(&self, call: &CheckCall, workspace: &mut Room<u64>) -> i64 {
        self.0.check(call, workspace)
    }

    fn first(&self, call: &BuildCall, rooms: &mut FirstRooms) -> i64 {
        self.0.first(call, rooms)
    }

    fn finish(&self, call: &FinishCall, rooms: &mut FinishRooms) -> i64 {
        self.0.finish(call, rooms)
    }

    fn by_offset(&self) -> Option<&dyn Door> {
        Some(&self.1)
    }
}

/// Calls with an offset that take another limit than the offset's.
pub struct OtherLimit(pub fn(f64) -> f64);

impl OtherLimit {
    fn other(&self, limit: u64) -> u64 {
        (self.0)(f64::from_bits(limit)).to_bits()
    }
}

impl Door for OtherLimit {
    fn build(&self, call: &BuildCall, rooms: &mut BuildRooms) -> i64 {
        let call = BuildCall { limit: self.other(call.limit), ..call.clone() };
        Pretended::default().build(&call, rooms)
    }

    fn pairs(&self, route: Route, call: &PairingCall, rooms: &mut PairRooms) -> i64 {
        let call = PairingCall { limit: self.other(call.limit), ..call.clone() };
        Pretended::default().pairs(route, &call, rooms)
    }

    /// The question has no call with an offset.
    fn why(&self, call: &WhyCall, rooms: &mut PairRooms) -> i64 {
        Pretended::default().why(call, rooms)
    }

    /// A window has no limit.
    fn window(&self, call: &WindowCall, found: &mut Room<u32>) -> i64 {
        Pretended::default().window(call, found)
    }

    /// Chains made elsewhere are judged without a limit.
    fn check(&self, call: &CheckCall, workspace: &mut Room<u64>) -> i64 {
        Pretended::default().check(call, workspace)
    }

    /// Building in two calls has none with an offset.
    fn first(&self, call: &BuildCall, rooms: &mut FirstRooms) -> i64 {
        Pretended::default().first(call, rooms)
    }

    fn finish(&self, call: &FinishCall, rooms: &mut FinishRooms) -> i64 {
        Pretended::default().finish(call, rooms)
    }
}

fn floats(bits: &[u64]) -> Vec<f64> {
    bits.iter().map(|&bits| f64::from_bits(bits)).collect()
}

/// Writes a list over the beginning of a room, as far as the room goes.
fn write<T: Copy>(room: &mut [T], list: &[T]) {
    room.iter_mut().zip(list).for_each(|(number, &written)| *number = written);
}
