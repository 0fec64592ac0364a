//! The verified library, as something that calls are put to.

use crate::building::BuildRooms;
use crate::lent;
use crate::pairing::PairRooms;
use crate::room::Room;
use crate::zooms::{FinishRooms, FirstRooms};
use answers::{offset, BuildCall, CheckCall, FinishCall};
use answers::{PairingCall, Route, WhyCall, WindowCall};
use lovasuku_chains::door::{self, RawOffset};
use lovasuku_chains::{Delivered, Ends, Pieces, Window};

/// Whatever takes calls in the form of the door: rooms are lent, the answer is a number.
pub trait Door: Sync {
    /// Builds the chains of a call.
    fn build(&self, call: &BuildCall, rooms: &mut BuildRooms) -> i64;

    /// Selects the pairs of a call by a route.
    fn pairs(&self, route: Route, call: &PairingCall, rooms: &mut PairRooms) -> i64;

    /// Says why two ends are joined or not.
    fn why(&self, call: &WhyCall, rooms: &mut PairRooms) -> i64;

    /// Lists the chains that lie in a window.
    fn window(&self, call: &WindowCall, found: &mut Room<u32>) -> i64;

    /// Judges chains made elsewhere.
    fn check(&self, call: &CheckCall, workspace: &mut Room<u64>) -> i64;

    /// Round one of a building call.
    fn first(&self, call: &BuildCall, rooms: &mut FirstRooms) -> i64;

    /// Finishes pieces.
    fn finish(&self, call: &FinishCall, rooms: &mut FinishRooms) -> i64;

    /// The same with an offset in the limit's place, where there are such calls.
    fn by_offset(&self) -> Option<&dyn Door> {
        None
    }
}

/// The verified library.
pub struct Library;

impl Door for Library {
    fn build(&self, call: &BuildCall, rooms: &mut BuildRooms) -> i64 {
        let coordinates = lent::floats(&call.coordinates);
        door::build(
            call.wkb_type,
            lent::lines(call, &coordinates),
            lent::raw_settings(call),
            lend(rooms),
        )
    }

    fn pairs(&self, route: Route, call: &PairingCall, rooms: &mut PairRooms) -> i64 {
        let (limit, rooms) = (f64::from_bits(call.limit), lent_pairs(rooms));
        door::pairs(by(route), ends(call, &lent::floats(&call.directions)), limit, rooms)
    }

    fn why(&self, call: &WhyCall, rooms: &mut PairRooms) -> i64 {
        let WhyCall { pairing: call, ends: of } = call;
        let (limit, rooms) = (f64::from_bits(call.limit), lent_pairs(rooms));
        door::why(ends(call, &lent::floats(&call.directions)), limit, *of, rooms)
    }

    fn window(&self, call: &WindowCall, found: &mut Room<u32>) -> i64 {
        let [least_x, least_y, greatest_x, greatest_y] = call.bounds();
        let window = Window { least: [least_x, least_y], greatest: [greatest_x, greatest_y] };
        door::window(&lent::floats(&call.boxes), call.k, window, found.lent())
    }

    fn check(&self, call: &CheckCall, workspace: &mut Room<u64>) -> i64 {
        let (coordinates, merged) =
            (lent::floats(&call.lines.coordinates), lent::floats(&call.merged));
        let CheckCall { lines: of, table, k, listing, .. } = call;
        let meeting = (f64::from_bits(of.tolerance), of.origin.map(f64::from_bits));
        let chains = Delivered { table, listing, merged: &merged };
        let lines = lent::lines(of, &coordinates);
        door::check(of.wkb_type, lines, meeting, chains, *k, workspace.lent())
    }

    fn first(&self, call: &BuildCall, rooms: &mut FirstRooms) -> i64 {
        let (coordinates, limit) = (lent::floats(&call.coordinates), f64::from_bits(call.limit));
        let lent = door::FirstRooms {
            pieces: rooms.pieces.lent(),
            members: rooms.members.lent(),
            marks: rooms.marks.lent(),
            listing: rooms.listing.lent(),
            merged: rooms.merged.lent(),
            workspace: rooms.workspace.lent(),
        };
        door::first(call.wkb_type, lent::lines(call, &coordinates), call.switch, limit, lent)
    }

    fn finish(&self, call: &FinishCall, rooms: &mut FinishRooms) -> i64 {
        let (coordinates, merged) =
            (lent::floats(&call.lines.coordinates), lent::floats(&call.pieces.merged));
        let answers::Pieces { records, members, marks, listing, k, .. } = &call.pieces;
        let pieces = Pieces { records, members, marks, listing, merged: &merged };
        let lent = door::FinishRooms {
            table: rooms.table.lent(),
            members: rooms.members.lent(),
            marks: rooms.marks.lent(),
            listing: rooms.listing.lent(),
            merged: rooms.merged.lent(),
            boxes: rooms.boxes.lent(),
            workspace: rooms.workspace.lent(),
        };
        let lines = lent::lines(&call.lines, &coordinates);
        door::finish(call.lines.wkb_type, lines, pieces, *k, lent::raw_settings(&call.lines), lent)
    }

    fn by_offset(&self) -> Option<&dyn Door> {
        Some(&ByOffset)
    }
}

/// The library's calls with an offset in the limit's place: the one that the call's limit is of, or
/// one above 1,000 where it is of none.
pub struct ByOffset;

impl Door for ByOffset {
    fn build(&self, call: &BuildCall, rooms: &mut BuildRooms) -> i64 {
        let settings = RawOffset {
            tolerance: f64::from_bits(call.tolerance),
            origin: call.origin.map(f64::from_bits),
            switch: call.switch,
            offset: offset_of(call.limit),
        };
        let coordinates = lent::floats(&call.coordinates);
        door::build_offset(call.wkb_type, lent::lines(call, &coordinates), settings, lend(rooms))
    }

    fn pairs(&self, route: Route, call: &PairingCall, rooms: &mut PairRooms) -> i64 {
        let (offset, rooms) = (offset_of(call.limit), lent_pairs(rooms));
        door::pairs_offset(by(route), ends(call, &lent::floats(&call.directions)), offset, rooms)
    }

    /// The question has no call with an offset: it is asked with the limit.
    fn why(&self, call: &WhyCall, rooms: &mut PairRooms) -> i64 {
        Library.why(call, rooms)
    }

    /// A window has no limit.
    fn window(&self, call: &WindowCall, found: &mut Room<u32>) -> i64 {
        Library.window(call, found)
    }

    /// Chains made elsewhere are judged without a limit.
    fn check(&self, call: &CheckCall, workspace: &mut Room<u64>) -> i64 {
        Library.check(call, workspace)
    }

    /// Building in two calls has none with an offset.
    fn first(&self, call: &BuildCall, rooms: &mut FirstRooms) -> i64 {
        Library.first(call, rooms)
    }

    fn finish(&self, call: &FinishCall, rooms: &mut FinishRooms) -> i64 {
        Library.finish(call, rooms)
    }
}

/// The offset of a limit; where it is the limit of none, one above 1,000 that its bits determine.
pub fn offset_of(limit: u64) -> u32 {
    let above = || ((limit >> 32) as u32 ^ limit as u32).max(offset::MOST + 1);
    offset::of_limit(limit).unwrap_or_else(above)
}

fn lend(rooms: &mut BuildRooms) -> door::BuildRooms<'_> {
    door::BuildRooms {
        table: rooms.table.lent(),
        members: rooms.members.lent(),
        marks: rooms.marks.lent(),
        listing: rooms.listing.lent(),
        merged: rooms.merged.lent(),
        boxes: rooms.boxes.lent(),
        spare: rooms.spare.lent(),
        workspace: rooms.workspace.lent(),
    }
}

fn ends<'a>(call: &'a PairingCall, directions: &'a [f64]) -> Ends<'a> {
    Ends { present: &call.present, directions, pieces: &call.pieces }
}

fn lent_pairs(rooms: &mut PairRooms) -> door::PairRooms<'_> {
    door::PairRooms { pairs: rooms.pairs.lent(), workspace: rooms.workspace.lent() }
}

fn by(route: Route) -> lovasuku_chains::Route {
    match route {
        Route::Plain => lovasuku_chains::Route::Plain,
        Route::Indexed => lovasuku_chains::Route::Indexed,
        Route::Chosen => lovasuku_chains::Route::Chosen,
    }
}
