//! One exact round, many zooms: five tolerances by one first call and five that finish, beside five whole calls;
//! and what 19's look at the pieces takes of a call that finishes.

use crate::building::{build_under, Rooms};
use crate::clock::{best, hidden, timed, Patience};
use crate::times::{measured, Times};
use answers::BuildCall;
use compare::lent;
use lovasuku_chains::door::{self, FinishRooms, FirstRooms, RawSettings};
use lovasuku_chains::size::{LINE_WORKSPACE, PIECE};
use lovasuku_chains::Pieces;

/// The tolerances of five zoom levels, as parts of a network's coarse one.
pub const PARTS: [f64; 5] = [0.0, 0.125, 0.25, 0.5, 1.0];

/// Lines, and the buffers that round one leaves its pieces in.
pub struct Zooms<'a> {
    call: &'a BuildCall,
    coordinates: Vec<f64>,
    settings: Vec<RawSettings>,
    records: Vec<u32>,
    members: Vec<u32>,
    marks: Vec<u8>,
    listing: Vec<u32>,
    merged: Vec<f64>,
    pieces: u64,
}

impl<'a> Zooms<'a> {
    /// The zooms of a call whose tolerance is the coarsest of five.
    pub fn of(call: &'a BuildCall) -> Self {
        let coarse = f64::from_bits(call.tolerance);
        let zoom = |part: f64| RawSettings { tolerance: part * coarse, ..lent::raw_settings(call) };
        let (n, numbers) = (call.lines(), call.coordinates.len());
        Zooms {
            call,
            coordinates: lent::coordinates(call),
            settings: PARTS.into_iter().map(zoom).collect(),
            records: vec![u32::MAX; PIECE * n],
            members: vec![u32::MAX; n],
            marks: vec![u8::MAX; n],
            listing: vec![u32::MAX; n],
            merged: vec![f64::NAN; numbers],
            pieces: 0,
        }
    }

    /// Round one.
    fn first(&mut self, workspace: &mut [u64]) -> i64 {
        let lines = hidden(lent::lines(self.call, &self.coordinates));
        let rooms = FirstRooms {
            pieces: &mut self.records,
            members: &mut self.members,
            marks: &mut self.marks,
            listing: &mut self.listing,
            merged: &mut self.merged,
            workspace,
        };
        let (switch, limit) = (self.call.switch, f64::from_bits(self.call.limit));
        let answer = door::first(self.call.wkb_type, lines, switch, limit, rooms);
        self.pieces = answer.max(0) as u64;
        answer
    }

    /// The rest under some settings, in rooms of building; with a table that is one number too short where it is
    /// to be refused by 7.
    fn finish(&self, settings: RawSettings, rooms: &mut Rooms, refused: bool) -> i64 {
        let lines = hidden(lent::lines(self.call, &self.coordinates));
        let pieces = Pieces {
            records: &self.records,
            members: &self.members,
            marks: &self.marks,
            listing: &self.listing,
            merged: &self.merged,
        };
        let door::BuildRooms { table, members, marks, listing, merged, boxes, workspace, .. } =
            rooms.lent();
        let length = table.len() - usize::from(refused);
        let table = &mut table[..length];
        let rooms = FinishRooms { table, members, marks, listing, merged, boxes, workspace };
        door::finish(self.call.wkb_type, lines, hidden(pieces), self.pieces, settings, rooms)
    }

    /// The times of one first call with five that finish, and of five whole calls, after each zoom has been seen to
    /// have the same answer, table, members and merged coordinates. The error is a sentence.
    pub fn compare(&mut self, patience: Patience) -> Result<Times, String> {
        let (mut one, mut two) = (Rooms::dirty(self.call), Rooms::dirty(self.call));
        let mut workspace = vec![u64::MAX; LINE_WORKSPACE * self.call.lines()];
        if self.first(&mut workspace) < 0 {
            return Err("the first call is refused".to_string());
        }
        for settings in self.settings.clone() {
            let whole = build_under(self.call, &self.coordinates, settings, &mut one);
            if self.finish(settings, &mut two, false) != whole || !one.same_chains(&two, whole) {
                return Err(format!(
                    "tolerance {} has other chains in two calls",
                    settings.tolerance
                ));
            }
        }
        let (settings, coordinates) = (self.settings.clone(), self.coordinates.clone());
        let call = self.call;
        let mut parted = || {
            timed(|| {
                self.first(&mut workspace);
                settings.iter().map(|&zoom| self.finish(zoom, &mut two, false)).sum::<i64>()
            })
        };
        let mut whole = || {
            timed(|| {
                let each = settings.iter();
                each.map(|&zoom| build_under(call, &coordinates, zoom, &mut one)).sum::<i64>()
            })
        };
        Ok(measured(&mut [&mut parted, &mut whole], patience))
    }

    /// The nanoseconds of 19's look at the pieces, and of the call that finishes them at the coarsest zoom. The look is
    /// what a call takes that 7, right behind 19, refuses, less what one takes that 17, right before it, does.
    pub fn judging(&mut self, patience: Patience) -> Result<[f64; 2], String> {
        let mut rooms = Rooms::dirty(self.call);
        let mut workspace = vec![u64::MAX; LINE_WORKSPACE * self.call.lines()];
        self.first(&mut workspace);
        let zoom = *self.settings.last().ok_or("there is no zoom")?;
        let adrift = RawSettings { origin: [f64::NAN; 2], ..zoom };
        let answers = [
            self.finish(adrift, &mut rooms, false),
            self.finish(zoom, &mut rooms, true),
            self.finish(zoom, &mut rooms, false).min(0),
        ];
        if answers != [-17, -7, 0] {
            return Err(format!("17, 7 and chains are answered with {answers:?}"));
        }
        let (mut first, mut second) = (Rooms::dirty(self.call), Rooms::dirty(self.call));
        let mut before = || timed(|| self.finish(adrift, &mut first, false));
        let mut behind = || timed(|| self.finish(zoom, &mut second, true));
        let mut whole = || timed(|| self.finish(zoom, &mut rooms, false));
        let times = best(&mut [&mut before, &mut behind, &mut whole], patience);
        Ok([(times[1] - times[0]).max(0.0), times[2]])
    }
}
