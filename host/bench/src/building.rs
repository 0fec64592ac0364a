//! Building: the port through the door and the Rust's `build_chains` on the same lines, with what
//! stands beside them.

use crate::clock::{best, hidden, timed, Patience};
use crate::geos::Geos;
use crate::times::{measured, Times};
use answers::{model, BuildCall, Built};
use compare::lent;
use lovasuku_chains::door::{self, RawSettings};
use lovasuku_chains::size::{BOXES, BOXES_BESIDE, LINE_WORKSPACE, RECORD};
use oracle::{chains::without_marks, settings, Oracle};

/// The times of a call, taken after both sides have been seen to answer alike. The error is a
/// sentence about the first difference.
pub fn compare(oracle: Oracle, call: &BuildCall, patience: Patience) -> Result<Times, String> {
    let coordinates = lent::coordinates(call);
    let mut rooms = Rooms::dirty(call);
    let chains = build(call, &coordinates, &mut rooms);
    rooms.check(chains, &without_marks(call, &oracle.chains(call)))?;

    let geometries = oracle.geometries(call);
    let ready = oracle.ready_build(&geometries, call);
    let mut port = || timed(|| build(call, &coordinates, &mut rooms));
    let mut rust = || timed(|| hidden(&ready).run());
    let times = || measured(&mut [&mut port, &mut rust], patience);
    Ok(settings::under(call, times))
}

/// The nanoseconds of the port on a call and on the same with extras of each type, run in turn, after
/// each has been seen to answer as the model does.
pub fn with_extras(calls: &[BuildCall], patience: Patience) -> Result<Vec<f64>, String> {
    let mut works = Vec::new();
    for call in calls {
        let coordinates = lent::coordinates(call);
        let mut rooms = Rooms::dirty(call);
        let chains = build(call, &coordinates, &mut rooms);
        rooms.check(chains, &model::built(call))?;
        works.push((call, coordinates, rooms));
    }
    let port = |(call, coordinates, rooms): &'_ mut (&BuildCall, Vec<f64>, Rooms)| {
        timed(|| build(call, coordinates, rooms))
    };
    let mut clocks: Vec<_> = works.iter_mut().map(|work| move || port(work)).collect();
    let mut turns: Vec<&mut dyn FnMut() -> f64> = Vec::new();
    turns.extend(clocks.iter_mut().map(|clock| clock as &mut dyn FnMut() -> f64));
    Ok(best(&mut turns, patience))
}

/// The nanoseconds of GEOS's LineMerger on the lines of a call, which has to give as many lines as
/// the Rust gives chains. It joins by exact ends alone and pairs no junctions.
pub fn merging(
    oracle: Oracle,
    geos: &Geos,
    call: &BuildCall,
    patience: Patience,
) -> Result<f64, String> {
    let merging = geos.merging(call)?;
    merging.check(oracle.chains(call).len())?;
    let mut merge = || timed(|| merging.run());
    Ok(best(&mut [&mut merge], patience)[0])
}

/// The nanoseconds of clearing the spare and the workspace of a call, below which no port that
/// keeps the rules can come.
pub fn zeroing(call: &BuildCall, patience: Patience) -> f64 {
    let mut rooms = Rooms::dirty(call);
    let mut clear = || {
        timed(|| {
            hidden(&mut rooms.spare).fill(0.0);
            hidden(&mut rooms.workspace).fill(0);
        })
    };
    best(&mut [&mut clear], patience)[0]
}

/// The port's call, with the rooms as the call before left them.
pub(crate) fn build(call: &BuildCall, coordinates: &[f64], rooms: &mut Rooms) -> i64 {
    build_under(call, coordinates, lent::raw_settings(call), rooms)
}

/// The same under other settings than the call's own.
pub(crate) fn build_under(
    call: &BuildCall,
    coordinates: &[f64],
    settings: RawSettings,
    rooms: &mut Rooms,
) -> i64 {
    door::build(call.wkb_type, hidden(lent::lines(call, coordinates)), settings, rooms.lent())
}

/// The rooms of a call, each as long as the rules ask for.
pub(crate) struct Rooms {
    table: Vec<u32>,
    members: Vec<u32>,
    marks: Vec<u8>,
    listing: Vec<u32>,
    merged: Vec<f64>,
    boxes: Vec<f64>,
    spare: Vec<f64>,
    workspace: Vec<u64>,
}

impl Rooms {
    /// Rooms in which no number is 0, so that it shows what a call clears.
    pub(crate) fn dirty(call: &BuildCall) -> Self {
        let (n, numbers) = (call.lines(), call.coordinates.len());
        Rooms {
            table: vec![u32::MAX; RECORD * n],
            members: vec![u32::MAX; n],
            marks: vec![u8::MAX; n],
            listing: vec![u32::MAX; n],
            merged: vec![f64::NAN; numbers],
            boxes: vec![f64::NAN; BOXES * n + BOXES_BESIDE],
            spare: vec![f64::NAN; numbers],
            workspace: vec![u64::MAX; LINE_WORKSPACE * n],
        }
    }

    /// The table of so many chains, the listing and the merged coordinates, as a delivery of chains has
    /// them.
    pub(crate) fn delivered(&self, chains: i64) -> (Vec<u32>, Vec<u32>, Vec<f64>) {
        let table = self.table.iter().take(RECORD * chains.max(0) as usize).copied().collect();
        (table, self.listing.clone(), self.merged.clone())
    }

    /// True where both have the same chains, so many: records, members, marks, listing and merged coordinates bit
    /// for bit.
    pub(crate) fn same_chains(&self, other: &Rooms, chains: i64) -> bool {
        let records = RECORD * chains.max(0) as usize;
        let merged = |rooms: &Rooms| -> Vec<u64> {
            let end = |record: &[u32]| if record[2] == 1 { record[3] + record[4] } else { 0 };
            let points = rooms.table[..records].chunks(RECORD).map(end).max().unwrap_or(0);
            let bits = rooms.merged.iter().map(|number| number.to_bits());
            bits.take(2 * points as usize).collect()
        };
        self.table[..records] == other.table[..records]
            && self.members == other.members
            && self.marks == other.marks
            && self.listing == other.listing
            && merged(self) == merged(other)
    }

    pub(crate) fn lent(&mut self) -> door::BuildRooms<'_> {
        let Rooms { table, members, marks, listing, merged, boxes, spare, workspace } = self;
        door::BuildRooms { table, members, marks, listing, merged, boxes, spare, workspace }
    }

    /// Tests that the rooms have the Rust's chains and are cleared where the rules say so. Marks,
    /// listing and boxes, which the Rust does not know, are not looked at.
    fn check(&self, chains: i64, rust: &Built) -> Result<(), String> {
        let merged = self.merged[..rust.merged.len()].iter().map(|number| number.to_bits());
        let table: Vec<u32> = rust.table.iter().flatten().copied().collect();
        let tests = [
            (chains == rust.table.len() as i64, "the number of chains differs from the Rust's"),
            (self.table.starts_with(&table), "the table differs from the Rust's"),
            (self.members == rust.members, "the members differ from the Rust's"),
            (merged.eq(rust.merged.iter().copied()), "the merged coordinates differ"),
            (self.spare.iter().all(|number| number.to_bits() == 0), "the spare is not cleared"),
            (self.workspace.iter().all(|&word| word == 0), "the workspace is not cleared"),
        ];
        match tests.iter().find(|(holds, _)| !holds) {
            Some((_, sentence)) => Err(sentence.to_string()),
            None => Ok(()),
        }
    }
}
