//! Checking chains made elsewhere: what the library takes to check what it has built, beside building it, and
//! on chains whose lines may be travelled in very many ways.

use crate::building::{build, Rooms};
use crate::clock::{best, hidden, timed, Patience};
use crate::times::{measured, Times};
use answers::BuildCall;
use compare::lent;
use lovasuku_chains::size::{LINE_WORKSPACE, RECORD};
use lovasuku_chains::{door, Delivered, DeliveredBuf, LinesBuf};

/// The times of checking what is built, and of building it, after it has been seen to be accepted. The error
/// is a sentence.
pub fn compare(call: &BuildCall, patience: Patience) -> Result<Times, String> {
    let coordinates = lent::coordinates(call);
    let mut rooms = Rooms::dirty(call);
    let k = build(call, &coordinates, &mut rooms);
    let (table, listing, merged) = rooms.delivered(k);
    let chains = Delivered { table: &table, listing: &listing, merged: &merged };
    let lines = lent::lines(call, &coordinates);
    let meeting = (f64::from_bits(call.tolerance), call.origin.map(f64::from_bits));
    let mut workspace = vec![u64::MAX; LINE_WORKSPACE * call.lines()];
    let mut check = || {
        let (lines, chains) = (hidden(lines), hidden(chains));
        door::check(call.wkb_type, lines, meeting, chains, k as u64, &mut workspace)
    };
    if check() != 0 {
        return Err("what was built is not accepted".to_string());
    }
    let mut checking = || timed(&mut check);
    let mut building = || timed(|| build(call, &coordinates, &mut rooms));
    Ok(measured(&mut [&mut checking, &mut building], patience))
}

/// A chain of lines between two places of one cell: each may be travelled either way, and where it is laid
/// depends on the ways of all before it.
pub struct Tangle {
    lines: LinesBuf,
    chains: DeliveredBuf,
}

/// The lines of tangles, and the points of each line: as many lines as a district may have, in as many points
/// as it may have, and in the fewest.
pub const TANGLES: [(usize, usize); 2] = [(2_048, 2), (2_048, 16)];

impl Tangle {
    /// So many lines of so many points, back and forth; the chain's coordinates are those of the lines as they
    /// were drawn.
    pub fn of(lines: usize, points: usize) -> Self {
        let place = |k: usize| [if k % 2 == 0 { 0.25 } else { 0.5 }, 0.0];
        let mut tangle = Tangle { lines: LinesBuf::default(), chains: DeliveredBuf::default() };
        for _ in 0..lines {
            tangle.lines.push((0..points).map(place), 0);
        }
        // Of a line that ends where it does not begin, none is dropped where the next is drawn.
        let all = (0..lines).flat_map(|_| (0..points).map(place));
        tangle.chains.push(0..lines as u32, all);
        tangle
    }

    /// The nanoseconds of checking it, after it has been seen to be accepted.
    pub fn time(&self, patience: Patience) -> Result<f64, String> {
        let (lines, chains) = (self.lines.lines(), self.chains.delivered());
        let mut workspace = vec![u64::MAX; LINE_WORKSPACE * lines.len()];
        let mut check = || {
            let k = (chains.table.len() / RECORD) as u64;
            let (lines, chains) = (hidden(lines), hidden(chains));
            door::check(
                lines.dimension.wkb_type(),
                lines,
                (1.0, [0.0; 2]),
                chains,
                k,
                &mut workspace,
            )
        };
        if check() != 0 {
            return Err("the tangle is not accepted".to_string());
        }
        let mut checking = || timed(&mut check);
        Ok(best(&mut [&mut checking], patience)[0])
    }
}
