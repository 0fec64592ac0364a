//! Pairing: a route of the port through the door and the Rust's on the same ends.

use crate::clock::{hidden, timed, Patience};
use crate::times::{measured, Times};
use answers::{Pair, PairingCall, Route};
use lovasuku_chains::size::END_WORKSPACE;
use lovasuku_chains::{door, Ends};
use oracle::Oracle;

/// The times of a call by a route, taken after both sides have been seen to answer alike. The
/// error is a sentence about the first difference.
pub fn compare(
    oracle: Oracle,
    route: Route,
    call: &PairingCall,
    patience: Patience,
) -> Result<Times, String> {
    let directions: Vec<f64> = call.directions.iter().map(|&bits| f64::from_bits(bits)).collect();
    let mut rooms = Rooms::dirty(call);
    let count = pairs(route, call, &directions, &mut rooms);
    rooms.check(count, &oracle.selected(route, call))?;

    let ready = oracle.ready_pairs(route, call);
    let mut port = || timed(|| pairs(route, call, &directions, &mut rooms));
    let mut rust = || timed(|| hidden(&ready).run());
    Ok(measured(&mut [&mut port, &mut rust], patience))
}

/// The port's call, with the rooms as the call before left them.
fn pairs(route: Route, call: &PairingCall, directions: &[f64], rooms: &mut Rooms) -> i64 {
    let ends = Ends { present: &call.present, directions, pieces: &call.pieces };
    let route = match route {
        Route::Plain => lovasuku_chains::Route::Plain,
        Route::Indexed => lovasuku_chains::Route::Indexed,
        Route::Chosen => lovasuku_chains::Route::Chosen,
    };
    let rooms = door::PairRooms { pairs: &mut rooms.pairs, workspace: &mut rooms.workspace };
    door::pairs(route, hidden(ends), f64::from_bits(call.limit), rooms)
}

/// The rooms of a call, each as long as the rules ask for.
struct Rooms {
    pairs: Vec<u32>,
    workspace: Vec<u64>,
}

impl Rooms {
    /// Rooms in which no number is 0, so that it shows what a call clears.
    fn dirty(call: &PairingCall) -> Self {
        let d = call.ends();
        Rooms { pairs: vec![u32::MAX; d], workspace: vec![u64::MAX; END_WORKSPACE * d] }
    }

    /// Tests that the rooms have the Rust's pairs, and that the workspace is cleared.
    fn check(&self, count: i64, rust: &[Pair]) -> Result<(), String> {
        let wanted: Vec<u32> = rust.iter().flatten().copied().collect();
        if count != rust.len() as i64 || !self.pairs.starts_with(&wanted) {
            return Err("the pairs differ from the Rust's".to_string());
        }
        match self.workspace.iter().all(|&word| word == 0) {
            true => Ok(()),
            false => Err("the workspace is not cleared".to_string()),
        }
    }
}
