//! What the unedited original does otherwise: the numbers of `docs/DIFFERENCES.md`.
//!
//! An angle of the original stands beside the limit that says the same in exact arithmetic: minus
//! its cosine. Seeds are fixed, so the report is the same whenever the same libm computes acos.

mod angles;
mod junctions;
mod limits;
mod smallest;

use crate::Oracle;
use answers::{Pair, PairingCall, Route};

/// A direction of an end.
type Direction = (f64, f64);

/// An angle in degrees and the limit nearest to minus its cosine.
type Setting = (f64, f64);

/// The settings that are compared.
fn settings() -> [Setting; 8] {
    let (half, three_quarters) = (0.5f64.sqrt(), 0.75f64.sqrt());
    [
        (30.0, -three_quarters),
        (45.0, -half),
        (60.0, -0.5),
        (90.0, 0.0),
        (120.0, 0.5),
        (135.0, half),
        (150.0, three_quarters),
        (180.0, 1.0),
    ]
}

/// Prints the whole report.
pub fn report(oracle: Oracle) -> Result<(), String> {
    smallest::report(oracle);
    limits::report(oracle);
    angles::report(oracle);
    junctions::report(oracle);
    Ok(())
}

/// A junction of ends with the given directions, each of a piece of its own.
fn junction(directions: &[Direction]) -> PairingCall {
    let mut call = PairingCall::default();
    for (piece, (x, y)) in directions.iter().enumerate() {
        call.push(true, [x.to_bits(), y.to_bits()], piece as u32);
    }
    call
}

/// The pairs at a junction: the edited original's and the unedited one's.
fn both(oracle: Oracle, call: &PairingCall, (angle, limit): Setting) -> [Vec<Pair>; 2] {
    let call = PairingCall { limit: limit.to_bits(), ..call.clone() };
    let edited = oracle.selected(Route::Plain, &call);
    [edited, oracle.unedited_pairs(Route::Plain, &call, angle)]
}

/// True where some pair qualifies by its measure but not by its degrees, or the other way round.
fn limit_differs(oracle: Oracle, directions: &[Direction], (angle, limit): Setting) -> bool {
    let later = |i: usize| directions[i + 1..].iter().map(move |&b| (directions[i], b));
    let mut pairs = (0..directions.len()).flat_map(later);
    pairs.any(|(a, b)| (oracle.measure(a, b) <= limit) != (oracle.degrees(a, b) <= angle))
}
