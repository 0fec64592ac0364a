//! One pairing call of the library, for a counter of instructions:
//!
//! ```text
//! cargo build --release --offline --example once_pairs
//! valgrind --tool=callgrind --callgrind-out-file=/dev/null --toggle-collect='lovasuku_pairs_*' \
//!     target/release/examples/once_pairs random 8192 indexed
//! ```

use bench::ends::DIRECTIONS;
use lovasuku_chains::{Ends, Rooms, Route};
use std::process::ExitCode;

const USAGE: &str = "once_pairs DIRECTIONS ENDS ROUTE";

fn main() -> ExitCode {
    match once(std::env::args().skip(1)) {
        Some(pairs) => println!("{pairs} pairs"),
        None => {
            eprintln!("{USAGE}");
            return ExitCode::from(2);
        }
    }
    ExitCode::SUCCESS
}

/// The number of pairs of the call that the words stand for, if they stand for any.
fn once(mut words: impl Iterator<Item = String>) -> Option<usize> {
    let (name, ends, route) = (words.next()?, words.next()?.parse().ok()?, words.next()?);
    let route = match route.as_str() {
        "plain" => Route::Plain,
        "indexed" => Route::Indexed,
        "chosen" => Route::Chosen,
        _ => return None,
    };
    let call = DIRECTIONS.iter().find(|directions| directions.name == name)?.call(ends);
    let directions: Vec<f64> = call.directions.iter().map(|&bits| f64::from_bits(bits)).collect();
    let lent = Ends { present: &call.present, directions: &directions, pieces: &call.pieces };
    Rooms::default().pairs(route, lent, f64::from_bits(call.limit)).ok().map(|pairs| pairs.len())
}
