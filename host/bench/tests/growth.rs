//! The indexed route asks its index. No contract can tell the plain route under the indexed one's
//! name, since the two answer alike; their growth can. From 2,048 ends to 8,192 a route that looks
//! at every pair takes 16 times the instructions, and the indexed one must stay below 5 times.
//! What is counted are the instructions of the library's call, which are the same in every run.

use bench::ends::DIRECTIONS;
use lovasuku_chains::{Ends, Rooms, Route};
use std::process::Command;

/// The most that the instructions may grow by where the ends are four times as many.
const MOST_GROWTH: u64 = 5;

/// Where the counted run finds how many ends it is to pair.
const ENDS: &str = "LOVASUKU_GROWTH_ENDS";

/// The instructions of the indexed route on random directions: this file's other test, counted.
fn instructions(ends: usize) -> u64 {
    let ran = Command::new("valgrind")
        .args(["--tool=callgrind", "--callgrind-out-file=/dev/null"])
        .arg("--toggle-collect=lovasuku_pairs_indexed")
        .arg(std::env::current_exe().expect("a test knows its own file"))
        .args(["--exact", "a_call_to_be_counted"])
        .env(ENDS, ends.to_string())
        .output()
        .expect("valgrind counts instructions; host/packages names it where it is missing");
    let said = String::from_utf8_lossy(&ran.stderr);
    let counted = said.lines().find_map(|line| line.split("Collected :").nth(1));
    counted.and_then(|count| count.trim().parse().ok()).unwrap_or_else(|| panic!("{said}"))
}

#[test]
fn a_call_to_be_counted() {
    let ends = std::env::var(ENDS).map_or(32, |ends| ends.parse().expect("a number of ends"));
    let call = DIRECTIONS[0].call(ends);
    let directions: Vec<f64> = call.directions.iter().map(|&bits| f64::from_bits(bits)).collect();
    let lent = Ends { present: &call.present, directions: &directions, pieces: &call.pieces };
    let mut rooms = Rooms::default();
    let pairs = rooms.pairs(Route::Indexed, lent, f64::from_bits(call.limit));
    assert!(matches!(pairs, Ok([_, ..])), "some of {ends} ends are paired");
}

#[test]
fn the_indexed_route_grows_as_an_index_does() {
    let (few, many) = (instructions(2_048), instructions(8_192));
    assert!(few > 0, "the call is counted");
    assert!(many < few * MOST_GROWTH, "{few} instructions grow to {many}");
}
