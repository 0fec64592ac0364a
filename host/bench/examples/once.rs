//! One building call of the library, for a counter of instructions:
//!
//! ```text
//! cargo build --release --offline --example once
//! valgrind --tool=callgrind --callgrind-out-file=/dev/null --toggle-collect=lovasuku_build \
//!     target/release/examples/once grid 4096 strict
//! ```
//!
//! A fourth word gives the lines another type than 2, by its number: 1002 for Z, 3002 for ZM.

use answers::random::Random;
use answers::styles::heights::with_extras;
use bench::workloads::{MODES, WORKLOADS};
use compare::lent;
use lovasuku_chains::Rooms;
use std::process::ExitCode;

const USAGE: &str = "once WORKLOAD LINES MODE [TYPE]";

fn main() -> ExitCode {
    match once(std::env::args().skip(1)) {
        Some(chains) => println!("{chains} chains"),
        None => {
            eprintln!("{USAGE}");
            return ExitCode::from(2);
        }
    }
    ExitCode::SUCCESS
}

/// The number of chains of the call that the words stand for, if they stand for any.
fn once(mut words: impl Iterator<Item = String>) -> Option<usize> {
    let (name, lines, mode) = (words.next()?, words.next()?.parse().ok()?, words.next()?);
    let workload = WORKLOADS.iter().find(|workload| workload.name == name)?;
    let mode = MODES.iter().find(|one| one.name == mode)?;
    let mut call = workload.network(lines).call(mode);
    if let Some(wkb_type) = words.next() {
        call = with_extras(&mut Random::new(7), &call, wkb_type.parse().ok()?);
    }
    let coordinates = lent::coordinates(&call);
    let (lines, settings) = (lent::lines(&call, &coordinates), lent::settings(&call));
    Rooms::default().build(lines, settings).ok().map(|chains| chains.len())
}
