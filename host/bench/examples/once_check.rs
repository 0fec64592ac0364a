//! One check of what one building call has made, for a counter of instructions:
//!
//! ```text
//! cargo build --release --offline --example once_check
//! valgrind --tool=callgrind --callgrind-out-file=/dev/null --toggle-collect=lovasuku_check \
//!     target/release/examples/once_check road 2048 strict
//! ```

use bench::workloads::{MODES, WORKLOADS};
use compare::lent;
use lovasuku_chains::Rooms;
use std::process::ExitCode;

const USAGE: &str = "once_check WORKLOAD LINES MODE";

fn main() -> ExitCode {
    match once(std::env::args().skip(1)) {
        Some(chains) => println!("{chains} chains are accepted"),
        None => {
            eprintln!("{USAGE}");
            return ExitCode::from(2);
        }
    }
    ExitCode::SUCCESS
}

/// The number of chains of the call that the words stand for, if they stand for any.
fn once(mut words: impl Iterator<Item = String>) -> Option<usize> {
    let (name, lines, mode) = (words.next()?, words.next()?.parse().ok()?, words.next()?);
    let workload = WORKLOADS.iter().find(|workload| workload.name == name)?;
    let mode = MODES.iter().find(|one| one.name == mode)?;
    let call = workload.network(lines).call(mode);
    let coordinates = lent::coordinates(&call);
    let (lines, settings) = (lent::lines(&call, &coordinates), lent::settings(&call));
    let mut rooms = Rooms::default();
    let chains = rooms.build(lines, settings).ok()?;
    let checked = Rooms::default().check(lines, chains.delivered(), settings);
    checked.ok().map(|()| chains.len())
}
