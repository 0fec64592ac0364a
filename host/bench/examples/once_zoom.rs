//! Building once in one call and once in two, for a counter of instructions:
//!
//! ```text
//! cargo build --release --offline --example once_zoom
//! valgrind --tool=callgrind --callgrind-out-file=/dev/null --toggle-collect=lovasuku_finish \
//!     target/release/examples/once_zoom borders 2048 "strict, coarse"
//! ```
//!
//! `lovasuku_first` and `lovasuku_build` count the others.

use bench::workloads::{MODES, WORKLOADS};
use compare::lent;
use lovasuku_chains::{FirstBuf, Rooms};
use std::process::ExitCode;

const USAGE: &str = "once_zoom WORKLOAD LINES MODE";

fn main() -> ExitCode {
    match once(std::env::args().skip(1)) {
        Some([one, two]) => println!("{one} chains in one call, {two} in two"),
        None => {
            eprintln!("{USAGE}");
            return ExitCode::from(2);
        }
    }
    ExitCode::SUCCESS
}

/// The number of chains in one call and in two, of the call that the words stand for, if they stand for any.
fn once(mut words: impl Iterator<Item = String>) -> Option<[usize; 2]> {
    let (name, lines, mode) = (words.next()?, words.next()?.parse().ok()?, words.next()?);
    let workload = WORKLOADS.iter().find(|workload| workload.name == name)?;
    let mode = MODES.iter().find(|one| one.name == mode)?;
    let call = workload.network(lines).call(mode);
    let coordinates = lent::coordinates(&call);
    let (lines, settings) = (lent::lines(&call, &coordinates), lent::settings(&call));
    let (mut rooms, mut buffers) = (Rooms::default(), FirstBuf::default());
    let one = rooms.build(lines, settings).ok()?.len();
    let first = rooms.first(lines, settings, &mut buffers).ok()?;
    let two = rooms.finish(first, settings).ok()?.len();
    Some([one, two])
}
