//! One delivery, joined again and again in the same rooms, for a sampler, and its best times:
//!
//! ```text
//! cargo build --release --offline --package bench --example once_large
//! perf record -e cpu-clock target/release/examples/once_large town 1000000 strict 20
//! ```
//!
//! The modes are strict, junctions and coarse. The best time is told of a line, in nanoseconds of the
//! processor on one core, as Linux tells it, so that whatever else runs does not count; and where a fifth
//! word is `two` those of the clock on all cores.

use bench::clock::timed;
use bench::large::{call, region, MODES, REGIONS};
use compare::lent;
use lovasuku_chains::large::{Cores, Rooms, Way};

use std::process::ExitCode;

const USAGE: &str = "once_large REGION LINES strict|junctions|coarse TIMES [two]";

fn main() -> ExitCode {
    match once(std::env::args().skip(1)) {
        Some(time) => println!("{time:.1} ns a line"),
        None => {
            eprintln!("{USAGE}");
            return ExitCode::from(2);
        }
    }
    ExitCode::SUCCESS
}

/// The best time of a line of the delivery that the words stand for, if they stand for any.
fn once(mut words: impl Iterator<Item = String>) -> Option<f64> {
    let (name, lines, mode) = (words.next()?, words.next()?.parse().ok()?, words.next()?);
    let times: usize = words.next()?.parse().ok()?;
    let cores = if words.next().is_some() { Cores::All } else { Cores::One };
    let style = REGIONS.into_iter().find(|(region, _)| *region == name)?;
    let mode = MODES.iter().find(|one| one.name.ends_with(&mode))?;
    let call = call(&region(style, lines), mode);
    let coordinates = lent::coordinates(&call);
    let (lines, settings) = (lent::lines(&call, &coordinates), lent::settings(&call));
    let (mut rooms, way) = (Rooms::default(), Way { cores, ..Way::default() });
    let mut build = || {
        let before = processor();
        let time = timed(|| rooms.build_by(lines, settings, way).is_ok());
        match cores {
            Cores::One => before.and_then(|before| Some(processor()? - before)).unwrap_or(time),
            Cores::All => time,
        }
    };
    let best = (0..times.max(1)).map(|_| build()).fold(f64::INFINITY, f64::min);
    Some(best / call.counts.len() as f64)
}

/// The nanoseconds that this thread has had of the processor, where the system tells.
fn processor() -> Option<f64> {
    let told = std::fs::read_to_string("/proc/thread-self/schedstat").ok()?;
    told.split_whitespace().next()?.parse().ok()
}
