//! `floats [--count N] [--speed]`: the float leaves against the processor.

use floats::{compare::Report, patterns::patterns, speed};
use std::process::ExitCode;

const USAGE: &str = "floats [--count N] [--speed]

  --count N   compare at N bit patterns (10000000 where it isn't said)
  --speed     time per call, in place of the comparison

Exit status: 0 where nothing differs (with --speed: where no leaf is slower than it may be), else 1; 2 for bad usage.";

struct Options {
    count: usize,
    speed: bool,
}

fn main() -> ExitCode {
    match options(std::env::args().skip(1)) {
        Some(options) if options.speed => {
            let paces = speed::paces();
            paces.iter().for_each(|pace| println!("{pace}"));
            ExitCode::from(u8::from(!paces.iter().all(speed::Pace::within)))
        }
        Some(options) => {
            let report = Report::of(patterns(options.count));
            print!("{report}");
            ExitCode::from(u8::from(!report.agrees()))
        }
        None => {
            eprintln!("{USAGE}");
            ExitCode::from(2)
        }
    }
}

fn options(mut words: impl Iterator<Item = String>) -> Option<Options> {
    let mut options = Options { count: 10_000_000, speed: false };
    while let Some(word) = words.next() {
        match word.as_str() {
            "--count" => options.count = words.next()?.parse().ok()?,
            "--speed" => options.speed = true,
            _ => return None,
        }
    }
    Some(options)
}
