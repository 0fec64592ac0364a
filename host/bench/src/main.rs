//! `bench`: the time of the verified library as a part of the Rust original's.

use bench::geos::Geos;
use bench::options::{Options, USAGE};
use bench::report::Report;
use bench::summary::Summary;
use bench::{about, heap};
use oracle::Oracle;
use std::process::ExitCode;

fn main() -> ExitCode {
    let words: Vec<String> = std::env::args().skip(1).collect();
    let options = match Options::of(words.iter().cloned()) {
        Some(options) => options,
        None => {
            eprintln!("{USAGE}");
            return ExitCode::from(2);
        }
    };
    match run(&words, &options) {
        Ok(summary) if options.gate && !summary.within() => ExitCode::FAILURE,
        Ok(_) => ExitCode::SUCCESS,
        Err(fault) => {
            eprintln!("bench: {fault}");
            ExitCode::FAILURE
        }
    }
}

/// Prints everything; the ratios, or a sentence about what went wrong.
fn run(words: &[String], options: &Options) -> Result<Summary, String> {
    let oracle = Oracle::find()?;
    let geos = Geos::find();
    heap::keep();
    println!("{}", about::paragraphs(words, geos.as_ref()).join("\n\n"));
    let mut report = Report { oracle, geos: geos.as_ref(), options, summary: Summary::default() };
    report.run()?;
    let lines = report.summary.lines();
    if lines.is_empty() {
        return Err("no workload has that in its name".to_string());
    }
    println!("\n{}", lines.iter().map(|line| format!("- {line}\n")).collect::<String>().trim_end());
    Ok(report.summary)
}
