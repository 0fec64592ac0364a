//! `compare --calls N --seed S`: N calls, put to the library and to the judge; `compare --network FILE`:
//! the lines of a file. README.md has more.

use compare::network::comparing::Tally;
use compare::network::{compare_forms, open};
use compare::run::{run, Plan};
use compare::{Judge, Library};
use std::path::Path;
use std::process::ExitCode;
use std::time::Instant;

const USAGE: &str = "usage: compare [--calls N] [--seed S] [--first K] [--jobs J]
       compare --network FILE..
  --calls N   how many calls are compared (20000)
  --seed S    the seed that determines them (1)
  --first K   the number of the first call (0): with --calls 1 a single call is made again
  --jobs J    how many are compared at a time (the machine's processors)
  --network   joins the lines of each file, GeoJSON with a feature a row, as a delivery, by many settings
              and in many ways
Status 0: no call differs; 1: a call differs, and is printed made small; 2: wrong words, or a file without
lines.";

fn main() -> ExitCode {
    let words: Vec<String> = std::env::args().skip(1).collect();
    if let Some(("--network", files)) = words.split_first().map(|(word, rest)| (&word[..], rest)) {
        return compare_networks(files);
    }
    match plan(words.into_iter()) {
        Ok(plan) => compare(plan),
        Err(fault) => {
            eprintln!("compare: {fault}\n{USAGE}");
            ExitCode::from(2)
        }
    }
}

/// Compares the network of each file, and says what came of each and of all.
fn compare_networks(files: &[String]) -> ExitCode {
    let (judge, sentence) = Judge::find();
    println!("compare: {sentence}");
    let mut sum = Tally::default();
    for file in files {
        let network = match open(Path::new(file)) {
            Ok(network) => network,
            Err(fault) => {
                eprintln!("compare: {fault}");
                return ExitCode::from(2);
            }
        };
        let name = Path::new(file).file_stem().map_or(file.into(), |name| name.to_string_lossy());
        sum.add(compare_forms(judge, &network, &|form, tally| println!("{name}, {form}: {tally}")));
    }
    sum.differ.iter().for_each(|fault| println!("compare: {fault}"));
    println!("compare: networks {}, {sum}", files.len());
    ExitCode::from(u8::from(!sum.differ.is_empty()))
}

/// What the words of the command line ask for.
fn plan(mut words: impl Iterator<Item = String>) -> Result<Plan, String> {
    let jobs = std::thread::available_parallelism().map_or(1, |jobs| jobs.get());
    let mut plan = Plan { first: 0, calls: 20_000, seed: 1, jobs };
    while let Some(word) = words.next() {
        let value = words.next().ok_or(format!("{word} wants a number"))?;
        let number = value.parse::<u64>().map_err(|_| format!("{value} is no number"))?;
        match word.as_str() {
            "--calls" => plan.calls = number,
            "--seed" => plan.seed = number,
            "--first" => plan.first = number,
            "--jobs" => plan.jobs = number as usize,
            _ => return Err(format!("{word} is unknown")),
        }
    }
    Ok(plan)
}

/// Runs the plan and says what came of it.
fn compare(plan: Plan) -> ExitCode {
    let (judge, sentence) = Judge::find();
    println!("compare: {sentence}");
    let start = Instant::now();
    let watch = |number: u64| {
        let done = number - plan.first;
        if done > 0 && done % 1_000_000 == 0 {
            eprintln!("compare: {done} of {} calls, {:.0?}", plan.calls, start.elapsed());
        }
    };
    let (tally, difference) = run(&Library, judge, plan, &watch);
    println!("{tally}");
    let (calls, time) = (tally.calls(), start.elapsed());
    match difference {
        None => {
            println!("compare: {calls} calls of seed {}, 0 differ, {time:.1?}", plan.seed);
            ExitCode::SUCCESS
        }
        Some(difference) => {
            println!("compare: of seed {}, {difference}", plan.seed);
            ExitCode::FAILURE
        }
    }
}
