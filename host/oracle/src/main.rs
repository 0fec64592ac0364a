//! `oracle record` writes the recorded answers, `oracle record --check` holds them to the oracle
//! and is skipped where there is none, `oracle differences` measures what the unedited original
//! does otherwise.

use oracle::{differences, record, Oracle};
use std::process::ExitCode;

fn main() -> ExitCode {
    let words: Vec<String> = std::env::args().skip(1).collect();
    let words: Vec<&str> = words.iter().map(String::as_str).collect();
    let command: fn(Oracle) -> Result<(), String> = match words[..] {
        ["record"] => record::record,
        ["record", "--check"] => record::check,
        ["differences"] => differences::report,
        _ => {
            eprintln!("usage: oracle record [--check] | oracle differences");
            return ExitCode::from(2);
        }
    };
    match (Oracle::find().map(command), words[..].ends_with(&["--check"])) {
        (Ok(Ok(())), _) => ExitCode::SUCCESS,
        (Ok(Err(fault)), _) => failed(&fault),
        (Err(reason), false) => failed(reason),
        (Err(reason), true) => {
            println!("oracle: live comparison skipped: {reason}");
            ExitCode::SUCCESS
        }
    }
}

fn failed(fault: &str) -> ExitCode {
    eprintln!("oracle: {fault}");
    ExitCode::FAILURE
}
