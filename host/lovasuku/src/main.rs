//! Runs the command; see `lovasuku --help`.

use lovasuku_command::arguments::{asked, Asked, Request};
use lovasuku_command::{checking, command, manual, why};
use std::io::Write;
use std::process::ExitCode;

fn main() -> ExitCode {
    let done = match asked() {
        Asked::Join(requests) => join(&requests),
        Asked::Check(request) => return checking::main(&request),
        Asked::Why(question) => why::run(&question)
            .and_then(|answer| Ok(std::io::stdout().lock().write_all(answer.as_bytes())?)),
        Asked::Manual(page) => manual::page(page.as_deref())
            .and_then(|page| Ok(std::io::stdout().lock().write_all(&page)?)),
    };
    match done {
        Ok(()) => ExitCode::SUCCESS,
        Err(fault) => {
            eprintln!("lovasuku: {fault:#}");
            ExitCode::FAILURE
        }
    }
}

fn join(requests: &[Request]) -> anyhow::Result<()> {
    let summary = command::run(requests)?;
    if !requests.iter().any(|request| request.quiet) {
        eprint!("{summary}");
    }
    Ok(())
}
