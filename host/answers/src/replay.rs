//! The recorded calls, put to whatever answers calls.

use crate::call::{Port, Route};
use crate::format::{read, BuildEntry, PairingEntry, Recorded};
use std::path::PathBuf;

/// The recorded files.
pub const FILES: [&str; 8] = [
    "tiny.bin",
    "stars.bin",
    "networks.bin",
    "tolerances.bin",
    "shapes.bin",
    "wild.bin",
    "origins.bin",
    "pairing.bin",
];

/// The folder of the recorded files.
pub fn folder() -> PathBuf {
    PathBuf::from(env!("CARGO_MANIFEST_DIR")).join("../../data/oracle")
}

/// The contents of a recorded file.
pub fn load(name: &str) -> Result<Recorded, String> {
    let bytes = std::fs::read(folder().join(name)).map_err(|fault| format!("{name}: {fault}"))?;
    read(&bytes).map_err(|fault| format!("{name}: {fault}"))
}

/// Puts every call to the port. Gives the number of calls, or the first difference.
pub fn replay(port: &mut dyn Port, recorded: &Recorded) -> Result<usize, String> {
    match recorded {
        Recorded::Building(entries) => {
            let check = |entry| replay_build(port, entry);
            each(entries, check)
        }
        Recorded::Pairing(entries) => {
            let check = |entry| replay_pairs(port, entry);
            each(entries, check)
        }
    }
}

/// Checks every entry; a fault is named with the number of its call in the file.
pub fn each<'a, E>(
    entries: &'a [E],
    mut check: impl FnMut(&'a E) -> Result<(), String>,
) -> Result<usize, String> {
    for (number, entry) in entries.iter().enumerate() {
        check(entry).map_err(|fault| format!("call {number}: {fault}"))?;
    }
    Ok(entries.len())
}

fn replay_build(port: &mut dyn Port, (call, recorded): &BuildEntry) -> Result<(), String> {
    let answer = port.build(call);
    if answer == *recorded {
        return Ok(());
    }
    Err(format!("the answer differs\n{call}recorded {recorded:?}\nanswered {answer:?}"))
}

fn replay_pairs(port: &mut dyn Port, (call, recorded): &PairingEntry) -> Result<(), String> {
    for &route in Route::for_call(call) {
        let answer = port.pairs(route, call);
        if answer.as_ref() != Ok(recorded) {
            let difference = format!("recorded {recorded:?}\nanswered {answer:?}");
            return Err(format!("the {route:?} route differs\n{call}{difference}"));
        }
    }
    Ok(())
}
