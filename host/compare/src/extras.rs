//! Extras, judged without a model of the joining: left out they change nothing, and they stay with
//! their points.

use crate::building::BuildRooms;
use crate::Door;
use answers::call::without_extras;
use answers::random::Random;
use answers::{BuildCall, Built};
use std::collections::HashSet;

/// Holds an accepted call with extras to three laws. The error is a sentence about the first that
/// does not hold.
///
/// - The same call without extras leaves the same table, members, marks, x and y.
/// - Every merged coordinate is, with its extras, one of the chain's own lines', bit for bit.
/// - Where round two does not run, the chain is its lines laid end to end as members and marks say,
///   and of coordinates with the same x and y in a row the first stays.
pub fn check(door: &dyn Door, call: &BuildCall, built: &Built, seed: u64) -> Result<(), String> {
    if call.stride() == 2 {
        return Ok(());
    }
    flat_alike(door, call, built, seed)?;
    let (firsts, round_two) = (call.firsts(), f64::from_bits(call.tolerance) > 0.0);
    let lines = |members: &[u32]| -> Vec<Vec<&[u64]>> {
        let line = |&line: &u32| {
            let line = line as usize;
            call.numbers(line, firsts[line]).chunks(call.stride()).collect()
        };
        members.iter().map(line).collect()
    };
    for record in built.table.iter().filter(|record| record[2] == 1) {
        let places = record[0] as usize..(record[0] + record[1]) as usize;
        let run = record[3] as usize..(record[3] + record[4]) as usize;
        let chain: Vec<&[u64]> =
            built.merged.chunks(call.stride()).skip(run.start).take(run.len()).collect();
        let lines = lines(&built.members[places.clone()]);
        whole(&chain, &lines)?;
        if !round_two {
            laid(&chain, &lines, &built.marks[places])?;
        }
    }
    Ok(())
}

/// The first law.
fn flat_alike(door: &dyn Door, call: &BuildCall, built: &Built, seed: u64) -> Result<(), String> {
    let flat = call.flat();
    let mut rooms = BuildRooms::for_call(&mut Random::new(seed), &flat);
    let answer = door.build(&flat, &mut rooms);
    if answer != built.table.len() as i64 {
        return Err(format!("without extras the answer is {answer}, not {}", built.table.len()));
    }
    let merged = without_extras(&built.merged, call.stride());
    let alike = rooms.hold(&flat, &Built { merged, ..built.clone() });
    alike.map_err(|difference| format!("without extras {difference}"))
}

/// The second law.
fn whole(chain: &[&[u64]], lines: &[Vec<&[u64]>]) -> Result<(), String> {
    let own: HashSet<&[u64]> = lines.iter().flatten().copied().collect();
    match chain.iter().find(|&&coordinate| !own.contains(coordinate)) {
        Some(coordinate) => Err(format!("{coordinate:x?} is no coordinate of the chain's lines")),
        None => Ok(()),
    }
}

/// The third law.
fn laid(chain: &[&[u64]], lines: &[Vec<&[u64]>], marks: &[u8]) -> Result<(), String> {
    let place = |coordinate: &[u64]| [0, 1].map(|k| f64::from_bits(coordinate[k]));
    let mut laid: Vec<&[u64]> = Vec::new();
    for (line, mark) in lines.iter().zip(marks) {
        let way: Box<dyn Iterator<Item = &&[u64]>> = match mark {
            0 => Box::new(line.iter()),
            _ => Box::new(line.iter().rev()),
        };
        for &coordinate in way {
            if laid.last().map_or(true, |last| place(last) != place(coordinate)) {
                laid.push(coordinate);
            }
        }
    }
    match laid == chain {
        true => Ok(()),
        false => Err("a chain is not its lines laid end to end, extras and all".to_string()),
    }
}
