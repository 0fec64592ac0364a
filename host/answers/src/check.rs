//! What holds of every accepted call and of its answer by their form alone.

use crate::call::{stride_of, BuildCall, Built, Pair, PairingCall, Record};
use std::collections::HashMap;

/// A sentence about the first thing that does not hold.
pub type Checked = Result<(), String>;

fn ensure(holds: bool, sentence: &str) -> Checked {
    match holds {
        true => Ok(()),
        false => Err(sentence.to_string()),
    }
}

fn in_range(limit: u64) -> bool {
    (-1.0..=1.0).contains(&f64::from_bits(limit))
}

/// No refusal applies to the building call but those of coordinates and of an origin that are no place.
pub fn build_call(call: &BuildCall) -> Checked {
    let n = call.lines();
    let points: usize = call.counts.iter().map(|&count| count as usize).sum();
    ensure(stride_of(call.wkb_type).is_some(), "the type is none of the four")?;
    ensure(n <= 4096, "there are more than 4,096 lines")?;
    ensure(call.groups.len() == n && call.kinds.len() == n, "the tables differ in length")?;
    ensure(call.kinds.iter().all(|&kind| kind <= 1), "a kind is above 1")?;
    ensure(call.stride() * points == call.coordinates.len(), "the counts do not add up")?;
    ensure(points <= 65536, "there are more than 65,536 coordinates")?;
    ensure(call.over_share().is_none(), "a district has more than its share")?;
    ensure(call.switch <= 1, "the switch is above 1")?;
    ensure(call.switch == 0 || in_range(call.limit), "the limit is out of range")
}

/// The answer names every line once, and its firsts add up.
pub fn built(call: &BuildCall, built: &Built) -> Checked {
    let mut once: Vec<u32> = built.members.clone();
    once.sort_unstable();
    let all: Vec<u32> = (0..call.lines() as u32).collect();
    ensure(once == all, "the members are not the lines, each once")?;
    ensure(built.marks.len() == built.members.len(), "there is not one mark per member")?;
    ensure(built.marks.iter().all(|&mark| mark <= 1), "a mark is above 1")?;
    ensure(
        built.listing.len() == built.members.len(),
        "the listing is not as long as the members",
    )?;
    let (mut members, mut merged) = (0, 0);
    for record in &built.table {
        ensure(record[0] as usize == members, "a first member does not add up")?;
        members += record[1] as usize;
        ensure(members <= built.members.len(), "a chain has members beyond the last")?;
        let chain = &built.members[record[0] as usize..members];
        listed(chain, &built.listing[record[0] as usize..members])?;
        match chain {
            [] => return Err("a chain has no member".to_string()),
            &[line] => lone(call, record, line as usize)?,
            _ => several(call, record, chain, merged)?,
        }
        merged += if record[2] == 1 { record[4] as usize } else { 0 };
        looped(call, built, record)?;
    }
    ensure(members == built.members.len(), "the last members are in no chain")?;
    ensure(call.stride() * merged == built.merged.len(), "the merged coordinates do not add up")?;
    passing(call, built)
}

/// The listing of a chain has its members, each once.
fn listed(chain: &[u32], listing: &[u32]) -> Checked {
    let [mut members, mut lines] = [chain, listing].map(<[u32]>::to_vec);
    members.sort_unstable();
    lines.sort_unstable();
    ensure(members == lines, "a listing does not have the members, each once")
}

/// A chain of one line names the line's own coordinates.
fn lone(call: &BuildCall, record: &Record, line: usize) -> Checked {
    let own = [0, call.firsts()[line] as u32, call.counts[line]];
    ensure(record[2..5] == own, "a lone line is not its own coordinates")
}

/// The last number of a record is that of the coordinates that the record names.
fn looped(call: &BuildCall, built: &Built, record: &Record) -> Checked {
    let from = if record[2] == 0 { &call.coordinates } else { &built.merged };
    let (first, count) = (record[3] as usize, record[4] as usize);
    let part = from.get(call.stride() * first..call.stride() * (first + count));
    let part = part.ok_or("a chain has coordinates beyond the last")?;
    let place = |k: usize| [part[call.stride() * k], part[call.stride() * k + 1]];
    let closed = count >= 3 && place(0) == place(count - 1);
    ensure(record[5] == u32::from(closed), "a loop is marked as none, or none as a loop")
}

/// A chain of several lines has one group, only plain lines, and the next merged coordinates.
fn several(call: &BuildCall, record: &Record, chain: &[u32], merged: usize) -> Checked {
    let group = call.groups[chain[0] as usize];
    let fits = |&line: &u32| call.groups[line as usize] == group && !call.passes(line as usize);
    ensure(chain.iter().all(fits), "a chain mixes groups or has a line that passes through")?;
    ensure(record[2] == 1, "a chain of several lines is not in the merged coordinates")?;
    ensure(record[3] as usize == merged, "a first coordinate does not add up")
}

/// The lines that pass through come last, by position and unturned.
fn passing(call: &BuildCall, built: &Built) -> Checked {
    let lines = || 0..call.lines() as u32;
    let through: Vec<u32> = lines().filter(|&line| call.passes(line as usize)).collect();
    let joined = built.members.len() - through.len();
    ensure(built.members[joined..] == through, "the lines that pass through are not last")?;
    ensure(built.marks[joined..].iter().all(|&mark| mark == 0), "a passing line is turned")
}

/// No refusal of the plain route applies to the pairing call.
pub fn pairing_call(call: &PairingCall) -> Checked {
    let d = call.ends();
    ensure(d <= 8192, "there are more than 8,192 ends")?;
    let lengths = call.present.len() == d && call.directions.len() == 2 * d;
    ensure(lengths, "the tables differ in length")?;
    ensure(call.present.iter().all(|&mark| mark <= 1), "a presence mark is above 1")?;
    ensure(in_range(call.limit), "the limit is out of range")?;
    let mut ends: HashMap<u32, usize> = HashMap::new();
    call.pieces.iter().for_each(|&piece| *ends.entry(piece).or_default() += 1);
    ensure(ends.values().all(|&count| count <= 2), "a piece has more than two ends")
}

/// The pairs name present ends of different pieces, each end once, the lower one first.
pub fn pairs(call: &PairingCall, pairs: &[Pair]) -> Checked {
    let mut taken = vec![false; call.ends()];
    for &[i, j] in pairs {
        let (i, j) = (i as usize, j as usize);
        ensure(i < j && j < taken.len(), "a pair is not two ends in order")?;
        ensure(call.present[i] == 1 && call.present[j] == 1, "a paired end is absent")?;
        ensure(call.pieces[i] != call.pieces[j], "a pair has one piece")?;
        ensure(!taken[i] && !taken[j], "an end is in two pairs")?;
        taken[i] = true;
        taken[j] = true;
    }
    Ok(())
}
