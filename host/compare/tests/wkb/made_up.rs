//! Made-up runs: mostly good records, some with a byte, a length or a room changed.

use crate::Reading;
use answers::random::Random;
use answers::wkb::record_of;
use answers::{stride_of, TYPES};

/// The bits of a double: a small number, one of the edges, or any.
fn bits(random: &mut Random) -> u64 {
    let edges = [0, 1 << 63, 0x7ff0_0000_0000_0000, 0x7ff8_0000_0000_0123, 0xfff4_0000_0000_0001];
    match random.below(4) {
        0 => random.pick(&edges),
        1 => random.bits(),
        _ => (random.between(-9, 9) as f64 / 4.0).to_bits(),
    }
}

/// A run of up to five records of up to four coordinates, most of one type, damaged once in two.
pub fn made_up(random: &mut Random) -> Reading {
    let (of_most, strays) = (random.pick(&TYPES), random.one_in(6));
    let line = |random: &mut Random| {
        let stray = strays && random.one_in(3);
        let wkb_type = if stray { random.pick(&TYPES) } else { of_most };
        let numbers = stride_of(wkb_type).unwrap_or(0) * random.below(5);
        let coordinates: Vec<u64> = (0..numbers).map(|_| bits(random)).collect();
        record_of(wkb_type, random.below(2) as u8, &coordinates)
    };
    let records: Vec<Vec<u8>> = (0..random.below(6)).map(|_| line(random)).collect();
    let mut reading = Reading::of(&records);
    for _ in 0..random.pick(&[0, 0, 1, 1, 2, 3]) {
        damage(random, &mut reading);
    }
    reading
}

fn damage(random: &mut Random, reading: &mut Reading) {
    let Reading { run, lengths, rooms } = reading;
    let any = |random: &mut Random| random.pick(&[0, 1, 2, 3, 4, 0x80, 0xff]);
    match random.below(8) {
        0..=2 if !run.is_empty() => {
            // A byte of some header, most often.
            let before = &lengths[..random.below(lengths.len() + 1)];
            let first = before.iter().fold(0u64, |sum, &length| sum.wrapping_add(length));
            let at = first as usize % run.len() + random.below(10);
            let at = at.min(run.len() - 1);
            run[at] = any(random);
        }
        3 if !lengths.is_empty() => {
            let k = random.below(lengths.len());
            lengths[k] = match random.below(4) {
                0 => random.pick(&[0, 8, 9, u64::MAX, 1 << 63, 1 << 32]),
                1 => lengths[k].wrapping_add(16),
                2 => lengths[k].wrapping_add(1),
                _ => lengths[k].wrapping_sub(1),
            };
        }
        4 if lengths.len() > 1 => {
            // Two records meet elsewhere, and the sum stays.
            let k = random.below(lengths.len() - 1);
            let moved = random.pick(&[1, 8, 9, 16]).min(lengths[k]);
            lengths[k] -= moved;
            lengths[k + 1] = lengths[k + 1].wrapping_add(moved);
        }
        5 => {
            let byte = any(random);
            run.extend(vec![byte; random.below(20)]);
        }
        6 => {
            let room = random.below(3);
            rooms[room] = random.below(rooms[room] + 3);
        }
        _ => {
            run.truncate(random.below(run.len() + 1));
        }
    }
}

/// Puts so many runs to the library and to the judge; how many each refusal had, 0 for none.
fn compare(runs: usize, seed: u64) -> [usize; 26] {
    let mut random = Random::new(seed);
    let mut seen = [0; 26];
    for _ in 0..runs {
        let answer = made_up(&mut random).agreed();
        seen[answer.err().unwrap_or(0) as usize] += 1;
    }
    seen
}

#[test]
fn made_up_runs_read_alike() {
    let seen = compare(100_000, 1);
    for refusal in [0, 11, 12, 13, 14, 25] {
        assert!(seen[refusal] > 500, "{refusal}: {seen:?}");
    }
}

#[test]
#[ignore = "a million runs take some seconds; cargo test --release -p compare -- --ignored"]
fn a_million_made_up_runs_read_alike() {
    compare(1_000_000, 2);
}
