//! The chain question on tables of any sort.

use crate::NO_TYPES;
use answers::random::Random;
use answers::{stride_of, RECORD, TYPES};
use lovasuku_chains::door::chain;

/// What the rules say, in numbers that cannot overflow.
fn wanted(wkb_type: u32, input: usize, merged: usize, table: &[u32], k: u64) -> i64 {
    let stride = match stride_of(wkb_type) {
        Some(stride) => stride as u128,
        None => return -12,
    };
    let numbers = table.len() as u128;
    let first = RECORD as u128 * u128::from(k);
    if first + RECORD as u128 > numbers {
        return -10;
    }
    let record = &table[first as usize..];
    let length = [input, merged].get(record[2] as usize).map(|&length| length as u128);
    let end = stride * (u128::from(record[3]) + u128::from(record[4]));
    match length {
        Some(length) if end <= length => 0,
        _ => -10,
    }
}

/// Asks the library about slices of these lengths, of x and y.
fn asked(input: usize, merged: usize, table: &[u32], k: u64) -> i64 {
    asked_of(2, input, merged, table, k)
}

/// Asks the library about slices of these lengths, of a type.
fn asked_of(wkb_type: u32, input: usize, merged: usize, table: &[u32], k: u64) -> i64 {
    chain(wkb_type, &vec![0.0; input], &vec![0.0; merged], table, k)
}

#[test]
fn a_record_at_each_edge() {
    let good = [0, 1, 0, 1, 2, 0];
    assert_eq!(asked(6, 0, &good, 0), 0);
    assert_eq!(asked(5, 9, &good, 0), -10);
    assert_eq!(asked(0, 6, &[0, 1, 1, 1, 2, 0], 0), 0);
    assert_eq!(asked(9, 5, &[0, 1, 1, 1, 2, 0], 0), -10);
    for source in [2, 3, 256, 1 << 31, u32::MAX] {
        assert_eq!(asked(9, 9, &[0, 1, source, 0, 0, 0], 0), -10);
    }
    assert_eq!(asked(0, 0, &[u32::MAX, u32::MAX, 0, 0, 0, 0], 0), 0);
    // Whether it is a loop is not looked at.
    for looped in [1, 2, u32::MAX] {
        assert_eq!(asked(6, 0, &[0, 1, 0, 1, 2, looped], 0), 0);
    }
    for length in 0..RECORD {
        assert_eq!(asked(6, 6, &good[..length], 0), -10);
    }
    assert_eq!(asked(6, 6, &[good, good].concat()[..11], 1), -10);
    assert_eq!(asked(6, 6, &[good, good].concat(), 1), 0);
}

#[test]
fn a_coordinate_has_the_numbers_of_its_type() {
    let good = [0, 1, 0, 1, 2, 0];
    for (wkb_type, numbers) in [(2, 6), (1002, 9), (2002, 9), (3002, 12)] {
        assert_eq!(asked_of(wkb_type, numbers, 0, &good, 0), 0);
        assert_eq!(asked_of(wkb_type, numbers - 1, 99, &good, 0), -10);
    }
    // A fourfold beyond 32 bits, and a threefold.
    for (first, count) in [(1 << 30, 0), (0, 1 << 30), (0x5555_5556, 0), (1, 0x5555_5555)] {
        for wkb_type in TYPES {
            assert_eq!(asked_of(wkb_type, 8, 8, &[0, 1, 1, first, count, 0], 0), -10);
        }
    }
}

#[test]
fn a_type_that_is_none_is_said_before_all_else() {
    for wkb_type in NO_TYPES {
        assert_eq!(asked_of(wkb_type, 6, 0, &[0, 1, 0, 1, 2, 0], 0), -12);
        assert_eq!(asked_of(wkb_type, 0, 0, &[], u64::MAX), -12);
    }
}

#[test]
fn sums_beyond_32_bits_are_beyond_every_slice() {
    for (first, count) in [
        (u32::MAX, 1),
        (1, u32::MAX),
        (u32::MAX, u32::MAX),
        (1 << 31, 0),
        (0, 1 << 31),
        (1 << 31, 1 << 31),
        (1 << 30, 1 << 30),
    ] {
        for source in [0, 1] {
            assert_eq!(asked(4, 4, &[0, 1, source, first, count, 0], 0), -10);
        }
    }
}

#[test]
fn a_chain_number_may_be_any_number() {
    let table = vec![0; 5 * RECORD];
    let wraps = (0..64).map(|k| 1u64 << k);
    let sixths = (0..6).map(|k| (u64::MAX / 6).wrapping_mul(k));
    let near = sixths.flat_map(|k| [k.wrapping_sub(1), k, k.wrapping_add(1), k.wrapping_add(4)]);
    // Sixfold, the last two wrap to 2 and to 4.
    for k in wraps.chain(near).chain([u64::MAX, 0x2aaa_aaaa_aaaa_aaab, 0x5555_5555_5555_5556]) {
        assert_eq!(asked(2, 2, &table, k), if k < 5 { 0 } else { -10 }, "{k}");
    }
}

#[test]
fn any_table_at_all() {
    let mut random = Random::new(77);
    for _ in 0..50_000 {
        let (input, merged) = (random.below(12), random.below(12));
        let number = |random: &mut Random| match random.below(6) {
            0 => random.bits() as u32,
            _ => random.below(4) as u32,
        };
        let table: Vec<u32> = (0..random.below(19)).map(|_| number(&mut random)).collect();
        let k = random.below(4) as u64;
        let wkb_type = if random.one_in(9) { random.pick(&NO_TYPES) } else { random.pick(&TYPES) };
        assert_eq!(
            asked_of(wkb_type, input, merged, &table, k),
            wanted(wkb_type, input, merged, &table, k),
            "{wkb_type} {input} {merged} {table:?} {k}"
        );
    }
}
