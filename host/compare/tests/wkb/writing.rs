//! Writing: every refusal from every state and beside every other, any k, and made-up tables.

use crate::Writing;
use answers::random::Random;
use answers::wkb::{record, record_of, Chains};
use answers::{stride_of, RECORD, TYPES};

/// Chains of both sources, of x and y: of two coordinates, of none, of one, and of all that is merged.
fn chains(k: u64, order: u8) -> Chains {
    chains_of(2, k, order)
}

/// The same chains of a type.
fn chains_of(wkb_type: u32, k: u64, order: u8) -> Chains {
    let stride = stride_of(wkb_type).unwrap_or(2) as u64;
    Chains {
        wkb_type,
        coordinates: (0..4 * stride).map(|k| k << 60 | 0x0123_4567_89ab_cdef).collect(),
        merged: (0..3 * stride).map(|k: u64| (0.5 - k as f64).to_bits()).collect(),
        // The last number of a record is not looked at.
        table: [
            [0, 1, 0, 1, 2, 0],
            [1, 2, 1, 3, 0, 1],
            [3, 1, 0, 3, 1, 7],
            [4, 9, 1, 0, 3, u32::MAX],
        ]
        .concat(),
        k,
        order,
    }
}

/// A damage: its refusal, what it is, and how it is done. Those of a lower place are judged first.
struct Damage {
    place: usize,
    refusal: i64,
    name: &'static str,
    apply: fn(&mut Writing),
}

/// Where a number of row 0 stands in the table.
const SOURCE: usize = 2;
const FIRST: usize = 3;
const COUNT: usize = 4;

#[rustfmt::skip]
const DAMAGES: [Damage; 17] = [
    Damage { place: 0, refusal: 12, name: "type 0", apply: |w| w.chains.wkb_type = 0 },
    Damage { place: 0, refusal: 12, name: "type 1003", apply: |w| w.chains.wkb_type = 1003 },
    Damage { place: 0, refusal: 12, name: "type 0x80000002", apply: |w| w.chains.wkb_type = 0x8000_0002 },
    Damage { place: 1, refusal: 16, name: "order 2", apply: |w| w.chains.order = 2 },
    Damage { place: 1, refusal: 16, name: "order 255", apply: |w| w.chains.order = 255 },
    Damage { place: 2, refusal: 10, name: "k beyond the table", apply: |w| w.chains.k = 5 },
    Damage { place: 2, refusal: 10, name: "k of 2^64 - 1", apply: |w| w.chains.k = u64::MAX },
    Damage { place: 2, refusal: 10, name: "k whose sixfold wraps", apply: |w| w.chains.k = u64::MAX / 6 + 2 },
    Damage { place: 2, refusal: 10, name: "a source of 2", apply: |w| w.chains.table[SOURCE] = 2 },
    Damage { place: 2, refusal: 10, name: "a first coordinate beyond", apply: |w| w.chains.table[FIRST] = 3 },
    Damage { place: 2, refusal: 10, name: "a count beyond", apply: |w| w.chains.table[COUNT] = 4 },
    Damage { place: 2, refusal: 10, name: "a count of 2^32 - 1", apply: |w| w.chains.table[COUNT] = u32::MAX },
    Damage { place: 2, refusal: 10, name: "the last row cut", apply: |w| w.chains.table.truncate(23) },
    Damage { place: 3, refusal: 14, name: "the run short by one", apply: |w| w.rooms[0] = w.rooms[0].saturating_sub(1) },
    Damage { place: 3, refusal: 14, name: "no run", apply: |w| w.rooms[0] = 0 },
    Damage { place: 3, refusal: 14, name: "the lengths short by one", apply: |w| w.rooms[1] = w.rooms[1].saturating_sub(1) },
    Damage { place: 3, refusal: 14, name: "no lengths", apply: |w| w.rooms[1] = 0 },
];

#[test]
fn chains_are_written_in_both_orders_in_rooms_of_any_length_from_theirs_up() {
    for order in [0, 1] {
        for k in 0..=4 {
            let mut writing = Writing::of(chains(k, order));
            for _ in 0..3 {
                let (run, lengths) = writing.agreed().expect("chains");
                assert_eq!(lengths, &[41, 9, 25, 57][..k as usize]);
                assert!(
                    k == 0 || run.starts_with(&record(order, &chains(k, order).coordinates[2..6]))
                );
                writing.rooms = writing.rooms.map(|length| length + 7);
            }
        }
    }
}

#[test]
fn chains_of_every_type_are_written() {
    for wkb_type in TYPES {
        for order in [0, 1] {
            let chains = chains_of(wkb_type, 4, order);
            let stride = stride_of(wkb_type).expect("a type");
            let (run, lengths) = Writing::of(chains.clone()).agreed().expect("chains");
            let bytes = [2, 0, 1, 3].map(|points| 9 + 8 * (stride * points) as u64);
            assert_eq!(lengths, bytes);
            let first = record_of(wkb_type, order, &chains.coordinates[stride..3 * stride]);
            let last = record_of(wkb_type, order, &chains.merged);
            assert!(run.starts_with(&first) && run.ends_with(&last));
        }
    }
}

#[test]
fn every_damage_and_every_pair_of_them() {
    for (order, wkb_type) in [(0, 2), (1, 2), (0, 1002), (1, 3002)] {
        let good = Writing::of(chains_of(wkb_type, 4, order));
        for (k, one) in DAMAGES.iter().enumerate() {
            for other in &DAMAGES[..=k] {
                let mut writing = good.clone();
                (one.apply)(&mut writing);
                (other.apply)(&mut writing);
                let first = if one.place < other.place { one } else { other };
                let names = format!("{} and {}", one.name, other.name);
                assert_eq!(writing.agreed(), Err(first.refusal), "{names}");
            }
        }
    }
}

#[test]
fn no_chains_need_no_room_but_an_order() {
    for order in [0, 1] {
        let writing = Writing { chains: Chains { order, ..Chains::default() }, rooms: [0; 2] };
        assert_eq!(writing.agreed(), Ok((vec![], vec![])));
    }
    let writing = Writing { chains: Chains { order: 2, ..Chains::default() }, rooms: [0; 2] };
    assert_eq!(writing.agreed(), Err(16));
    let writing =
        Writing { chains: Chains { order: 2, wkb_type: 1, ..Chains::default() }, rooms: [0; 2] };
    assert_eq!(writing.agreed(), Err(12));
}

#[test]
fn a_late_record_that_is_missing_comes_before_an_early_one_without_room() {
    let mut late = chains(4, 1);
    late.table[3 * RECORD + SOURCE] = 9;
    assert_eq!(Writing { chains: late, rooms: [0; 2] }.agreed(), Err(10));
    assert_eq!(Writing { chains: chains(4, 1), rooms: [0; 2] }.agreed(), Err(14));
}

#[test]
fn records_that_overlap_may_have_more_bytes_than_the_slices() {
    let rows = vec![[0, 1, 0, 0, 4, 0]; 500];
    let chains = Chains { table: rows.concat(), k: 500, ..chains(0, 0) };
    let mut writing = Writing::of(chains);
    assert_eq!(writing.agreed().map(|(run, _)| run.len()), Ok(500 * (9 + 64)));
    writing.rooms[0] -= 1;
    assert_eq!(writing.agreed(), Err(14));
}

#[test]
fn made_up_tables_are_written_alike() {
    let mut random = Random::new(3);
    let mut seen = [0; 17];
    for _ in 0..50_000 {
        let number = |random: &mut Random| match random.below(30) {
            0 => random.bits() as u32,
            _ => random.below(3) as u32,
        };
        let row = |random: &mut Random| {
            let source = if random.one_in(12) { 2 } else { random.below(2) as u32 };
            let [a, b, first, count, looped] = [0; 5].map(|_| number(random));
            [a, b, source, first, count, looped]
        };
        let mut table: Vec<u32> = (0..random.below(5)).flat_map(|_| row(&mut random)).collect();
        if random.one_in(9) {
            table.pop();
        }
        let doubles =
            |random: &mut Random| (0..16 + random.below(5)).map(|_| random.bits()).collect();
        let chains = Chains {
            wkb_type: if random.one_in(20) { random.bits() as u32 } else { random.pick(&TYPES) },
            coordinates: doubles(&mut random),
            merged: doubles(&mut random),
            k: (table.len() / RECORD).saturating_sub(random.below(2)) as u64
                + u64::from(random.one_in(9)),
            table,
            order: random.below(9).min(2) as u8 % 3,
        };
        let mut writing = Writing::of(chains);
        let room = random.below(2);
        writing.rooms[room] = match random.below(4) {
            0 => writing.rooms[room].saturating_sub(1),
            1 => writing.rooms[room] + 5,
            _ => writing.rooms[room],
        };
        seen[writing.agreed().err().unwrap_or(0) as usize] += 1;
    }
    for refusal in [0, 10, 12, 14, 16] {
        assert!(seen[refusal] > 500, "{refusal}: {seen:?}");
    }
}
