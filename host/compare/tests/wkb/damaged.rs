//! Damaged runs: every refusal from every state, alone and beside every other damage.

use crate::Reading;
use answers::wkb::{record, record_of};
use answers::TYPES;
use std::cmp::Reverse;

/// A run in the making.
#[derive(Clone)]
struct Run {
    records: Vec<Vec<u8>>,
    lengths: Option<Vec<u64>>,
    rooms: Option<[usize; 3]>,
}

/// A damage: when it is judged, its refusal, what it is, and how it is done to a run.
struct Damage {
    place: Place,
    refusal: i64,
    name: String,
    apply: Box<dyn Fn(&mut Run)>,
}

/// How a record is changed.
type Change = Box<dyn Fn(&mut Vec<u8>)>;

/// When a damage is judged: before the records, at a test of a record, or after them.
#[derive(Clone, Copy, Debug, PartialEq, Eq, PartialOrd, Ord)]
enum Place {
    Lengths,
    Record(usize, Test),
    Rooms,
}

/// The tests of a record in their order.
#[derive(Clone, Copy, Debug, PartialEq, Eq, PartialOrd, Ord)]
enum Test {
    Header,
    Order,
    Type,
    Mixed,
    Count,
}

fn damage(place: Place, refusal: i64, name: String, apply: impl Fn(&mut Run) + 'static) -> Damage {
    Damage { place, refusal, name, apply: Box::new(apply) }
}

impl Run {
    fn of(records: Vec<Vec<u8>>) -> Self {
        Run { records, lengths: None, rooms: None }
    }

    fn lengths(&self) -> Vec<u64> {
        self.records.iter().map(|record| record.len() as u64).collect()
    }

    fn reading(&self) -> Reading {
        let mut reading = Reading::of(&self.records);
        if let Some(lengths) = &self.lengths {
            reading.lengths = lengths.clone();
        }
        if let Some(rooms) = self.rooms {
            reading.rooms = rooms;
        }
        reading
    }
}

/// Runs that are accepted.
fn states() -> Vec<Vec<Vec<u8>>> {
    let numbers: Vec<u64> = (0..12).map(|k: u64| k.wrapping_mul(0x0123_4567_89ab_cdef)).collect();
    let line = |order: u8, points: usize| record(order, &numbers[..2 * points]);
    vec![
        vec![line(1, 0)],
        vec![line(0, 1)],
        vec![line(1, 3), line(0, 2)],
        vec![line(0, 6), line(1, 0), line(1, 1)],
        vec![record_of(1002, 1, &numbers[..6])],
        vec![record_of(2002, 0, &numbers[..9]), record_of(2002, 1, &numbers[..3])],
        vec![record_of(3002, 1, &numbers), record_of(3002, 0, &[]), record_of(3002, 0, &numbers)],
    ]
}

/// What can be wrong with the lengths, of a run that is otherwise `run`.
fn lengths_wrong() -> Vec<Damage> {
    type Lengths = fn(&mut Vec<u64>);
    let changes: [(&str, Lengths); 7] = [
        ("a length one more", |l| l[0] += 1),
        ("a length one off", |l| l[0] ^= 1),
        ("a length of 2^64 - 1", |l| l[0] = u64::MAX),
        ("one length more", |l| l.push(1)),
        ("no last length", |l| {
            // One of 0 would not be missed.
            if l.pop() == Some(0) {
                l.push(5);
            }
        }),
        ("a sum that wraps to the run's length", |l| l.extend([u64::MAX, 1])),
        ("many that wrap", |l| l.extend([1 << 63, 1 << 63])),
    ];
    let of = |&(name, change): &(&str, Lengths)| {
        damage(Place::Lengths, 13, name.to_string(), move |run| {
            let mut lengths = run.lengths.clone().unwrap_or_else(|| run.lengths());
            change(&mut lengths);
            run.lengths = Some(lengths);
        })
    };
    changes.iter().map(of).collect()
}

/// What can be wrong with record k.
fn record_wrong(k: usize) -> Vec<Damage> {
    let mut all = Vec::new();
    let mut add = |test, refusal, name: String, apply: Change| {
        let name = format!("record {k}: {name}");
        let apply = move |run: &mut Run| apply(&mut run.records[k]);
        all.push(damage(Place::Record(k, test), refusal, name, apply));
    };
    for length in [0, 1, 5, 8] {
        let cut = move |record: &mut Vec<u8>| record.truncate(length);
        add(Test::Header, 13, format!("{length} bytes"), Box::new(cut));
    }
    for order in [2, 3, 0x80, 0xff] {
        let set = move |record: &mut Vec<u8>| record[0] = order;
        add(Test::Order, 11, format!("order {order}"), Box::new(set));
    }
    for wkb_type in [0, 1, 1001, 7, 0x0200, 0x8000_0002, 0x2000_0002, 0x0200_0000, 4002, u32::MAX] {
        let set = move |record: &mut Vec<u8>| set_type(record, wkb_type);
        add(Test::Type, 12, format!("type {wkb_type:#x}"), Box::new(set));
    }
    if k > 0 {
        // Another type of the four, of as many numbers or of others.
        for more in 1..4 {
            let set = move |record: &mut Vec<u8>| {
                let place = TYPES.iter().position(|&known| known == type_of(record));
                set_type(record, TYPES[(place.unwrap_or(0) + more) % 4]);
            };
            add(Test::Mixed, 25, format!("the type {more} on"), Box::new(set));
        }
    }
    for (count, name) in [(1u32, "count one more"), (u32::MAX, "count one less")] {
        let set = move |record: &mut Vec<u8>| {
            let four = [record[5], record[6], record[7], record[8]];
            let bytes = match record[0] {
                0 => u32::from_be_bytes(four).wrapping_add(count).to_be_bytes(),
                _ => u32::from_le_bytes(four).wrapping_add(count).to_le_bytes(),
            };
            record[5..9].copy_from_slice(&bytes);
        };
        add(Test::Count, 13, name.to_string(), Box::new(set));
    }
    for bytes in [1, 7, 8, 15, 16, 24, 32] {
        let more = move |record: &mut Vec<u8>| record.extend(vec![0; bytes]);
        add(Test::Count, 13, format!("{bytes} bytes more"), Box::new(more));
    }
    all
}

/// The type in a record's header.
fn type_of(record: &[u8]) -> u32 {
    let four = [record[1], record[2], record[3], record[4]];
    match record[0] {
        0 => u32::from_be_bytes(four),
        _ => u32::from_le_bytes(four),
    }
}

/// Sets the type in a record's header.
fn set_type(record: &mut [u8], wkb_type: u32) {
    let bytes = match record[0] {
        0 => wkb_type.to_be_bytes(),
        _ => wkb_type.to_le_bytes(),
    };
    record[1..5].copy_from_slice(&bytes);
}

/// Which rooms can be short; a room that needs nothing can't.
fn rooms_wrong() -> Vec<Damage> {
    type Rooms = fn([usize; 3]) -> [usize; 3];
    let changes: [(&str, Rooms); 5] = [
        ("coordinates short by one", |[c, n, t]| [c.saturating_sub(1), n, t]),
        ("no room for coordinates", |[_, n, t]| [0, n, t]),
        ("counts short by one", |[c, n, t]| [c, n - 1, t]),
        ("no room for counts", |[c, _, t]| [c, 0, t]),
        ("no room for the type", |[c, n, _]| [c, n, 0]),
    ];
    let of = |&(name, change): &(&str, Rooms)| {
        damage(Place::Rooms, 14, name.to_string(), move |run| {
            let rooms = run.rooms.unwrap_or_else(|| Reading::of(&run.records).rooms);
            run.rooms = Some(change(rooms));
        })
    };
    changes.iter().map(of).collect()
}

/// Every damage to a run.
fn damages(records: &[Vec<u8>]) -> Vec<Damage> {
    let numbers = Reading::of(records).rooms[0];
    let needs = move |damage: &Damage| numbers > 0 || !damage.name.contains("coordinates");
    let mut all = lengths_wrong();
    (0..records.len()).for_each(|k| all.extend(record_wrong(k)));
    all.extend(rooms_wrong().into_iter().filter(needs));
    all
}

/// The call with the damages. Those that are judged first are done last, so that none is undone.
fn damaged(records: &[Vec<u8>], damages: &mut [&Damage]) -> Reading {
    damages.sort_by_key(|damage| Reverse(damage.place));
    let mut run = Run::of(records.to_vec());
    let (rooms, others): (Vec<&Damage>, Vec<&Damage>) =
        damages.iter().partition(|damage| damage.place == Place::Rooms);
    let (lengths, records): (Vec<&Damage>, Vec<&Damage>) =
        others.iter().partition(|damage| damage.place == Place::Lengths);
    for damage in records.iter().chain(&lengths).chain(&rooms) {
        (damage.apply)(&mut run);
    }
    run.reading()
}

#[test]
fn undamaged_runs_are_accepted_in_rooms_of_any_length_from_theirs_up() {
    for records in states() {
        for more in [0, 1, 9] {
            let mut reading = Reading::of(&records);
            reading.rooms = reading.rooms.map(|length| length + more);
            assert_eq!(reading.agreed().map(|read| read.counts.len()), Ok(records.len()));
        }
    }
}

#[test]
fn every_damage_from_every_state() {
    for records in states() {
        for damage in damages(&records) {
            let reading = damaged(&records, &mut [&damage]);
            assert_eq!(reading.agreed(), Err(damage.refusal), "{}", damage.name);
        }
    }
}

#[test]
fn every_pair_of_damages_is_refused_by_the_first_that_is_judged() {
    for records in states() {
        let all = damages(&records);
        for (k, one) in all.iter().enumerate() {
            for other in &all[..k] {
                if one.place == other.place {
                    continue;
                }
                let reading = damaged(&records, &mut [one, other]);
                let first = if one.place < other.place { one } else { other };
                let names = format!("{} and {}", one.name, other.name);
                assert_eq!(reading.agreed(), Err(first.refusal), "{names}");
            }
        }
    }
}

#[test]
fn lengths_at_the_edges() {
    let line = record(1, &[]);
    for (run, lengths, wanted) in [
        (vec![], vec![], Ok(0)),
        (vec![], vec![0], Err(13)),
        (line.clone(), vec![], Err(13)),
        (line.clone(), vec![0], Err(13)),
        (line.clone(), vec![8], Err(13)),
        (line.clone(), vec![9], Ok(1)),
        (line.clone(), vec![10], Err(13)),
        (line.clone(), vec![0, 9], Err(13)),
        (line.clone(), vec![9, 0], Err(13)),
        (line.clone(), vec![u64::MAX], Err(13)),
        (line.clone(), vec![u64::MAX, 10], Err(13)),
        (line.clone(), vec![9, u64::MAX, 1], Err(13)),
        ([line.clone(), line].concat(), vec![9, 9], Ok(2)),
    ] {
        let rooms = [0, lengths.len(), 1];
        let reading = Reading { run, lengths, rooms };
        assert_eq!(reading.agreed().map(|read| read.counts.len()), wanted, "{reading:?}");
    }
}

#[test]
fn no_records_are_of_type_two_and_need_room_for_it() {
    let none = |types| Reading { run: vec![], lengths: vec![], rooms: [0, 0, types] };
    assert_eq!(none(1).agreed().map(|read| read.wkb_type), Ok(2));
    assert_eq!(none(3).agreed().map(|read| read.wkb_type), Ok(2));
    assert_eq!(none(0).agreed(), Err(14));
}

#[test]
fn a_run_has_the_type_of_its_first_record() {
    for first in TYPES {
        let mut records = vec![record_of(first, 0, &[]), record_of(first, 1, &[])];
        assert_eq!(Reading::of(&records).agreed().map(|read| read.wkb_type), Ok(first));
        for second in TYPES {
            set_type(&mut records[1], second);
            let wanted = if first == second { Ok(2) } else { Err(25) };
            let agreed = Reading::of(&records).agreed();
            assert_eq!(agreed.map(|read| read.counts.len()), wanted, "{first} {second}");
        }
        // What is no type is 12 and never 25, in whichever record, and 25 comes before a wrong length.
        set_type(&mut records[1], 5);
        assert_eq!(Reading::of(&records).agreed(), Err(12));
        records.swap(0, 1);
        assert_eq!(Reading::of(&records).agreed(), Err(12));
        let mut other = record_of(if first == 2 { 3002 } else { 2 }, 1, &[]);
        other.push(0);
        assert_eq!(Reading::of(&[record_of(first, 0, &[]), other]).agreed(), Err(25));
    }
}

#[test]
fn a_count_whose_bytes_pass_32_bits_is_not_taken_for_a_small_one() {
    for count in [0x1000_0000, 0x1000_0001, 0x8000_0000, u32::MAX] {
        let mut bytes = record(1, &[1, 2]);
        bytes[5..9].copy_from_slice(&u32::to_le_bytes(count));
        assert_eq!(Reading::of(&[bytes]).agreed(), Err(13), "{count:#x}");
    }
}

#[test]
fn a_record_is_as_long_as_its_type_says() {
    let numbers = [7u64; 12];
    for (wkb_type, counts) in [(2, 6), (1002, 4), (2002, 4), (3002, 3)] {
        let read = Reading::of(&[record_of(wkb_type, 1, &numbers)]).agreed();
        assert_eq!(read.map(|read| read.counts), Ok(vec![counts]));
        // Twelve numbers with the count of another width.
        for count in [3, 4, 6].into_iter().filter(|&count| count != counts as u8) {
            let mut bytes = record_of(wkb_type, 1, &numbers);
            bytes[5] = count;
            assert_eq!(Reading::of(&[bytes]).agreed(), Err(13), "{wkb_type} {count}");
        }
    }
}

#[test]
fn there_is_no_limit_on_the_number_of_records() {
    let records = vec![record(0, &[]); 70_000];
    let read = Reading::of(&records).agreed().expect("empty lines");
    assert_eq!(read.counts, vec![0; 70_000]);
}
