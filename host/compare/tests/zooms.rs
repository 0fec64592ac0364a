//! Building in two calls: recorded networks at five tolerances, every clause of 19 alone and in pairs, and pieces
//! that are lent otherwise than round one left them.

use answers::format::Recorded;
use answers::model::parting::{finished, forbidden, left, Forbidden};
use answers::random::Random;
use answers::replay::{load, FILES};
use answers::styles::heights::with_extras;
use answers::styles::parting::{broken, laid_out, made, BREAKS, WAYS};
use answers::styles::{networks, BUILDING};
use answers::{BuildCall, FinishCall, TYPES};
use compare::building::BuildRooms;
use compare::zooms::{compare_finish, FinishRooms, FirstRooms};
use compare::{Door, Library};
use std::collections::{BTreeMap, BTreeSet};

const TOLERANCES: [f64; 5] = [0.0, 0.25, 1.0, 2.5, 10.0];

/// What the library leaves of round one, as a call of the second: nothing where it refuses.
fn first(call: &BuildCall, seed: u64) -> Option<FinishCall> {
    let mut rooms = FirstRooms::new(&mut Random::new(seed), FirstRooms::lengths(call));
    let k = Library.first(call, &mut rooms);
    let bits = |room: &mut [f64]| room.iter().map(|x| x.to_bits()).collect();
    (k >= 0).then(|| FinishCall {
        lines: call.clone(),
        pieces: answers::Pieces {
            records: rooms.pieces.lent().to_vec(),
            members: rooms.members.lent().to_vec(),
            marks: rooms.marks.lent().to_vec(),
            listing: rooms.listing.lent().to_vec(),
            merged: bits(rooms.merged.lent()),
            k: k as u64,
        },
    })
}

/// All that two calls write, the one that builds and the one that finishes what the library left: bit for bit.
fn assert_alike(call: &BuildCall, finish: &FinishCall, seed: u64, name: &str) {
    let mut one = BuildRooms::new(&mut Random::new(seed), BuildRooms::lengths(call));
    let mut two = FinishRooms::new(&mut Random::new(seed), FinishRooms::lengths(call));
    let chains = Library.build(call, &mut one);
    assert_eq!(Library.finish(finish, &mut two), chains, "{name}\n{call}");
    let (chains, n) = (chains as usize, call.lines());
    let bits = |room: &[f64]| -> Vec<u64> { room.iter().map(|x| x.to_bits()).collect() };
    assert_eq!(one.table.lent()[..6 * chains], two.table.lent()[..6 * chains], "{name}\n{call}");
    assert_eq!(one.members.lent()[..n], two.members.lent()[..n], "{name}\n{call}");
    assert_eq!(one.marks.lent()[..n], two.marks.lent()[..n], "{name}\n{call}");
    assert_eq!(one.listing.lent()[..n], two.listing.lent()[..n], "{name}\n{call}");
    let merged = |table: &[u32]| {
        let last = table.chunks(6).rev().find(|record| record[2] == 1);
        last.map_or(0, |record| (record[3] + record[4]) as usize) * call.stride()
    };
    let merged = merged(&one.table.lent()[..6 * chains]);
    assert_eq!(bits(&one.merged.lent()[..merged]), bits(&two.merged.lent()[..merged]), "{name}");
    let boxes =
        4 * std::iter::successors(Some(chains), |&k| (k > 1).then(|| (k + 1) / 2)).sum::<usize>();
    assert_eq!(bits(&one.boxes.lent()[..boxes]), bits(&two.boxes.lent()[..boxes]), "{name}");
}

#[test]
fn recorded_networks_at_five_tolerances() {
    let mut pairs = 0;
    for name in FILES {
        let entries = match load(name).expect("the file is read") {
            Recorded::Building(entries) => entries,
            Recorded::Pairing(_) => continue,
        };
        for (number, (call, _)) in entries.iter().enumerate() {
            let mut finish = match first(call, number as u64) {
                Some(finish) => finish,
                None => continue,
            };
            for tolerance in TOLERANCES {
                let tolerance = tolerance.to_bits();
                finish.lines = BuildCall { tolerance, origin: [0; 2], ..call.clone() };
                assert_alike(&finish.lines, &finish, number as u64, &format!("{name} {number}"));
                pairs += 1;
            }
        }
    }
    assert!(pairs > 5 * 30_000, "{pairs}");
}

#[test]
fn the_first_s_pieces_are_the_model_s_and_pass() {
    let mut random = Random::new(91);
    for (name, make) in BUILDING {
        for size in [0, 1, 2, 5, 9, 40].repeat(20) {
            let call = make(&mut random, size);
            if call.refusal().is_none() {
                let pieces = left(&call);
                let finish = FinishCall { lines: call, pieces };
                assert_eq!(forbidden(&finish), [], "{name}\n{finish}");
                assert_eq!(compare_finish(&Library, &finish, 2), Ok(None), "{name}\n{finish}");
            }
        }
    }
}

/// Lines in pieces of one and of several, of two groups, some that pass through, with room for more coordinates.
fn base(random: &mut Random, wkb_type: u32) -> FinishCall {
    let mut call = networks::roads(random, 12);
    call.tolerance = 1f64.to_bits();
    call.origin = [0; 2];
    call.push_plain(&[(90.0, 90.0), (91.0, 90.0)]);
    call.push_plain(&[(91.0, 90.0), (92.0, 90.0), (93.0, 90.0)]);
    call.push_plain(&[(99.0, 99.0), (98.0, 99.0)]);
    call.push(&[[0, 0], [0, 0], [0, 0]], 1, 1);
    let call = match wkb_type {
        2 => call,
        _ => with_extras(random, &call, wkb_type),
    };
    laid_out(random, call.clone(), &made(&call), false)
}

#[test]
fn each_clause_of_19_alone() {
    let mut random = Random::new(92);
    let mut met: BTreeMap<&str, usize> = BTreeMap::new();
    for round in 0..60 {
        let call = base(&mut random, TYPES[round % 4]);
        assert_eq!(compare_finish(&Library, &call, 3), Ok(None), "{call}");
        for (name, breaks) in BREAKS {
            let mut call = call.clone();
            if !breaks(&mut random, &mut call) {
                continue;
            }
            let clauses = forbidden(&call);
            if let Some(clause) = broken(name) {
                // A line exchanged within its piece breaks nothing.
                assert!(
                    clauses.contains(&clause) || name.contains("exchanged"),
                    "{name}: {clauses:?}\n{call}"
                );
            } else if name != "a first number that is the greatest" {
                assert_eq!(clauses, [], "{name}\n{call}");
            }
            let compared = compare_finish(&Library, &call, round as u64);
            assert!(compared.is_ok(), "{name}: {compared:?}\n{call}");
            *met.entry(name).or_default() += usize::from(!clauses.is_empty());
        }
    }
    let broken_names = BREAKS.iter().filter(|(name, _)| broken(name).is_some());
    for (name, _) in broken_names {
        assert!(met.get(name).map_or(false, |&times| times > 20), "{name}: {met:?}");
    }
}

#[test]
fn clauses_of_19_in_pairs() {
    let mut random = Random::new(93);
    let mut pairs: BTreeSet<[Forbidden; 2]> = BTreeSet::new();
    for round in 0..8 {
        let call = base(&mut random, TYPES[round % 4]);
        for (name, one) in BREAKS {
            for (other_name, other) in BREAKS {
                let mut call = call.clone();
                if one(&mut random, &mut call) && other(&mut random, &mut call) {
                    let compared = compare_finish(&Library, &call, round as u64);
                    assert!(compared.is_ok(), "{name}, {other_name}: {compared:?}\n{call}");
                    let clauses = forbidden(&call);
                    let two = clauses.iter().flat_map(|&a| clauses.iter().map(move |&b| [a, b]));
                    pairs.extend(two.filter(|[a, b]| a < b));
                }
            }
        }
    }
    // Of the fourteen clauses, the records' hides all others; of 13 times 12 / 2 pairs nearly all are met.
    assert!(pairs.len() >= 70, "{}: {pairs:?}", pairs.len());
}

#[test]
fn pieces_lent_otherwise_pass() {
    let mut random = Random::new(94);
    let mut passed: BTreeMap<&str, usize> = BTreeMap::new();
    for round in 0..400 {
        let (_, make) = random.pick(&BUILDING[..6]);
        let lines = 2 + random.below(12);
        let mut call = make(&mut random, lines);
        if call.refusal().is_some() {
            continue;
        }
        if random.one_in(3) {
            let wkb_type = random.pick(&TYPES[1..]);
            call = with_extras(&mut random, &call, wkb_type);
        }
        call.tolerance = random.pick(&[0f64, 0.5, 1.0, 4.0]).to_bits();
        for (name, way) in WAYS {
            let mut pieces = made(&call);
            if way(&mut random, &call, &mut pieces) {
                let loose = random.one_in(2);
                let finish = laid_out(&mut random, call.clone(), &pieces, loose);
                assert_eq!(forbidden(&finish), [], "{name}\n{finish}");
                assert_eq!(compare_finish(&Library, &finish, round), Ok(None), "{name}\n{finish}");
                *passed.entry(name).or_default() += 1;
            }
        }
    }
    assert!(WAYS.iter().all(|(name, _)| passed.get(name).map_or(false, |&n| n > 40)), "{passed:?}");
}

#[test]
fn what_round_two_leaves_alone_stays_as_it_was_lent() {
    // Two lines as a piece of three coordinates that repeat one another, turned though round one turned none.
    let mut call = BuildCall { tolerance: 1f64.to_bits(), ..BuildCall::default() };
    call.push_plain(&[(0.0, 0.0), (5.0, 0.0)]);
    call.push_plain(&[(5.0, 0.0), (9.0, 0.0)]);
    let mut pieces = made(&call);
    let place = |x: f64| [x.to_bits(), 7f64.to_bits()];
    pieces[0].numbers = [place(1.0), place(1.0), place(2.5)].concat();
    pieces[0].marks = vec![1, 0];
    pieces[0].listing = vec![1, 0];
    let finish = laid_out(&mut Random::new(1), call, &pieces, false);
    let built = finished(&finish, false).expect("it passes");
    assert_eq!(built.table, [[0, 2, 1, 0, 3, 0]]);
    assert_eq!((&built.marks[..], &built.listing[..]), (&[1, 0][..], &[1, 0][..]));
    assert_eq!(built.merged, pieces[0].numbers);
    assert_eq!(compare_finish(&Library, &finish, 1), Ok(None));
}
