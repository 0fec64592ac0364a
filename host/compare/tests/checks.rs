//! Deliveries of chains by the ten thousand, held to a trial of every choice of directions; what was recorded
//! and what the library builds is accepted; batches judge as one call does.

use answers::format::Recorded;
use answers::model::acceptable::{judged, Clause, Meeting, Verdict};
use answers::model::plane::Point;
use answers::random::Random;
use answers::replay::{load, FILES};
use answers::styles::deliveries::{ambiguous, as_built, delivered, laid_out};
use answers::styles::{heights, BUILDING};
use answers::{BuildCall, CheckCall, TYPES};
use compare::checks::compare_check;
use compare::room::{Dirt, Room};
use compare::{Door, Library};
use lovasuku_chains::large::{self, Capacity};
use lovasuku_chains::{Delivered, Dimension, Lines, Refusal, Settings};
use std::collections::BTreeMap;

/// A delivery of up to ten lines: of few points, or of a style of building.
fn small(random: &mut Random) -> (&'static str, CheckCall) {
    let lines = random.below(11);
    if random.one_in(2) {
        return ambiguous(random, lines);
    }
    let (_, make) = random.pick(&BUILDING);
    let mut call = make(random, lines);
    if random.one_in(3) {
        call.tolerance = random.pick(&[0.25f64, 1.0, 8.0]).to_bits();
    }
    if random.one_in(3) {
        let wkb_type = random.pick(&TYPES[1..]);
        call = heights::with_extras(random, &call, wkb_type);
    }
    delivered(random, call)
}

/// Compares so many deliveries, and counts what was done to them and what was answered.
fn compared(deliveries: usize, seed: u64) -> BTreeMap<(&'static str, &'static str), usize> {
    let mut random = Random::new(seed);
    let mut tally = BTreeMap::new();
    for k in 0..deliveries {
        let (name, call) = small(&mut random);
        match compare_check(&Library, &call, k as u64) {
            Ok(verdict) => *tally.entry((name, verdict.name())).or_default() += 1,
            Err(sentence) => panic!("delivery {k} of seed {seed}, {name}: {sentence}\n{call}"),
        }
    }
    tally
}

#[test]
fn every_variant_of_contractors_in_small_deliveries() {
    let tally = compared(20_000, 121);
    let times = |name: &str, verdict: &str| {
        let of =
            tally.iter().filter(|((each, told), _)| *each == name && told.starts_with(verdict));
        of.map(|(_, times)| times).sum::<usize>()
    };
    for either in [
        "reversed",
        "joined",
        "a line the other way",
        "laid another way",
        "a zero's sign",
        "ambiguous",
    ] {
        assert!(times(either, "accepted") > 20 && times(either, "24") > 20, "{either}: {tally:?}");
    }
    assert!(times("cut", "accepted") > 50 && times("built", "accepted") > 100, "{tally:?}");
    for refused in ["a line twice", "there and back", "a chain left out", "a coordinate less"] {
        assert!(times(refused, "24") > 50, "{refused}: {tally:?}");
    }
    assert!(tally.iter().filter(|((_, told), _)| *told == "23").count() > 5, "{tally:?}");
}

#[test]
#[ignore = "takes minutes"]
fn a_million_small_deliveries() {
    let tally = compared(1_000_000, 2026);
    let mut verdicts: BTreeMap<&str, usize> = BTreeMap::new();
    tally.iter().for_each(|((_, told), times)| *verdicts.entry(*told).or_default() += times);
    println!("{verdicts:?}");
}

/// The trial of every choice and the search forward, which judges chains of more lines, agree.
#[test]
fn both_judges_agree() {
    let mut random = Random::new(122);
    let mut accepted = 0;
    for _ in 0..20_000 {
        let mut point = || -> Point {
            [random.pick(&[0f64, -0.0, 1.0]).to_bits(), random.pick(&[0f64, 0.5]).to_bits()]
        };
        let runs: Vec<Vec<Point>> =
            (0..5).map(|k| (0..2 + k % 3).map(|_| point()).collect()).collect();
        let mut points: Vec<Point> = Vec::new();
        for run in &runs {
            let mut run = run.clone();
            if random.one_in(2) {
                run.reverse();
            }
            points.extend(run);
        }
        let wanted = answers::model::acceptable::end_to_end(&points);
        let tolerance = random.pick(&[0.0, 0.5, 2.0]);
        let meeting = Meeting { tolerance, origin: [0; 2] };
        let (tried, followed) = (meeting.tried(&runs, &wanted), meeting.followed(&runs, &wanted));
        assert_eq!(tried.is_none(), followed.is_none(), "{runs:?} {wanted:?} {tolerance}");
        assert!(
            tried.map_or(true, |clause| [Clause::Meeting, Clause::Coordinates].contains(&clause))
        );
        accepted += usize::from(tried.is_none());
    }
    assert!((1_000..19_000).contains(&accepted), "{accepted}");
}

/// The answer to a delivery of chains.
fn asked(call: &CheckCall, seed: u64) -> i64 {
    let length = 192 * call.lines.lines();
    let mut workspace = Room::new(Dirt::some(&mut Random::new(seed)), length);
    Library.check(call, &mut workspace)
}

#[test]
fn every_recorded_answer_is_accepted() {
    let mut accepted = 0;
    for name in FILES {
        let entries = match load(name).expect("the file is read") {
            Recorded::Building(entries) => entries,
            Recorded::Pairing(_) => continue,
        };
        for (number, (call, answer)) in entries.iter().enumerate() {
            if let Ok(built) = answer {
                let table = built.table.concat();
                let k = built.table.len() as u64;
                let (listing, merged) = (built.listing.clone(), built.merged.clone());
                let chains = CheckCall { lines: call.clone(), table, k, listing, merged };
                assert_eq!(asked(&chains, number as u64), 0, "{name}, call {number}\n{chains}");
                accepted += 1;
            }
        }
    }
    assert!(accepted > 30_000, "{accepted}");
}

/// What building makes of large networks, and the same cut, turned and with a bit changed in the last chain.
#[test]
fn large_networks() {
    let mut random = Random::new(123);
    for (name, make) in BUILDING {
        let mut lines = make(&mut random, 2_048);
        if lines.refusal().is_some() {
            continue;
        }
        lines.tolerance = random.pick(&[0f64, 1.0]).to_bits();
        let mut chains = as_built(&lines, &answers::model::built(&lines));
        let call = laid_out(&mut Random::new(1), lines.clone(), &chains);
        assert_eq!(judged(&call, 192 * 4_096), Verdict::Accepted, "{name}");
        assert_eq!(asked(&call, 1), 0, "{name}");
        let last = chains.iter_mut().rev().find(|chain| !chain.numbers.is_empty());
        last.expect("there are coordinates").numbers[0] ^= 1;
        let call = laid_out(&mut Random::new(1), lines, &chains);
        assert_eq!(asked(&call, 1), -24, "{name}");
    }
}

/// The verdict of the safe crate in batches of few lines.
fn in_batches(call: &CheckCall, capacity: Capacity) -> Result<Vec<u32>, Refusal> {
    let floats = |bits: &[u64]| -> Vec<f64> { bits.iter().map(|&b| f64::from_bits(b)).collect() };
    let BuildCall { wkb_type, counts, groups, kinds, tolerance, origin, .. } = &call.lines;
    let (coordinates, merged) = (floats(&call.lines.coordinates), floats(&call.merged));
    let dimension = Dimension::of_wkb_type(*wkb_type).expect("the type is one");
    let lines = Lines { dimension, coordinates: &coordinates, counts, groups, kinds };
    let chains = Delivered { table: &call.table, listing: &call.listing, merged: &merged };
    let settings = Settings {
        tolerance: f64::from_bits(*tolerance),
        origin: origin.map(f64::from_bits),
        limit: None,
    };
    large::check(lines, chains, settings, capacity)
}

#[test]
fn batches_judge_as_one_call_does() {
    let mut random = Random::new(124);
    let (mut verdicts, mut beyond) = ([0; 3], 0);
    for _ in 0..4_000 {
        let (_, make) = random.pick(&BUILDING[1..6]);
        let lines = 20 + random.below(30);
        let lines = make(&mut random, lines);
        let (name, call) = delivered(&mut random, lines);
        if call.table.len() as u64 != 6 * call.k {
            continue;
        }
        let one = judged(&call, usize::MAX).refusal();
        match in_batches(&call, Capacity { lines: 12, points: 60 }) {
            Err(refusal) => {
                let number = one.map_or_else(|refusal| i64::from(refusal.0), |()| 0);
                assert_eq!(refusal.number(), number, "{name}\n{call}");
                verdicts[if refusal == Refusal::NotAcceptable { 1 } else { 2 }] += 1;
            }
            Ok(chains) => {
                assert_eq!(one, Ok(()), "{name}\n{call}");
                verdicts[0] += 1;
                beyond += usize::from(!chains.is_empty());
            }
        }
    }
    assert!(verdicts.iter().all(|&times| times > 20) && beyond > 20, "{verdicts:?} {beyond}");
}
