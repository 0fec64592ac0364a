//! Towns, coasts, forest roads and rings, of real size.

use answers::random::Random;
use answers::styles::regions::{coast, REGIONS};
use answers::styles::stars::star;
use answers::BuildCall;
use compare::large::{hold, wanted};
use compare::lent::{coordinates, lines, settings};
use compare::Judge;
use lovasuku_chains::large::{Cores, Fault, Rooms, Way};

/// Tolerances and limits: none, one below and one above what lies between ends, and all switches.
const TOLERANCES: [f64; 3] = [0.0, 1.0, 60.0];
const LIMITS: [Option<f64>; 3] = [None, Some(-0.5), Some(1.0)];

/// Joins a region by every tolerance and limit, in given ways, and holds it to the judge.
fn compare(name: &str, region: &BuildCall, ways: &[Way]) {
    let (judge, _) = Judge::find();
    let mut rooms = Rooms::default();
    for tolerance in TOLERANCES {
        for limit in LIMITS {
            let call = with_settings(region, tolerance, limit);
            let wanted = wanted(judge, &call);
            let coordinates = coordinates(&call);
            for way in ways {
                let in_this = |fault: String| {
                    format!("{name}, tolerance {tolerance}, limit {limit:?}, {way:?}: {fault}")
                };
                let joined = rooms.build_by(lines(&call, &coordinates), settings(&call), *way);
                let held = joined
                    .map_err(|fault| fault.to_string())
                    .and_then(|joined| hold(&joined, &wanted));
                held.map_err(in_this).unwrap();
            }
        }
    }
}

fn with_settings(region: &BuildCall, tolerance: f64, limit: Option<f64>) -> BuildCall {
    BuildCall {
        tolerance: tolerance.to_bits(),
        switch: u8::from(limit.is_some()),
        limit: limit.unwrap_or(f64::NAN).to_bits(),
        ..region.clone()
    }
}

/// Ways on all cores and on one, alone and with neighbours.
fn ways() -> [Way<'static>; 3] {
    let usual = Way { boxes: true, ..Way::default() };
    [usual, Way { cores: Cores::One, batch: 2_048, ..usual }, Way { neighbours: true, ..usual }]
}

#[test]
fn regions_of_thousands_of_lines() {
    for (name, make) in REGIONS {
        for lines in [3_000, 30_000] {
            compare(name, &make(&mut Random::new(lines as u64), lines), &ways());
        }
    }
}

/// A million lines: `cargo test --release -p compare --test large -- --ignored`.
#[test]
#[ignore]
fn regions_of_a_million_lines() {
    for (name, make) in REGIONS {
        compare(name, &make(&mut Random::new(7), 1_000_000), &ways()[..1]);
    }
}

#[test]
fn a_coast_of_one_chain() {
    let region = coast(&mut Random::new(3), 20_000);
    assert_eq!(region.coordinates.len(), 2 * 220_000);
    compare("coast", &region, &ways());
    let coordinates = coordinates(&region);
    let mut rooms = Rooms::default();
    let joined = rooms.build(lines(&region, &coordinates), settings(&region)).unwrap();
    assert_eq!((joined.chains().len(), joined.laid()), (1, &[0][..]));
    assert_eq!(joined.calls(), 0);
}

#[test]
fn stars_of_as_many_ends_as_can_be_paired() {
    let (judge, _) = Judge::find();
    let mut rooms = Rooms::default();
    for ends in [40, 700, 8_192] {
        let star = star(&mut Random::new(ends as u64), ends);
        // The model looks at all pairs.
        let limits = if ends < 1_000 { &LIMITS[..] } else { &LIMITS[..1] };
        for &limit in limits {
            let call = with_settings(&star, 0.0, limit);
            let coordinates = coordinates(&call);
            for way in ways() {
                let joined = rooms.build_by(lines(&call, &coordinates), settings(&call), way);
                hold(&joined.unwrap(), &wanted(judge, &call)).unwrap();
            }
        }
    }
}

#[test]
fn more_ends_than_can_be_paired_are_a_fault_with_their_place() {
    let mut call = BuildCall::default();
    for k in 0..8_193 {
        call.push_plain(&[(7.0, 8.0), (k as f64, 1e4)]);
    }
    let coordinates = coordinates(&call);
    let mut rooms = Rooms::default();
    let strict = rooms.build(lines(&call, &coordinates), settings(&call)).unwrap();
    assert_eq!(strict.chains().len(), 8_193);
    let paired = with_settings(&call, 0.0, Some(-0.5));
    let fault = rooms.build(lines(&call, &coordinates), settings(&paired)).unwrap_err();
    assert_eq!(fault, Fault::Crowded { ends: 8_193, place: [7.0, 8.0], group: 0 });
    // Of one end less there is no fault.
    let short = lovasuku_chains::Lines {
        coordinates: &coordinates[4..],
        counts: &call.counts[1..],
        groups: &call.groups[1..],
        kinds: &call.kinds[1..],
        ..lines(&call, &coordinates)
    };
    assert!(rooms.build(short, settings(&paired)).is_ok());
}
