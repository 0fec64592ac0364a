//! The model against the oracle, where there is one.

use answers::model::plane::direction;
use answers::model::Model;
use answers::random::Random;
use answers::replay::{load, replay, FILES};
use answers::styles::{wild, Style, BUILDING, PAIRING};
use answers::{BuildCall, Port, Route};
use oracle::Oracle;

/// The sizes that are tried, about the boundaries.
const SIZES: [usize; 9] = [1, 2, 3, 5, 9, 31, 32, 33, 70];

/// The oracle, or none with a line that says so.
fn oracle() -> Option<Oracle> {
    let oracle = Oracle::find();
    if let Err(reason) = oracle {
        println!("live comparison skipped: {reason}");
    }
    oracle.ok()
}

#[test]
fn the_oracle_answers_as_recorded() {
    if let Some(mut oracle) = oracle() {
        for name in FILES {
            let replayed = load(name).and_then(|recorded| replay(&mut oracle, &recorded));
            assert!(replayed.is_ok(), "{name}: {replayed:?}");
        }
    }
}

/// Makes calls of every style and size, from a seed.
fn each_call<C>(styles: &[Style<C>], seed: u64, mut test: impl FnMut(&'static str, C)) {
    let mut random = Random::new(seed);
    for (name, make) in styles {
        for size in SIZES.repeat(20) {
            test(name, make(&mut random, size));
        }
    }
}

#[test]
fn the_model_builds_as_the_oracle_does() {
    if let Some(mut oracle) = oracle() {
        let far: [Style<BuildCall>; 1] = [("far", wild::far)];
        each_call(&[&BUILDING[..], &far].concat(), 101, |name, call| {
            assert_eq!(Model.build(&call), oracle.build(&call), "{name}\n{call}");
        });
    }
}

#[test]
fn the_model_selects_as_every_route_of_the_oracle() {
    if let Some(mut oracle) = oracle() {
        each_call(&PAIRING, 102, |name, call| {
            let pairs = Model.pairs(Route::Plain, &call);
            for &route in Route::for_call(&call) {
                assert_eq!(pairs, oracle.pairs(route, &call), "{name}, {route:?}\n{call}");
            }
        });
    }
}

#[test]
fn the_model_directs_as_the_oracle_does() {
    let mut random = Random::new(103);
    if let Some(oracle) = oracle() {
        for (name, make) in BUILDING {
            let call = make(&mut random, 200);
            for (line, first) in call.firsts().into_iter().enumerate() {
                let points = call.points(line, first);
                for end in 0..if points.is_empty() { 0 } else { 2 } {
                    let bits = |(x, y): (f64, f64)| (rank(x), rank(y));
                    let model = direction(&points, end).map(bits);
                    let judge = oracle.direction(&points, end).map(bits);
                    assert_eq!(model, judge, "{name}, line {line}, end {end}\n{call}");
                }
            }
        }
    }
}

/// The bits of a float, where all NaN are one.
fn rank(float: f64) -> u64 {
    match float.is_nan() {
        true => f64::NAN.to_bits(),
        false => float.to_bits(),
    }
}
