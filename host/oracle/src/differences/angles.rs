//! Angles at which junctions are not paired at all, and angles at which every pair qualifies.

use super::{both, junction};
use crate::Oracle;
use answers::random::Random;
use answers::styles::{Style, BUILDING, PAIRING};
use answers::{BuildCall, Route};

/// Calls per style, building and pairing.
const CALLS: usize = 2000;

/// The first of the pairing styles, which have finite directions alone.
const FINITE: usize = 7;

/// Angles that are the switch off.
const OFF: [f64; 5] = [0.0, -0.0, -1.0, f64::NEG_INFINITY, f64::NAN];

/// Angles that are limit 1.
const ALL: [f64; 4] = [180.0, 181.0, 1e300, f64::INFINITY];

/// Prints how many calls differ at each of these angles.
pub fn report(oracle: Oracle) {
    println!("# Angles that switch off and angles that let all qualify, {CALLS} calls per style");
    for angle in OFF {
        println!("angle {angle:?} against switch 0: {}", building(oracle, angle, (0, f64::NAN)));
    }
    for angle in ALL {
        println!("angle {angle:?} against limit 1: {}", building(oracle, angle, (1, 1.0)));
    }
    alone(oracle);
    println!("unedited routes against one another: {} of {}", routes(oracle), CALLS * FINITE);
}

/// How many building calls differ in their chains, style by style, of those whose coordinates are
/// all places.
fn building(oracle: Oracle, angle: f64, (switch, limit): (u8, f64)) -> String {
    let differ = |(name, make): Style<BuildCall>| {
        let mut random = Random::new(201);
        let mut differs = |size: usize| {
            let call = BuildCall { switch, limit: limit.to_bits(), ..make(&mut random, size) };
            let chains = || oracle.chains(&call) != oracle.unedited_chains(&call, angle);
            (!call.nowhere()).then(chains)
        };
        let compared: Vec<bool> = (0..CALLS).filter_map(|k| differs(k % 40)).collect();
        let count = compared.iter().filter(|&&differs| differs).count();
        format!("{name} {count} of {}", compared.len())
    };
    BUILDING.into_iter().map(differ).collect::<Vec<_>>().join(", ")
}

/// Prints what the original's pairing, called on its own, gives for four lines of two streets.
fn alone(oracle: Oracle) {
    let call = junction(&[(1.0, 0.0), (-1.0, 0.0), (0.0, 1.0), (1.0, 0.0)]);
    for angle in OFF.into_iter().chain(ALL) {
        let [_, unedited] = both(oracle, &call, (angle, 1.0));
        println!("pairing alone, (1,0) (-1,0) (0,1) (1,0), angle {angle:?}: {unedited:?}");
    }
}

/// The number of pairing calls of finite directions at which the unedited routes differ.
fn routes(oracle: Oracle) -> usize {
    let mut random = Random::new(203);
    let mut differ = 0;
    for (_, make) in &PAIRING[..FINITE] {
        for k in 0..CALLS {
            let call = make(&mut random, 32 + k % 40);
            let angle = random.pick(&[30.0, 60.0, 90.0, 180.0]);
            let by = |route| oracle.unedited_pairs(route, &call, angle);
            differ += usize::from(by(Route::Plain) != by(Route::Indexed));
        }
    }
    differ
}
