//! Which measures the original accepts at an angle.

use super::{settings, Setting};
use crate::Oracle;
use answers::random::Random;

/// Angles about the least that accepts more than an exactly straight pair.
const ANGLES: [f64; 3] = [1e-9, 8e-7, 9e-7];

/// Neighbouring dot products that are held against one another, and their seed.
const NEIGHBOURS: usize = 10_000_000;
const SEED: u64 = 401;

/// Prints, per angle, the greatest measure that the original accepts beside the limit.
pub fn report(oracle: Oracle) {
    println!("# The greatest dot product accepted at an angle");
    for (angle, limit) in settings() {
        let greatest = greatest(oracle, angle);
        let steps = rank(greatest) - rank(limit);
        println!("angle {angle}, limit {}: {}, {}", word(limit), word(greatest), distance(steps));
    }
    for angle in ANGLES {
        println!("angle {angle:e}: {}", word(greatest(oracle, angle)));
    }
    boundary(oracle, settings()[3]);
    println!("degrees fall from a dot product to the next: {} of {NEIGHBOURS}", falls(oracle));
}

/// How often the degrees of a random dot product are above those of the next greater one.
fn falls(oracle: Oracle) -> usize {
    let mut random = Random::new(SEED);
    let degrees = |rank: i64| oracle.degrees((1.0, 0.0), (float(rank), 0.0));
    let mut falls = || {
        let dot = rank(random.unit());
        degrees(dot) > degrees(dot + 1)
    };
    (0..NEIGHBOURS).filter(|_| falls()).count()
}

/// Prints how a right angle is judged on both sides of it.
fn boundary(oracle: Oracle, (angle, limit): Setting) {
    for dot in [0.0, 5e-324, 1e-17, 1e-16, 2e-16] {
        let degrees = oracle.degrees((1.0, 0.0), (dot, 1.0));
        let (rules, rust) = (dot <= limit, degrees <= angle);
        println!("angle {angle}, dot {dot:e}: {degrees:?} degrees, rules {rules}, Rust {rust}");
    }
}

/// The greatest measure whose degrees are at or below the angle, found by halving.
fn greatest(oracle: Oracle, angle: f64) -> f64 {
    let accepted = |dot: f64| oracle.degrees((1.0, 0.0), (dot, 0.0)) <= angle;
    let (mut low, mut high) = (rank(-1.0), rank(1.0));
    if accepted(1.0) {
        return 1.0;
    }
    while high - low > 1 {
        let middle = low + (high - low) / 2;
        if accepted(float(middle)) {
            low = middle;
        } else {
            high = middle;
        }
    }
    float(low)
}

/// Steps of the last place between two floats, where they are few.
fn distance(steps: i64) -> String {
    match steps.abs() {
        0..=99 => format!("{steps} units in the last place above"),
        _ => "more than 99 units in the last place away".to_string(),
    }
}

fn word(float: f64) -> String {
    format!("{:016x} ({float:?})", float.to_bits())
}

/// A float's place in the order of the floats; both zeros have 0.
fn rank(float: f64) -> i64 {
    let bits = float.to_bits() as i64;
    if bits < 0 {
        i64::MIN - bits
    } else {
        bits
    }
}

/// The float at a place.
fn float(rank: i64) -> f64 {
    f64::from_bits(if rank < 0 { i64::MIN - rank } else { rank } as u64)
}
