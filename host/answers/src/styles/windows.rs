//! Windows: questions over boxes of any sort, and windows over the coordinates of a building call.

use super::wild;
use crate::call::{BuildCall, WindowCall};
use crate::random::Random;

/// Numbers that boxes and windows often have in common.
const FEW: [f64; 10] =
    [0.0, -0.0, 1.0, -1.0, 2.0, 3.0, f64::INFINITY, f64::NEG_INFINITY, 5e-324, f64::MAX];

/// One number of a box or a window in so many is wild, NaN among these.
const WILD: usize = 24;

/// A question over boxes of so many chains, whose levels are those of building or arbitrary.
pub fn boxes(random: &mut Random, chains: usize) -> WindowCall {
    let scale = random.pick(&[0, 0, 10, 1000]);
    let mut level: Vec<[u64; 4]> = (0..chains).map(|_| one(random, scale)).collect();
    let sound = !random.one_in(3);
    let mut all = level.concat();
    while level.len() > 1 {
        let mut above = |two: &[[u64; 4]]| match sound {
            true => around(two),
            false => one(random, scale),
        };
        level = level.chunks(2).map(&mut above).collect();
        all.extend(level.concat());
    }
    all.resize(8 * chains + 64, random.pick(&[0, u64::MAX]));
    all.extend((0..random.pick(&[0, 0, 1, 9])).map(|_| random.bits()));
    if random.one_in(12) {
        all.truncate(random.below(8 * chains + 64));
    }
    WindowCall { boxes: all, k: chains as u64, window: one(random, scale) }
}

/// A box or a window, most with its least at or below its greatest.
fn one(random: &mut Random, scale: i64) -> [u64; 4] {
    let mut pair = || {
        let [a, b] = [number(random, scale), number(random, scale)];
        let ordered = f64::from_bits(a) <= f64::from_bits(b) || random.one_in(16);
        if ordered {
            [a, b]
        } else {
            [b, a]
        }
    };
    let ([least_x, greatest_x], [least_y, greatest_y]) = (pair(), pair());
    [least_x, least_y, greatest_x, greatest_y]
}

fn number(random: &mut Random, scale: i64) -> u64 {
    if random.one_in(WILD) {
        return wild::word(random);
    }
    match scale {
        0 => random.pick(&FEW).to_bits(),
        _ => (random.between(-scale, scale) as f64).to_bits(),
    }
}

/// The box around others, by `<` as building makes it.
fn around(two: &[[u64; 4]]) -> [u64; 4] {
    let less = |a: u64, b: u64| f64::from_bits(a) < f64::from_bits(b);
    two[1..].iter().fold(two[0], |sum, other| {
        let mut sum = sum;
        for k in 0..4 {
            let beyond = if k < 2 { less(other[k], sum[k]) } else { less(sum[k], other[k]) };
            sum[k] = if beyond { other[k] } else { sum[k] };
        }
        sum
    })
}

/// A window over the coordinates of a building call: bounded by some of their numbers, by numbers near
/// these, or not bounded.
pub fn over(random: &mut Random, call: &BuildCall) -> [u64; 4] {
    let stride = call.stride();
    let mut bounds = |k: usize| {
        let mut bound = || match call.coordinates.is_empty() || random.one_in(8) {
            true => random.pick(&FEW),
            false => {
                let at = random.below(call.coordinates.len() / stride);
                let number = f64::from_bits(call.coordinates[stride * at + k]);
                number + random.pick(&[0.0, 0.0, 0.0, 0.5, -0.5, 1e-9])
            }
        };
        let [a, b] = [bound(), bound()];
        [a.min(b), a.max(b)]
    };
    let ([least_x, greatest_x], [least_y, greatest_y]) = (bounds(0), bounds(1));
    [least_x, least_y, greatest_x, greatest_y].map(f64::to_bits)
}
