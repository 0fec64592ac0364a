//! Pairing calls: directions of every sort, some absent, under every sort of limit.

use super::{limit, wild};
use crate::call::PairingCall;
use crate::model::plane::{direction, measure};
use crate::random::Random;

/// The eight directions of a compass: exact opposites, many ties.
pub fn axes(random: &mut Random, ends: usize) -> PairingCall {
    call(random, ends, |random| {
        let diagonal = 0.5f64.sqrt();
        let straight = [(1.0, 0.0), (-1.0, 0.0), (0.0, 1.0), (0.0, -1.0)];
        let signs = [1.0, -1.0];
        match random.one_in(2) {
            true => random.pick(&straight),
            false => (random.pick(&signs) * diagonal, random.pick(&signs) * diagonal),
        }
    })
}

/// Directions all round.
pub fn circle(random: &mut Random, ends: usize) -> PairingCall {
    call(random, ends, round)
}

/// Directions toward points of a small grid of whole numbers: ties up to rounding.
pub fn whole(random: &mut Random, ends: usize) -> PairingCall {
    call(random, ends, |random| {
        let (x, y) = (random.between(-5, 5) as f64, random.between(-5, 5) as f64);
        toward(x, y)
    })
}

/// Directions a few units in the last place from a handful.
pub fn close(random: &mut Random, ends: usize) -> PairingCall {
    let a = round(random);
    let from = [a, (-a.0, -a.1), (-a.1, a.0), (a.1, -a.0)];
    call(random, ends, |random| {
        let (x, y) = random.pick(&from);
        let mut near = |float: f64| f64::from_bits(float.to_bits() + random.below(3) as u64);
        (near(x), near(y))
    })
}

/// One to three directions and their opposites, each many times.
pub fn identical(random: &mut Random, ends: usize) -> PairingCall {
    let few: Vec<_> = (0..1 + random.below(3)).map(|_| round(random)).collect();
    call(random, ends, |random| {
        let (x, y) = random.pick(&few);
        random.pick(&[(x, y), (x, y), (-x, -y)])
    })
}

/// Zeros of both signs and ones: measures of 0, of -0 and of 1.
pub fn zeros(random: &mut Random, ends: usize) -> PairingCall {
    let floats = [0.0, -0.0, 1.0, -1.0];
    call(random, ends, |random| (random.pick(&floats), random.pick(&floats)))
}

/// Directions of every length up to 1, which an index of the unit disk may hold.
pub fn short(random: &mut Random, ends: usize) -> PairingCall {
    call(random, ends, |random| {
        let ((x, y), length) = (round(random), random.unit());
        (x * length, y * length)
    })
}

/// Directions as long as 1 or longer by up to 2^-28, about as far as such an index goes.
pub fn rim(random: &mut Random, ends: usize) -> PairingCall {
    let most = random.pick(&[1, 2, 3, 4]);
    let step = 1.0 / 1_073_741_824.0;
    call(random, ends, |random| {
        let ((x, y), length) = (round(random), 1.0 + random.below(most + 1) as f64 * step);
        (x * length, y * length)
    })
}

/// Finite directions of every magnitude, whose dot products overflow or vanish.
pub fn huge(random: &mut Random, ends: usize) -> PairingCall {
    let sizes = [f64::MAX, 1e300, 1e200, 1e154, 1.0, 1e-154, 1e-200, 5e-324, 0.0];
    call(random, ends, |random| {
        let mut float = || random.pick(&sizes) * random.pick(&[1.0, -1.0]);
        (float(), float())
    })
}

/// Directions of wild words, NaN and infinities among them.
pub fn nonfinite(random: &mut Random, ends: usize) -> PairingCall {
    call(random, ends, |random| match random.one_in(2) {
        true => (f64::from_bits(wild::word(random)), f64::from_bits(wild::word(random))),
        false => round(random),
    })
}

/// Directions of arbitrary bit patterns.
pub fn bits(random: &mut Random, ends: usize) -> PairingCall {
    call(random, ends, |random| (f64::from_bits(random.bits()), f64::from_bits(random.bits())))
}

/// A call with directions from the given source.
fn call(
    random: &mut Random,
    ends: usize,
    mut direction: impl FnMut(&mut Random) -> (f64, f64),
) -> PairingCall {
    let mut call = PairingCall::default();
    let absent_in = random.pick(&[1000, 8, 8, 2, 1]);
    for piece in pieces(random, ends) {
        if random.one_in(absent_in) {
            call.push(false, [wild::word(random), wild::word(random)], piece);
        } else {
            let (x, y) = direction(random);
            call.push(true, [x.to_bits(), y.to_bits()], piece);
        }
    }
    call.limit = meeting_limit(random, &call);
    call
}

/// Piece numbers in random order, each once or twice, small or large.
fn pieces(random: &mut Random, ends: usize) -> Vec<u32> {
    let large = random.one_in(4);
    let twice_in = random.pick(&[1, 3, 1000]);
    let mut pieces = Vec::new();
    for number in 0.. {
        if pieces.len() >= ends {
            break;
        }
        let copies = if random.one_in(twice_in) { 2 } else { 1 };
        pieces.extend(vec![if large { u32::MAX - number } else { number }; copies]);
    }
    pieces.truncate(ends);
    random.shuffle(&mut pieces);
    pieces
}

/// Often a limit that is the measure of two of the ends.
fn meeting_limit(random: &mut Random, call: &PairingCall) -> u64 {
    if call.ends() > 1 && random.one_in(3) {
        let ends = (random.below(call.ends()), random.below(call.ends()));
        if let (Some(a), Some(b)) = (call.direction(ends.0), call.direction(ends.1)) {
            let measure = measure(a, b);
            if !measure.is_nan() {
                return measure.to_bits();
            }
        }
    }
    limit(random)
}

/// A direction all round.
fn round(random: &mut Random) -> (f64, f64) {
    toward(random.unit(), random.unit())
}

/// The direction toward a point, or along x where the point is the origin.
fn toward(x: f64, y: f64) -> (f64, f64) {
    let line = [super::point(0.0, 0.0), super::point(x, y)];
    direction(&line, 0).unwrap_or((1.0, 0.0))
}
