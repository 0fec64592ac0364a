//! Boxes of chains, level by level, and what lies in a window.

use crate::call::{BuildCall, Built, Record, Refusal, WindowCall, BAD_WINDOW, ROOM_TOO_SHORT};

/// Least x, least y, greatest x, greatest y, as bits.
type Box = [u64; 4];

/// The box of no points.
fn empty() -> Box {
    let [plus, minus] = [f64::INFINITY, f64::NEG_INFINITY].map(f64::to_bits);
    [plus, plus, minus, minus]
}

/// The box around two; of equal numbers the first one's bits.
fn around(a: Box, b: Box) -> Box {
    let lesser = |k: usize| if f64::from_bits(b[k]) < f64::from_bits(a[k]) { b[k] } else { a[k] };
    let greater = |k: usize| if f64::from_bits(a[k]) < f64::from_bits(b[k]) { b[k] } else { a[k] };
    [lesser(0), lesser(1), greater(2), greater(3)]
}

/// The boxes of an answer's chains, and above them those of pairs, an odd last one alone, up to one for
/// all: four numbers each.
pub fn boxes(call: &BuildCall, built: &Built) -> Vec<u64> {
    let of = |record: &Record| {
        let from = if record[2] == 0 { &call.coordinates } else { &built.merged };
        let run = from.chunks(call.stride()).skip(record[3] as usize).take(record[4] as usize);
        run.fold(empty(), |sum, p| around(sum, [p[0], p[1], p[0], p[1]]))
    };
    let mut level: Vec<Box> = built.table.iter().map(of).collect();
    let mut all = level.concat();
    while level.len() > 1 {
        let pair = |two: &[Box]| two[1..].iter().fold(two[0], |sum, &other| around(sum, other));
        level = level.chunks(2).map(pair).collect();
        all.extend(level.concat());
    }
    all
}

/// True where a box overlaps or touches a window. None with a NaN does, and none with a least above its
/// greatest.
pub fn meets(it: &[u64], window: [f64; 4]) -> bool {
    let [least_x, least_y, greatest_x, greatest_y] = window;
    let number = |k: usize| f64::from_bits(it[k]);
    let along = |low: f64, high: f64, from: f64, to: f64| low <= high && low <= to && from <= high;
    along(number(0), number(2), least_x, greatest_x)
        && along(number(1), number(3), least_y, greatest_y)
}

/// The first refusal that applies to a question, with room for so many numbers.
fn refusal(call: &WindowCall, room: usize) -> Option<Refusal> {
    let [least_x, least_y, greatest_x, greatest_y] = call.bounds();
    let k = u128::from(call.k);
    if !(least_x <= greatest_x && least_y <= greatest_y) {
        Some(BAD_WINDOW)
    } else if (call.boxes.len() as u128) < 8 * k + 64 || (room as u128) < k || k > 1 << 32 {
        Some(ROOM_TOO_SHORT)
    } else {
        None
    }
}

/// The chains whose own box and all boxes above it meet the window, with room for so many numbers. A
/// box that is not wholly lent is not looked at.
pub fn in_window(call: &WindowCall, room: usize) -> Result<Vec<u32>, Refusal> {
    if let Some(refusal) = refusal(call, room) {
        return Err(refusal);
    }
    let shown =
        |at: usize| call.boxes.get(4 * at..4 * at + 4).map_or(true, |it| meets(it, call.bounds()));
    let seen = |chain: &u32| {
        let (mut first, mut count, mut at) = (0, call.k as usize, *chain as usize);
        while shown(first + at) {
            if count <= 1 {
                return true;
            }
            (first, count, at) = (first + count, (count + 1) / 2, at / 2);
        }
        false
    };
    Ok((0..call.k as u32).filter(seen).collect())
}
