//! Regions: towns, coasts and forest roads of any size, in no order, drawn either way.

use super::{either_way, point, Style};
use crate::call::BuildCall;
use crate::model::plane::Point;
use crate::random::Random;

/// The regions, each of about so many lines. Switch, limit and tolerance are 0.
pub const REGIONS: [Style<BuildCall>; 4] =
    [("town", town), ("coast", coast), ("forest", forest), ("rings", rings)];

type Place = (f64, f64);

/// Streets between corners that are not quite those of a grid: some are missing, some are cut within a
/// block, some end in a court, and some end a little off their corner.
pub fn town(random: &mut Random, lines: usize) -> BuildCall {
    let side = (1..).find(|side| 2 * side * side >= lines).unwrap_or(1);
    let mut all = Vec::new();
    for corner in 0..side * side {
        let (x, y) = (corner % side, corner / side);
        for (to_x, to_y) in [(x + 1, y), (x, y + 1)] {
            if !random.one_in(9) {
                let (from, to) = (corner_at(x, y), corner_at(to_x, to_y));
                street(random, from, to, &mut all);
            }
        }
    }
    call(random, all, lines)
}

/// The place of a corner, up to a fifth of a block off that of a grid.
fn corner_at(x: usize, y: usize) -> Place {
    let mut random = Random::new((x as u64) << 32 | y as u64);
    (100.0 * x as f64 + 20.0 * random.unit(), 100.0 * y as f64 + 20.0 * random.unit())
}

fn street(random: &mut Random, from: Place, to: Place, all: &mut Vec<Vec<Point>>) {
    let from = match random.one_in(40) {
        true => (from.0 + 0.25, from.1),
        false => from,
    };
    let steps = 1 + random.below(3);
    let run = winding(random, from, to, steps, 4.0);
    match random.below(8) {
        0 if steps > 1 => all.extend([run[..2].to_vec(), run[1..].to_vec()]),
        1 => all.push(run[..steps].to_vec()),
        _ => all.push(run),
    }
}

/// So many steps from a place to another, each a little off the straight way.
fn winding(random: &mut Random, from: Place, to: Place, steps: usize, off: f64) -> Vec<Point> {
    let at = |k: usize, random: &mut Random| match k {
        0 => point(from.0, from.1),
        k if k == steps => point(to.0, to.1),
        k => {
            let part = k as f64 / steps as f64;
            let (x, y) = (from.0 + part * (to.0 - from.0), from.1 + part * (to.1 - from.1));
            point(x + off * random.unit(), y + off * random.unit())
        }
    };
    (0..=steps).map(|k| at(k, random)).collect()
}

/// A coast of lines of eleven points end to end, which is one chain.
pub fn coast(random: &mut Random, lines: usize) -> BuildCall {
    let mut all = Vec::new();
    let mut from = (0.0, 0.0);
    for _ in 0..lines {
        let to = (from.0 + 40.0 * random.unit() + 5.0, from.1 + 40.0 * random.unit());
        all.push(winding(random, from, to, 10, 3.0));
        from = to;
    }
    call(random, all, lines)
}

/// Haul roads that leave others at their ends, of three to twelve points, some with a turning loop, and
/// some with a gap before the road that they leave.
pub fn forest(random: &mut Random, lines: usize) -> BuildCall {
    let mut all: Vec<Vec<Point>> = Vec::new();
    let mut ends = vec![(0.0, 0.0)];
    while all.len() < lines {
        let back = 1 + random.below(ends.len().min(48));
        let (x, y) = ends[ends.len() - back];
        let gap = if random.one_in(25) { 0.5 } else { 0.0 };
        let from = (x + gap, y);
        let to = (x + 300.0 * random.unit() + 40.0, y + 300.0 * random.unit());
        let steps = 2 + random.below(10);
        all.push(winding(random, from, to, steps, 12.0));
        if random.one_in(12) {
            let loops = [(20.0, 0.0), (20.0, 20.0), (0.0, 20.0)];
            let turning = loops.map(|(dx, dy)| point(to.0 + dx, to.1 + dy));
            let landing = point(to.0, to.1);
            all.push([&[landing][..], &turning, &[landing]].concat());
        }
        ends.push(to);
    }
    call(random, all, lines)
}

/// Rings of few lines and of many, beside each other.
pub fn rings(random: &mut Random, lines: usize) -> BuildCall {
    let mut all = Vec::new();
    while all.len() < lines {
        let sides = 2 + random.below(9).max(random.below(lines / 3 + 1));
        let (x, y) = (5e4 * random.unit(), 5e4 * random.unit());
        let corner = |random: &mut Random| (x + 900.0 * random.unit(), y + 900.0 * random.unit());
        let first = corner(random);
        let mut from = first;
        for side in 1..=sides {
            let to = if side == sides { first } else { corner(random) };
            let steps = 1 + random.below(4);
            all.push(winding(random, from, to, steps, 9.0));
            from = to;
        }
    }
    call(random, all, lines)
}

/// The call of so many of the lines, in no order.
fn call(random: &mut Random, mut all: Vec<Vec<Point>>, lines: usize) -> BuildCall {
    random.shuffle(&mut all);
    all.truncate(lines);
    let mut call = BuildCall::default();
    for line in all {
        call.push(&either_way(random, line), 0, 0);
    }
    call
}
