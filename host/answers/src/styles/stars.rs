//! Stars: a given number of ends at one node.

use super::{either_way, junctions, point};
use crate::call::BuildCall;
use crate::model::plane::Point;
use crate::random::Random;

/// Rays and loops with together `ends` ends at one point.
pub fn star(random: &mut Random, ends: usize) -> BuildCall {
    let mut call = BuildCall::default();
    let hub = (random.between(-1, 1) as f64, random.between(-1, 1) as f64);
    let mut left = ends;
    while left > 0 {
        let loops = left > 1 && random.one_in(6);
        let line = if loops { looped(random, hub) } else { ray(random, hub) };
        call.push(&line, 0, 0);
        left -= if loops { 2 } else { 1 };
    }
    let switch = !random.one_in(8);
    junctions(random, &mut call, switch);
    if random.one_in(4) {
        call.tolerance = random.pick(&[0.001f64, 0.5, 2.0, 64.0]).to_bits();
    }
    call
}

/// A point beside the hub: on an axis, on a small grid, on a fine one, or hardly off an axis.
fn beside(random: &mut Random, (x, y): (f64, f64)) -> Point {
    let (dx, dy) = match random.below(4) {
        0 => random.pick(&[(1.0, 0.0), (-1.0, 0.0), (0.0, 1.0), (0.0, -1.0)]),
        1 => (random.between(-9, 9) as f64, random.between(-9, 9) as f64),
        2 => (random.unit(), random.unit()),
        _ => (random.pick(&[1.0, -1.0]), random.unit() / 1e12),
    };
    point(x + dx, y + dy)
}

/// The hub, at times twice, the second time with the other zero.
fn hub_run(random: &mut Random, (x, y): (f64, f64)) -> Vec<Point> {
    let other = |float: f64| if float == 0.0 { -0.0 } else { float };
    match random.one_in(4) {
        true => vec![point(x, y), point(other(x), other(y))],
        false => vec![point(x, y)],
    }
}

/// A line with one end at the hub.
fn ray(random: &mut Random, hub: (f64, f64)) -> Vec<Point> {
    let mut line = hub_run(random, hub);
    for _ in 0..1 + random.below(2) {
        line.push(beside(random, hub));
    }
    if line[line.len() - 1] == line[0] {
        line.push(point(hub.0 + 100.0, hub.1));
    }
    either_way(random, line)
}

/// A line with both ends at the hub.
fn looped(random: &mut Random, hub: (f64, f64)) -> Vec<Point> {
    let mut line = hub_run(random, hub);
    for _ in 0..random.below(3) {
        line.push(beside(random, hub));
    }
    line.push(line[0]);
    line
}
