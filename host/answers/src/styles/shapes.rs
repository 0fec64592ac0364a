//! Groups, lines that pass through, lines of no or one point, repeated points, rings, self-loops.

use super::{junctions, point};
use crate::call::BuildCall;
use crate::model::plane::Point;
use crate::random::Random;

/// Lines of every shape on a grid of nine points, some with the other zero.
pub fn shapes(random: &mut Random, lines: usize) -> BuildCall {
    let mut call = BuildCall::default();
    for _ in 0..lines {
        let line = line(random);
        let group = random.pick(&[0, 0, 0, 1, 7, u32::MAX]);
        let kind = u8::from(random.one_in(6));
        call.push(&line, group, kind);
    }
    let switch = random.one_in(2);
    junctions(random, &mut call, switch);
    call.tolerance = random.pick(&[0.0f64, 0.0, 1.0, 2.0]).to_bits();
    call
}

fn line(random: &mut Random) -> Vec<Point> {
    match random.below(8) {
        0 => points(random, 0, 1),
        1 => repeated(random),
        2 => ring(random),
        _ => points(random, 2, 5),
    }
}

/// Between `least` and `most` points of the grid.
fn points(random: &mut Random, least: i64, most: i64) -> Vec<Point> {
    let count = random.between(least, most);
    let coordinates = [0.0, 0.0, 1.0, -1.0, -0.0];
    let one = |_| point(random.pick(&coordinates), random.pick(&coordinates));
    (0..count).map(one).collect()
}

/// A line in which each point stands once, twice or three times in a row.
fn repeated(random: &mut Random) -> Vec<Point> {
    let line = points(random, 1, 3);
    let copies = |point: Point| vec![point; 1 + random.below(3)];
    line.into_iter().flat_map(copies).collect()
}

/// A line that ends where it begins.
fn ring(random: &mut Random) -> Vec<Point> {
    let mut line = points(random, 1, 4);
    line.push(line[0]);
    line
}
