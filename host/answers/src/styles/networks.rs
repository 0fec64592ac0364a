//! Networks: lines that meet as streets, as rows cut into lines, and as roads between places.

use super::{either_way, junctions, point};
use crate::call::BuildCall;
use crate::model::plane::Point;
use crate::random::Random;

/// The call of the lines, with a switch, a limit and at times a tolerance.
fn network(random: &mut Random, lines: &[Vec<Point>]) -> BuildCall {
    let mut call = BuildCall::default();
    lines.iter().for_each(|line| call.push(line, 0, 0));
    let switch = random.one_in(2);
    junctions(random, &mut call, switch);
    if random.one_in(3) {
        call.tolerance = random.pick(&[0.125f64, 1.0, 1.5, 8.0]).to_bits();
    }
    call
}

/// Short walks over the corners of a grid of streets.
pub fn streets(random: &mut Random, lines: usize) -> BuildCall {
    let side = (1..).find(|side| side * side > lines).unwrap_or(1);
    let lines: Vec<_> = (0..lines).map(|_| street(random, side)).collect();
    network(random, &lines)
}

fn street(random: &mut Random, side: usize) -> Vec<Point> {
    let (mut x, mut y) = (random.below(side) as f64, random.below(side) as f64);
    let mut line = vec![point(x, y)];
    for _ in 0..1 + random.below(4) {
        let (dx, dy) = random.pick(&[(1.0, 0.0), (-1.0, 0.0), (0.0, 1.0), (0.0, -1.0)]);
        x += dx;
        y += dy;
        line.push(point(x, y));
    }
    line
}

/// Open and closed rows of lines end to end, each line drawn either way, in random order.
pub fn rows(random: &mut Random, lines: usize) -> BuildCall {
    let mut all = Vec::new();
    while all.len() < lines {
        let length = 1 + random.below(lines - all.len());
        let row = row(random, length);
        all.extend(row);
    }
    random.shuffle(&mut all);
    network(random, &all)
}

fn row(random: &mut Random, length: usize) -> Vec<Vec<Point>> {
    let closed = random.one_in(3);
    let mut corners: Vec<_> = (0..=length).map(|_| anywhere(random)).collect();
    if closed {
        corners[length] = corners[0];
    }
    let mut row = Vec::new();
    for side in corners.windows(2) {
        let mut line = side.to_vec();
        if random.one_in(3) {
            line.insert(1, anywhere(random));
        }
        row.push(either_way(random, line));
    }
    row
}

/// Lines from place to place, where most places have three ends or so.
pub fn roads(random: &mut Random, lines: usize) -> BuildCall {
    let places: Vec<_> = (0..1 + lines * 2 / 3).map(|_| anywhere(random)).collect();
    let road = |random: &mut Random| {
        let mut line = vec![random.pick(&places)];
        if random.one_in(2) {
            line.push(anywhere(random));
        }
        line.push(random.pick(&places));
        line
    };
    let lines: Vec<_> = (0..lines).map(|_| road(random)).collect();
    network(random, &lines)
}

/// A point of the square from -8 to 8, on a fine grid or on a coarse one.
fn anywhere(random: &mut Random) -> Point {
    match random.one_in(2) {
        true => point(8.0 * random.unit(), 8.0 * random.unit()),
        false => point(random.between(-8, 8) as f64, random.between(-8, 8) as f64),
    }
}
