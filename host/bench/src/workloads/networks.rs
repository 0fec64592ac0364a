//! Networks with many nodes: borders, a grid of streets, a tree.

use super::{Network, USUAL_LIMIT};
use answers::random::Random;
use answers::BuildCall;

type Point = (f64, f64);

/// A network like that of real borders: junctions of three to five, lines of 2 to 40 points, some
/// borders cut into two lines, and a small gap at one line in twenty.
///
/// The nodes are those of a wall of bricks, none quite in its place. A brick's sides give each node
/// three borders, and further ones bring it to five at most.
pub fn borders(lines: usize) -> Network {
    let mut random = Random::new(3);
    let mut call = BuildCall::default();
    let columns = (lines as f64 / 2.0).sqrt().ceil() as u64;
    let places = (0..).flat_map(|row| (0..columns).map(move |column| (column, row)));
    'wall: for (column, row) in places {
        for (right, down) in borders_from(&mut random, column, row) {
            let ends = (place(column, row), place(column + right, row + down));
            for border in border(&mut random, ends) {
                if call.lines() == lines {
                    break 'wall;
                }
                call.push_plain(&border);
            }
        }
    }
    Network { lines: call, coarse: 0.25, limit: USUAL_LIMIT }
}

/// The borders that go right and down from a node of the wall, as steps in columns and rows.
fn borders_from(random: &mut Random, column: u64, row: u64) -> Vec<(u64, u64)> {
    let mut steps = vec![(1, 0)];
    if (column + row) % 2 == 0 || random.one_in(3) {
        steps.push((0, 1));
    }
    if column % 2 == 0 && row % 2 == 0 && random.one_in(4) {
        steps.push((1, 1));
    }
    steps
}

/// The place of a node of the wall, up to a third of the spacing from the node of a grid.
fn place(column: u64, row: u64) -> Point {
    let mut random = Random::new(column << 32 | row);
    let mut near = |whole: u64| whole as f64 + random.unit() / 3.0;
    (near(column), near(row))
}

/// The lines of one border: one, or at times two that meet halfway.
fn border(random: &mut Random, (from, to): (Point, Point)) -> Vec<Vec<Point>> {
    if random.one_in(4) {
        let middle = between(from, to, 0.5);
        let middle = (middle.0 + random.unit() / 8.0, middle.1 + random.unit() / 8.0);
        vec![winding(random, from, middle), winding(random, middle, to)]
    } else {
        vec![winding(random, from, to)]
    }
}

/// A winding line, drawn either way, short more often than long.
fn winding(random: &mut Random, from: Point, to: Point) -> Vec<Point> {
    let steps = 1 + random.below(39).min(random.below(39));
    let aside = 0.5 / steps as f64;
    let mut line: Vec<Point> =
        (0..=steps).map(|k| between(from, to, k as f64 / steps as f64)).collect();
    line[0] = from;
    line[steps] = to;
    for point in &mut line[1..steps] {
        *point = (point.0 + aside * random.unit(), point.1 + aside * random.unit());
    }
    if random.one_in(20) {
        line[0].0 += 0.01;
    }
    if random.one_in(2) {
        line.reverse();
    }
    line
}

fn between(from: Point, to: Point, part: f64) -> Point {
    (from.0 + part * (to.0 - from.0), from.1 + part * (to.1 - from.1))
}

/// Streets one block long between the corners of a square grid. A coarse cell holds six corners.
pub fn grid(lines: usize) -> Network {
    let mut call = BuildCall::default();
    let side = (lines as f64 / 2.0).sqrt().ceil() as usize;
    let corners = (0..).flat_map(|row| (0..side).map(move |column| (column as f64, row as f64)));
    for (x, y) in corners {
        for corner in [(x + 1.0, y), (x, y + 1.0)] {
            if call.lines() == lines {
                return Network { lines: call, coarse: 2.5, limit: USUAL_LIMIT };
            }
            call.push_plain(&[(x, y), corner]);
        }
    }
    unreachable!("the rows do not end")
}

/// A tree as rivers or haul roads have it: each line of three points leaves one of the 32 nodes
/// made last.
pub fn tree(lines: usize) -> Network {
    let mut random = Random::new(5);
    let mut call = BuildCall::default();
    let mut nodes: Vec<Point> = vec![(0.0, 0.0)];
    for _ in 0..lines {
        let back = 1 + random.below(nodes.len().min(32));
        let from = nodes[nodes.len() - back];
        let mut step = |from: Point| (from.0 + random.unit(), from.1 + random.unit());
        let bend = step(from);
        let to = step(bend);
        call.push_plain(&[from, bend, to]);
        nodes.push(to);
    }
    Network { lines: call, coarse: 0.5, limit: USUAL_LIMIT }
}
