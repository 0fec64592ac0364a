//! Lines end to end: a road in order, a road in random order, few lines of many points.

use super::{districts, Network, USUAL_LIMIT};
use answers::random::Random;
use answers::{BuildCall, MOST_DISTRICT_POINTS};

type Line = Vec<(f64, f64)>;

/// Lines of so many points end to end, from left to right.
fn row(lines: usize, points: usize) -> Vec<Line> {
    let mut random = Random::new(7);
    let steps = points - 1;
    let all: Line = (0..=lines * steps).map(|k| (k as f64 / steps as f64, random.unit())).collect();
    (0..lines).map(|line| all[line * steps..=(line + 1) * steps].to_vec()).collect()
}

fn network(lines: &[Line]) -> Network {
    let mut call = BuildCall::default();
    lines.iter().for_each(|line| call.push_plain(line));
    Network { lines: call, coarse: 0.5, limit: USUAL_LIMIT }
}

/// One long road of lines of three points, in order and drawn one way.
pub fn road(lines: usize) -> Network {
    network(&row(lines, 3))
}

/// The same road in random order, drawn either way, with a gap before one line in sixteen.
pub fn shuffled(lines: usize) -> Network {
    let mut random = Random::new(11);
    let mut row = row(lines, 3);
    for line in &mut row {
        if random.one_in(16) {
            line[0].0 += 0.01;
        }
        if random.one_in(2) {
            line.reverse();
        }
    }
    random.shuffle(&mut row);
    network(&row)
}

/// As many points as a call takes in a few lines, half of them of each district, end to end, every other
/// one drawn backwards.
pub fn long_lines(lines: usize) -> Network {
    let own = lines / 2;
    let mut row = row(own, MOST_DISTRICT_POINTS / own);
    row.iter_mut().step_by(2).for_each(|line| line.reverse());
    districts::two(network(&row))
}
