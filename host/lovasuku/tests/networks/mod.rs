//! Networks of lines made by chance from a seed.

use lovasuku_command::delivery::Point;
use lovasuku_command::joining::Line;

/// Lines with their groups. A line without points passes through.
pub struct Network(Vec<(Option<Vec<Point>>, u32)>);

impl Network {
    pub fn lines(&self) -> Vec<Line<'_>> {
        let all = self.0.iter();
        all.map(|(points, group)| Line { points: points.as_deref(), extras: &[], group: *group })
            .collect()
    }
}

struct Chance(u64);

impl Chance {
    /// A number below the given one.
    fn below(&mut self, bound: u64) -> u64 {
        self.0 =
            self.0.wrapping_mul(6_364_136_223_846_793_005).wrapping_add(1_442_695_040_888_963_407);
        (self.0 >> 33) % bound
    }

    fn pick<T: Copy>(&mut self, from: &[T]) -> T {
        from[self.below(from.len() as u64) as usize]
    }
}

/// So many lines, most of them between neighbours of a grid, whose ends agree exactly, lie in one
/// cell, or lie apart.
pub fn network(seed: u64, lines: usize) -> Network {
    let mut chance = Chance(seed.wrapping_mul(0x9e37_79b9_7f4a_7c15) ^ 1);
    let side = 4 + chance.below(20);
    Network((0..lines).map(|_| line(&mut chance, side)).collect())
}

fn line(chance: &mut Chance, side: u64) -> (Option<Vec<Point>>, u32) {
    // The last is of the second district.
    let group = chance.pick(&[0, 0, 0, 1, 1 << 31]);
    let from = [chance.below(side), chance.below(side)];
    let steps = [[1, 0], [0, 1], [1, 1], [0, 0]];
    let step = chance.pick(&steps[..]);
    let to = [from[0] + step[0], from[1] + step[1]];
    let [a, b] = [from, to].map(|at| near(chance, at));
    let between = |k: f64| [a[0] + k * (b[0] - a[0]) + 0.125, a[1] + k * (b[1] - a[1])];
    let points = match chance.below(20) {
        0 => None,
        1 => Some(vec![]),
        2 => Some(vec![a]),
        3..=6 => Some(vec![a, between(0.5), b]),
        7 => Some(vec![a, a, between(0.25), between(0.75), b]),
        8..=13 => Some(vec![b, a]),
        _ => Some(vec![a, b]),
    };
    (points, group)
}

/// A point at or near a place of the grid.
fn near(chance: &mut Chance, [x, y]: [u64; 2]) -> Point {
    let off = [0.0, 0.0, 0.0, 0.0, 0.25, 0.75];
    let scaled = |x: u64| if x == 0 { 0.0 } else { 3.0 * x as f64 };
    let [x, y] = [scaled(x) + chance.pick(&off), scaled(y) + chance.pick(&off)];
    // Zeros of both signs are two ends and one point.
    match (x == 0.0, chance.below(2)) {
        (true, 0) => [-0.0, y],
        _ => [x, y],
    }
}
