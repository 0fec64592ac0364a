//! Of how many random junctions the pairs differ.

use super::{both, junction, settings, Direction, Setting};
use crate::Oracle;
use answers::model::plane::Point;
use answers::random::Random;
use answers::styles::point;

/// Junctions per kind, number of ends and setting.
const JUNCTIONS: usize = 100_000;

/// The numbers of ends.
const ENDS: [usize; 4] = [3, 4, 5, 8];

/// The seed of every count.
const SEED: u64 = 301;

/// A node with its neighbours, made at random.
type Kind = (&'static str, fn(&mut Random, usize) -> (Point, Vec<Point>));

/// The kinds of junction.
const KINDS: [Kind; 4] = [
    ("all round", all_round),
    ("whole numbers to 5", |random, ends| whole(random, ends, 5)),
    ("whole numbers to 100", |random, ends| whole(random, ends, 100)),
    ("map at 7 decimals", map),
];

/// Prints, per kind and setting, how many junctions differ in their pairs, and how many in the
/// order of the pairs alone.
pub fn report(oracle: Oracle) {
    println!("# Random junctions, seed {SEED}, {JUNCTIONS} for each of {ENDS:?} ends");
    for (name, make) in KINDS {
        for setting in settings() {
            let (mut pairs, mut order) = (0, 0);
            for ends in ENDS {
                let counts = count(oracle, make, ends, setting);
                pairs += counts.0;
                order += counts.1;
            }
            let all = JUNCTIONS * ENDS.len();
            println!("{name}, angle {}: {pairs} of {all}, order alone {order}", setting.0);
        }
    }
}

/// How many junctions differ in their pairs, and in the order alone.
fn count(
    oracle: Oracle,
    make: fn(&mut Random, usize) -> (Point, Vec<Point>),
    ends: usize,
    setting: Setting,
) -> (usize, usize) {
    let mut random = Random::new(SEED);
    let (mut pairs, mut order) = (0, 0);
    for _ in 0..JUNCTIONS {
        let (node, neighbours) = make(&mut random, ends);
        let toward = |&to: &Point| oracle.direction(&[node, to], 0);
        let directions: Vec<Direction> = neighbours.iter().filter_map(toward).collect();
        let [mut edited, mut unedited] = both(oracle, &junction(&directions), setting);
        if edited != unedited {
            edited.sort_unstable();
            unedited.sort_unstable();
            let same = edited == unedited;
            pairs += usize::from(!same);
            order += usize::from(same);
        }
    }
    (pairs, order)
}

/// Neighbours anywhere in the square from -1 to 1 about the origin.
fn all_round(random: &mut Random, ends: usize) -> (Point, Vec<Point>) {
    let neighbour = |_| point(random.unit(), random.unit());
    ([0, 0], (0..ends).map(neighbour).collect())
}

/// Neighbours of the origin with whole coordinates up to the given one.
fn whole(random: &mut Random, ends: usize, most: i64) -> (Point, Vec<Point>) {
    let mut coordinate = || random.between(-most, most) as f64;
    ([0, 0], (0..ends).map(|_| point(coordinate(), coordinate())).collect())
}

/// A place given in ten-millionths of a degree, as a map's files have it.
fn place((x, y): (i64, i64)) -> Point {
    point(x as f64 / 1e7, y as f64 / 1e7)
}

/// A node in the north of Europe, with neighbours up to a thousandth of a degree away.
fn map(random: &mut Random, ends: usize) -> (Point, Vec<Point>) {
    let x = random.between(200_000_000, 300_000_000);
    let y = random.between(600_000_000, 700_000_000);
    let mut step = || random.between(-10_000, 10_000);
    let neighbours = (0..ends).map(|_| place((x + step(), y + step()))).collect();
    (place((x, y)), neighbours)
}
