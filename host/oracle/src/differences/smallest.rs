//! The smallest junctions at which the pairs differ.

use super::{both, junction, limit_differs, settings, Direction, Setting};
use crate::chains::Chain;
use crate::Oracle;
use answers::BuildCall;

/// A point of the whole numbers.
type Whole = (i64, i64);

/// The search goes over points with coordinates up to this.
const REACH: i64 = 4;

/// Prints, per setting, the smallest junction of three lines that differs by a tie of rounded
/// degrees, and the smallest that differs at the limit.
pub fn report(oracle: Oracle) {
    println!("# Smallest junctions: three lines from 0,0, coordinates up to {REACH}");
    for setting in settings() {
        let (angle, limit) = setting;
        for (way, at_limit) in [("by a tie", false), ("at the limit", true)] {
            match smallest(oracle, setting, at_limit) {
                None => println!("angle {angle}, limit {limit:?}, {way}: none"),
                Some(points) => {
                    println!("angle {angle}, limit {limit:?}, {way}: {points:?}");
                    show(oracle, &points, setting);
                }
            }
        }
    }
}

/// The first of the smallest junctions whose pairs differ in the given way.
fn smallest(oracle: Oracle, setting: Setting, at_limit: bool) -> Option<[Whole; 3]> {
    let points = points();
    let mut best: Option<(i64, [Whole; 3])> = None;
    for &a in &points {
        for &b in &points {
            for &c in &points {
                let size = size(a) + size(b) + size(c);
                let smaller = !matches!(best, Some((least, _)) if least <= size);
                if smaller && differs(oracle, &[a, b, c], setting, at_limit) {
                    best = Some((size, [a, b, c]));
                }
            }
        }
    }
    best.map(|(_, points)| points)
}

/// True where the pairs differ, at the limit or by a tie as asked.
fn differs(oracle: Oracle, points: &[Whole], setting: Setting, at_limit: bool) -> bool {
    let directions = directions(oracle, points);
    let [edited, unedited] = both(oracle, &junction(&directions), setting);
    edited != unedited && limit_differs(oracle, &directions, setting) == at_limit
}

/// All points within reach but the origin, in order of size, positive coordinates first.
fn points() -> Vec<Whole> {
    let coordinates = || (0..=REACH).flat_map(|k| if k == 0 { vec![0] } else { vec![k, -k] });
    let mut points: Vec<Whole> =
        coordinates().flat_map(|x| coordinates().map(move |y| (x, y))).collect();
    points.sort_by_key(|&point| size(point));
    points.split_off(1)
}

fn size((x, y): Whole) -> i64 {
    x.abs() + y.abs()
}

/// The directions from the origin toward the points.
fn directions(oracle: Oracle, points: &[Whole]) -> Vec<Direction> {
    let toward = |&(x, y): &Whole| {
        let line = [[0, 0], [(x as f64).to_bits(), (y as f64).to_bits()]];
        oracle.direction(&line, 0).expect("the points differ")
    };
    points.iter().map(toward).collect()
}

/// Prints directions, measures, degrees and both answers.
fn show(oracle: Oracle, points: &[Whole], setting: Setting) {
    let directions = directions(oracle, points);
    for (end, (x, y)) in directions.iter().enumerate() {
        println!("  end {end}: {:016x} {:016x} ({x:?}, {y:?})", x.to_bits(), y.to_bits());
    }
    for (i, j) in [(0, 1), (0, 2), (1, 2)] {
        let (a, b) = (directions[i], directions[j]);
        let (measure, degrees) = (oracle.measure(a, b), oracle.degrees(a, b));
        println!(
            "  {i} {j}: measure {:016x} ({measure:?}), {degrees:?} degrees",
            measure.to_bits()
        );
    }
    let [edited, unedited] = both(oracle, &junction(&directions), setting);
    println!("  pairs by the rules {edited:?}, of the Rust {unedited:?}");
    let [edited, unedited] = chains(oracle, points, setting);
    println!("  chains by the rules {edited:?}, of the Rust {unedited:?}");
}

/// The members of the chains that both originals build of the lines from the origin to the points.
fn chains(oracle: Oracle, points: &[Whole], (angle, limit): Setting) -> [Vec<Vec<usize>>; 2] {
    let mut call = BuildCall { switch: 1, limit: limit.to_bits(), ..BuildCall::default() };
    for &(x, y) in points {
        call.push_plain(&[(0.0, 0.0), (x as f64, y as f64)]);
    }
    let members = |chains: Vec<Chain>| chains.into_iter().map(|chain| chain.members).collect();
    [members(oracle.chains(&call)), members(oracle.unedited_chains(&call, angle))]
}
