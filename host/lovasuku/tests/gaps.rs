//! Gaps that stayed open, against a look at all ends of networks made by chance.

mod networks;

use lovasuku_chains::large::{distance, gaps, join, Chain, Gap, Line, Point, Way};
use lovasuku_chains::{Dimension, Settings};
use networks::network;

/// An end of a chain: its chain, its point, the chain's other end and its group.
type End = (usize, Point, Point, u32);

fn points<'a>(lines: &[Line<'a>], chain: &Chain<'a>) -> &'a [Point] {
    match chain.points {
        Some(points) => points,
        None => lines[chain.members[0] as usize].points.unwrap_or_default(),
    }
}

fn ends(lines: &[Line], chains: &[Chain]) -> Vec<End> {
    let mut ends = Vec::new();
    for (position, chain) in chains.iter().enumerate() {
        let group = lines[chain.members[0] as usize].group;
        if let [first, .., last] = *points(lines, chain) {
            ends.extend([(position, first, last, group), (position, last, first, group)]);
        } else if let ([one], true) = (points(lines, chain), chain.points.is_some()) {
            ends.extend([(position, *one, *one, group); 2]);
        }
    }
    ends
}

/// How many ends of lines of a group lie at a point, bit for bit.
fn at(lines: &[Line], group: u32, point: Point) -> usize {
    let of_group = lines.iter().filter(|line| line.group == group);
    let points = of_group.filter_map(|line| line.points).filter(|points| points.len() > 1);
    let ends = points.flat_map(|points| [points[0], points[points.len() - 1]]);
    ends.filter(|end| end.map(f64::to_bits) == point.map(f64::to_bits)).count()
}

/// The distance to the nearest end that a gap could lead to.
fn nearest(lines: &[Line], chains: &[Chain], from: &End, ends: &[End], most: f64) -> Option<f64> {
    let &(chain, point, opposite, group) = from;
    let way = points(lines, &chains[chain]);
    let length: f64 = way.windows(2).map(|two| distance(two[0], two[1])).sum();
    let candidate = |&&(other, to, _, to_group): &&End| {
        let fits = match other == chain {
            true => length >= 2.0 * most,
            false => distance(point, to) <= distance(opposite, to),
        };
        group == to_group && to != point && fits
    };
    let distances = ends.iter().filter(candidate).map(|end| distance(point, end.1));
    distances.filter(|&distance| distance < most).min_by(f64::total_cmp)
}

#[test]
fn every_open_end_and_its_nearest() {
    let mut seen = 0;
    for seed in 0..150 {
        let network = network(seed, 20 + seed as usize % 90);
        let tolerance = [0.5, 1.0, 2.0][seed as usize % 3];
        let lines = network.lines();
        let origin = [0.0, 0.25 * (seed % 5) as f64];
        let settings = Settings { tolerance, origin, limit: None };
        let told = join(Dimension::Xy, &lines, (settings, None), Way::default()).unwrap();
        let chains: Vec<Chain> = told.chains().collect();
        let found = gaps(&lines, &chains, settings);
        let ends = ends(&lines, &chains);
        let open = ends.iter().filter(|(_, point, _, group)| at(&lines, *group, *point) == 1);
        let mut wanted = 0;
        for end in open {
            if let Some(least) = nearest(&lines, &chains, end, &ends, tolerance) {
                let is = |gap: &Gap| gap.ends.contains(&end.1) && gap.length() == least;
                assert!(found.iter().any(is), "seed {seed}: {end:?}");
                wanted += 1;
            }
        }
        // A gap between two such ends is told once.
        assert!(found.len() <= wanted && 2 * found.len() >= wanted, "seed {seed}");
        assert!(found.iter().all(|gap| gap.length() > 0.0 && gap.length() < tolerance));
        seen += found.len();
    }
    assert!(seen > 500, "{seen}");
}
