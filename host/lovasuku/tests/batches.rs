//! Batches of any size give the same chains, and joints tell what the chains were joined by.

mod networks;

use lovasuku_chains::large::{join, Capacity, Chain, Joint, JointKind, Line, Point, Told, Way};
use lovasuku_chains::{Dimension, PathLine, Settings};
use networks::{network, Network};
use std::collections::HashSet;

const SETTINGS: [Settings; 8] = [
    Settings { tolerance: 0.0, origin: [0.0, 0.0], limit: None },
    Settings { tolerance: 0.0, origin: [0.0, 0.0], limit: Some(-0.5) },
    Settings { tolerance: 0.5, origin: [0.0, 0.0], limit: None },
    Settings { tolerance: 1.0, origin: [0.0, 0.0], limit: Some(0.0) },
    Settings { tolerance: 1.0, origin: [0.0, 0.0], limit: Some(-1.0) },
    Settings { tolerance: 2.0, origin: [0.0, 0.0], limit: Some(1.0) },
    Settings { tolerance: 1.0, origin: [0.5, -0.25], limit: None },
    Settings { tolerance: 2.0, origin: [-1e9, 0.75], limit: Some(0.0) },
];

fn told(network: &Network, settings: Settings, way: Way) -> Told {
    join(Dimension::Xy, &network.lines(), (settings, None), way).unwrap()
}

/// All of a chain, with its points as bits.
type Bits<'a> = (&'a [u32], &'a [PathLine], Option<Vec<[u64; 2]>>, bool, &'a [Joint]);

fn bits(chain: Chain) -> Bits {
    let points = chain.points;
    let points = points.map(|points| points.iter().map(|point| point.map(f64::to_bits)).collect());
    (chain.members, chain.path, points, chain.is_loop, chain.joints)
}

/// Networks of so many seeds and of about so many lines, each with settings.
fn networks(seeds: u64, lines: usize) -> impl Iterator<Item = (u64, Network, Settings)> {
    (0..seeds).map(move |seed| {
        let network = network(seed, lines + seed as usize % (5 * lines));
        (seed, network, SETTINGS[seed as usize % SETTINGS.len()])
    })
}

#[test]
fn batches_of_any_size_have_the_same_chains() {
    let mut joints = 0;
    for (seed, network, settings) in networks(400, 60) {
        let whole = told(&network, settings, Way::default());
        joints += whole.chains().map(|chain| chain.joints.len()).sum::<usize>();
        for (lines, batch) in [(1, 1), (2, 1), (4, 2), (8, 4), (16, 9), (2_048, 1), (2_048, 30)] {
            let capacity = Capacity { lines, points: 6 * lines };
            for neighbours in [false, true] {
                let way = Way { capacity, batch, neighbours, ..Way::default() };
                let cut = told(&network, settings, way);
                assert!(
                    whole.chains().map(bits).eq(cut.chains().map(bits)),
                    "seed {seed}, {way:?}"
                );
            }
        }
    }
    assert!(joints > 10_000, "{joints}");
}

type Segment = [[u64; 2]; 2];

/// A segment, the same from either side, with zeros of one sign.
fn segment(a: Point, b: Point) -> Segment {
    let [a, b] = [a, b].map(|point| point.map(|x| (x + 0.0).to_bits()));
    [a.min(b), a.max(b)]
}

fn segments(points: &[Point]) -> Vec<Segment> {
    let mut points = points.to_vec();
    points.dedup();
    points.windows(2).map(|two| segment(two[0], two[1])).collect()
}

#[test]
fn a_segment_of_no_line_is_a_bridge() {
    let mut bridges = 0;
    for (_, network, settings) in networks(600, 35) {
        for chain in told(&network, settings, Way::default()).chains() {
            bridges += check_bridges(&network.lines(), &chain);
        }
    }
    assert!(bridges > 1000, "{bridges}");
}

/// Tests the bridges of a chain against its points and its lines, and counts them.
fn check_bridges(lines: &[Line], chain: &Chain) -> usize {
    assert_eq!(chain.joints.len() + 1, chain.members.len());
    let points = match chain.points {
        None => return 0,
        Some(points) => points,
    };
    let of_lines: HashSet<Segment> = chain
        .members
        .iter()
        .flat_map(|&line| segments(lines[line as usize].points.unwrap()))
        .collect();
    let bridges: Vec<&Joint> = chain.joints.iter().filter(|joint| joint.is_bridge()).collect();
    assert!(bridges.iter().all(|bridge| bridge.kind == JointKind::Tolerance));
    let made: HashSet<Segment> =
        bridges.iter().map(|bridge| segment(bridge.ends[0], bridge.ends[1])).collect();
    for each in segments(points) {
        assert!(of_lines.contains(&each) || made.contains(&each));
    }
    // Each bridge lies in the chain, in the order of its points.
    let mut rest = &points[..];
    for bridge in &bridges {
        let at = rest.windows(2).position(|two| two == bridge.ends);
        rest = &rest[1 + at.expect("a bridge is a segment of its chain")..];
    }
    bridges.len()
}

fn joined(lines: &[&[Point]], settings: Settings) -> Told {
    let lines: Vec<Line> =
        lines.iter().map(|points| Line { points: Some(points), extras: &[], group: 0 }).collect();
    join(Dimension::Xy, &lines, (settings, None), Way::default()).unwrap()
}

#[test]
fn joints_tell_what_they_were_made_by() {
    use JointKind::{Junction, Node, Tolerance};
    let lines: [&[Point]; 6] = [
        &[[-1.0, 0.0], [0.0, 0.0]],
        &[[0.0, 0.0], [1.0, 0.0]],
        &[[0.0, 1.0], [0.0, 0.0]],
        &[[0.0, 0.0], [1.0, 1.0]],
        &[[2.0, 0.0], [1.0, 0.0]],
        &[[1.25, 1.25], [3.0, 3.0]],
    ];
    let settings = Settings { tolerance: 0.5, origin: [0.0, 0.0], limit: Some(-1.0) };
    let told = joined(&lines, settings);
    let chains: Vec<Chain> = told.chains().collect();
    let kinds = |chain: &Chain| chain.joints.iter().map(|joint| joint.kind).collect::<Vec<_>>();
    // The pair that is straight on is selected in round one; the two ends left there meet in round
    // two, with no segment between them, and a gap is closed by a bridge.
    assert_eq!(chains[0].members, [0, 1, 4]);
    assert_eq!(kinds(&chains[0]), [Junction, Node]);
    assert_eq!(chains[1].members, [2, 3, 5]);
    assert_eq!(kinds(&chains[1]), [Tolerance, Tolerance]);
    let bridges: Vec<bool> = chains[1].joints.iter().map(Joint::is_bridge).collect();
    assert_eq!(bridges, [false, true]);
    assert_eq!(chains[1].joints[1].lines, [3, 5]);
}

#[test]
fn a_bridge_to_a_piece_that_was_turned() {
    let lines: [&[Point]; 3] =
        [&[[0.0, 0.0], [1.25, 0.0]], &[[4.5, 0.0], [3.5, 0.0]], &[[4.5, 0.0], [6.0, 0.0]]];
    let told = joined(&lines, Settings { tolerance: 2.5, origin: [0.0, 0.0], limit: None });
    assert_eq!(told.len(), 2);
    let lines: [&[Point]; 3] =
        [&[[0.0, 0.0], [1.25, 0.0]], &[[4.5, 0.0], [1.75, 0.0]], &[[4.5, 0.0], [6.0, 0.0]]];
    let told = joined(&lines, Settings { tolerance: 1.0, origin: [0.0, 0.0], limit: None });
    let chains: Vec<Chain> = told.chains().collect();
    // The piece of lines 1 and 2 runs from 6 to 1.75 and is walked backwards, so its members stand
    // against the way of the points.
    assert_eq!(chains[0].members, [0, 2, 1]);
    let path = chains[0].path.iter().map(|step| (step.line, step.turned));
    assert!(path.eq([(0, false), (1, true), (2, false)]));
    assert_eq!(chains[0].joints[0].lines, [0, 1]);
    assert_eq!(chains[0].joints[0].ends, [[1.25, 0.0], [1.75, 0.0]]);
    assert_eq!(chains[0].joints[1].lines, [1, 2]);
}
