//! The workloads are what their names say, and no call of theirs is refused.

use answers::check::{build_call, pairing_call};
use bench::ends::{DIRECTIONS, SIZES};
use bench::workloads::{roads, Network, MODES, WORKLOADS};
use std::collections::HashMap;

/// How many ends each node of the exact keys has.
fn ends_at_nodes(network: &Network) -> Vec<usize> {
    let mut nodes: HashMap<[u64; 2], usize> = HashMap::new();
    for (line, first) in network.lines.firsts().into_iter().enumerate() {
        let points = network.lines.points(line, first);
        for end in [points[0], points[points.len() - 1]] {
            *nodes.entry(end).or_default() += 1;
        }
    }
    nodes.into_values().collect()
}

#[test]
fn every_building_call_is_accepted() {
    for workload in &WORKLOADS {
        for &lines in workload.sizes {
            let network = workload.network(lines);
            assert_eq!(network.lines.lines(), lines, "{}", workload.name);
            for mode in &MODES {
                assert_eq!(build_call(&network.call(mode)), Ok(()), "{}", workload.name);
            }
        }
    }
}

#[test]
fn every_pairing_call_is_accepted() {
    for directions in &DIRECTIONS {
        for ends in SIZES {
            let call = directions.call(ends);
            assert_eq!(call.ends(), ends);
            assert_eq!(pairing_call(&call), Ok(()), "{}", directions.name);
        }
    }
}

#[test]
fn borders_have_junctions_of_three_to_five() {
    let workload = WORKLOADS.iter().find(|workload| workload.name == "borders").unwrap();
    let borders = workload.network(4_096);
    let ends = ends_at_nodes(&borders);
    let nodes = |count| ends.iter().filter(|&&ends| ends == count).count();
    assert!([2, 3, 4, 5].iter().all(|&count| nodes(count) > 50));
    assert_eq!(ends.iter().max(), Some(&5));
    assert!(borders.lines.counts.iter().all(|count| (2..=40).contains(count)));
}

#[test]
fn a_road_is_one_line_of_nodes() {
    let ends = ends_at_nodes(&roads::road(256));
    assert_eq!(ends.iter().filter(|&&ends| ends == 1).count(), 2);
    assert_eq!(ends.iter().filter(|&&ends| ends == 2).count(), 255);
}

#[test]
fn long_lines_have_as_many_points_as_a_call_takes() {
    let long = roads::long_lines(16).lines;
    assert_eq!(long.coordinates.len(), 2 * 65_536);
    assert_eq!((long.lines_brought(), long.points_brought()), ([8; 2], [32_768; 2]));
}

#[test]
fn two_districts_have_networks_of_one_kind() {
    for workload in WORKLOADS.iter().filter(|workload| workload.sizes.contains(&4_096)) {
        let both = workload.network(4_096);
        assert_eq!(both.lines.lines_brought(), [2_048; 2], "{}", workload.name);
        let counted = |network: &Network| {
            let mut ends = ends_at_nodes(network);
            ends.sort_unstable();
            ends
        };
        let twice = counted(&workload.network(2_048)).into_iter().flat_map(|ends| [ends; 2]);
        assert_eq!(counted(&both), twice.collect::<Vec<_>>(), "{}", workload.name);
    }
}

#[test]
fn the_lines_of_a_star_meet_at_one_node() {
    for name in ["star", "log yard", "identical"] {
        let workload = WORKLOADS.iter().find(|workload| workload.name == name).unwrap();
        assert!(ends_at_nodes(&workload.network(256)).contains(&256), "{name}");
    }
}
