//! Checking: what is built is accepted before it is timed, and so are tangles.

use bench::checking::{compare, Tangle};
use bench::clock::Patience;
use bench::workloads::{MODES, WORKLOADS};
use std::time::Duration;

const ONCE: Patience = Patience { time: Duration::from_millis(1), least: 1, most: 1 };

#[test]
fn what_is_built_is_accepted() {
    for workload in &WORKLOADS {
        let network = workload.network(workload.sizes[0]);
        for mode in &MODES {
            let times = compare(&network.call(mode), ONCE);
            assert!(times.is_ok(), "{}, {}: {times:?}", workload.name, mode.name);
        }
    }
}

#[test]
fn tangles_are_accepted() {
    for (lines, points) in [(1, 2), (2, 2), (3, 4), (200, 2), (100, 16)] {
        assert!(Tangle::of(lines, points).time(ONCE).is_ok(), "{lines} {points}");
    }
}
