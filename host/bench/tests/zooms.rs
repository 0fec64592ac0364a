//! Zooms: two calls have the chains of one before they are timed, and 19 stands between 17 and 7.

use bench::clock::Patience;
use bench::workloads::{MODES, WORKLOADS};
use bench::zooms::Zooms;
use std::time::Duration;

const ONCE: Patience = Patience { time: Duration::from_millis(1), least: 1, most: 1 };

#[test]
fn two_calls_have_the_chains_of_one() {
    for workload in &WORKLOADS {
        let network = workload.network(workload.sizes[0]);
        for mode in &MODES {
            let call = network.call(mode);
            let mut zooms = Zooms::of(&call);
            let name = format!("{}, {}", workload.name, mode.name);
            assert!(zooms.compare(ONCE).is_ok(), "{name}: {:?}", zooms.compare(ONCE));
            assert!(zooms.judging(ONCE).is_ok(), "{name}: {:?}", zooms.judging(ONCE));
        }
    }
}
