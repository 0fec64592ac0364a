//! Windows: the sides find the same before they are timed, and each window meets its part.

use bench::clock::Patience;
use bench::geos::Geos;
use bench::windows::{Looking, CHAINS, NETWORKS, PARTS};
use std::time::Duration;

const ONCE: Patience = Patience { time: Duration::from_millis(1), least: 1, most: 1 };

#[test]
fn all_sides_find_the_same() {
    let geos = Geos::find();
    for network in NETWORKS {
        for part in PARTS {
            let looking = Looking::of(network, part).expect("each line is a chain");
            assert!(looking.met() >= (CHAINS * part / 1_000) as f64, "{network} {part}");
            assert!(
                looking.met() <= 2.0 * (CHAINS * part / 1_000) as f64 + 20.0,
                "{network} {part}"
            );
            assert!(looking.compare(ONCE).is_ok(), "{network} {part}");
            if let Some(geos) = &geos {
                assert!(matches!(looking.geos(geos, ONCE), Ok(Some(_))), "{network} {part}");
            }
        }
    }
}
