//! The table of windows.

use crate::report::{Report, NOTHING};
use crate::table::{head, measured, row, short, whole, Column};
use crate::windows::{Looking, CHAINS, NETWORKS, PARTS};

const COLUMNS: [Column; 5] = [
    Column::words("windows over", 15),
    Column::numbers("chains", 6),
    Column::numbers("met", 5),
    Column::numbers("of all boxes in plain Rust", 26),
    Column::numbers("of GEOS's tree", 14),
];

/// The part of all chains, in thousandths, whose ratios the gate looks at.
const GATED: usize = 10;

impl Report<'_> {
    /// Measures and prints what lies in windows over each network.
    pub(crate) fn windows(&mut self) -> Result<(), String> {
        let named = |network: &&str| self.options.asks_for(&format!("windows, {network}"));
        let networks: Vec<&str> = NETWORKS.into_iter().filter(|network| named(network)).collect();
        if !networks.is_empty() {
            println!("\n{}", head(self.options.form, &COLUMNS));
        }
        for network in networks {
            for part in PARTS {
                self.windows_row(network, part)?;
            }
        }
        Ok(())
    }

    fn windows_row(&mut self, network: &str, part: usize) -> Result<(), String> {
        let (name, patience) = (format!("windows, {network}"), self.options.patience());
        let in_this = |fault: String| format!("{name}: {fault}");
        let looking = Looking::of(network, part)
            .ok_or_else(|| in_this("the lines are not one chain each".to_string()))?;
        let times = looking.compare(patience).map_err(in_this)?;
        let geos = self.geos.map(|geos| looking.geos(geos, patience).map_err(in_this));
        let of_geos = geos.transpose()?.flatten().map(|geos| times.port / geos);
        let cells = [
            network.to_string(),
            whole(CHAINS),
            short(looking.met()),
            measured(self.options.form, times.ratio(), times.port),
            of_geos.map_or(NOTHING.to_string(), short),
        ];
        if part == GATED {
            self.summary.windows.push(network.to_string(), times.ratio());
            if let Some(ratio) = of_geos {
                self.summary.windows_geos.push(network.to_string(), ratio);
            }
        }
        println!("{}", row(self.options.form, &COLUMNS, &cells));
        Ok(())
    }
}
