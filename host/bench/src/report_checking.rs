//! The table of checks.

use crate::checking::{compare, Tangle, TANGLES};
use crate::report::Report;
use crate::table::{head, measured, row, time, whole, Column};
use crate::workloads::{Workload, MODES, WORKLOADS};

const COLUMNS: [Column; 7] = [
    Column::words("checking", 13),
    Column::numbers("lines", 5),
    Column::numbers("points", 6),
    Column::numbers(MODES[0].name, 17),
    Column::numbers(MODES[1].name, 17),
    Column::numbers(MODES[2].name, 17),
    Column::numbers(MODES[3].name, 17),
];

const TANGLED: [Column; 4] = [
    Column::words("checking", 13),
    Column::numbers("lines", 5),
    Column::numbers("points", 6),
    Column::numbers("time", 7),
];

/// The workloads whose ratios the gate looks at: networks of many chains. One long chain, few lines and long
/// ones stand beside them.
const GATED: [&str; 3] = ["borders", "grid", "tree"];

impl Report<'_> {
    /// Measures and prints checking as a part of building, and chains that may be travelled in many ways.
    pub(crate) fn checking(&mut self) -> Result<(), String> {
        let asked =
            |workload: &&Workload| self.options.asks_for(&format!("checking, {}", workload.name));
        let workloads: Vec<&Workload> = WORKLOADS.iter().filter(asked).collect();
        if !workloads.is_empty() {
            println!("\n{}", head(self.options.form, &COLUMNS));
        }
        for workload in workloads {
            for lines in self.options.sizes(workload.sizes) {
                self.checking_row(workload, lines)?;
            }
        }
        self.tangles()
    }

    fn checking_row(&mut self, workload: &Workload, lines: usize) -> Result<(), String> {
        let network = workload.network(lines);
        let points = network.lines.coordinates.len() / 2;
        let mut cells = vec![workload.name.to_string(), whole(lines), whole(points)];
        for mode in &MODES {
            let name = format!("{} of {}, {}", workload.name, whole(lines), mode.name);
            let times = compare(&network.call(mode), self.options.patience());
            let times = times.map_err(|fault| format!("checking, {name}: {fault}"))?;
            cells.push(measured(self.options.form, times.ratio(), times.port));
            let ratios = match GATED.contains(&workload.name) {
                true => &mut self.summary.checking,
                false => &mut self.summary.checking_beside,
            };
            ratios.push(name, times.ratio());
        }
        println!("{}", row(self.options.form, &COLUMNS, &cells));
        Ok(())
    }

    fn tangles(&mut self) -> Result<(), String> {
        if !self.options.asks_for("checking, tangle") {
            return Ok(());
        }
        println!("\n{}", head(self.options.form, &TANGLED));
        for (lines, points) in TANGLES {
            let taken = Tangle::of(lines, points).time(self.options.patience())?;
            let cells = ["tangle".to_string(), whole(lines), whole(lines * points), time(taken)];
            println!("{}", row(self.options.form, &TANGLED, &cells));
        }
        Ok(())
    }
}
