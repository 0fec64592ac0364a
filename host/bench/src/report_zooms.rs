//! The table of zooms.

use crate::report::Report;
use crate::table::{head, measured, row, short, time, whole, Column};
use crate::workloads::{Workload, MODES, WORKLOADS};
use crate::zooms::Zooms;

const COLUMNS: [Column; 8] = [
    Column::words("zooms", 13),
    Column::numbers("lines", 5),
    Column::numbers("points", 6),
    Column::numbers("strict", 17),
    Column::numbers("junctions", 17),
    Column::numbers("19, strict", 10),
    Column::numbers("19, junctions", 13),
    Column::numbers("of a finish", 11),
];

/// The workload whose ratios the gate looks at.
const GATED: &str = "borders";

/// Below so many lines a call is too short for what stands in it to be told apart.
const LEAST: usize = 256;

impl Report<'_> {
    /// Measures and prints five tolerances by one round one, as a part of five whole calls, and 19's look at the
    /// pieces as a part of a call that finishes.
    pub(crate) fn zooms(&mut self) -> Result<(), String> {
        let asked =
            |workload: &&Workload| self.options.asks_for(&format!("zooms, {}", workload.name));
        let workloads: Vec<&Workload> = WORKLOADS.iter().filter(asked).collect();
        if !workloads.is_empty() {
            println!("\n{}", head(self.options.form, &COLUMNS));
        }
        for workload in workloads {
            for lines in self.options.sizes(workload.sizes) {
                self.zooms_row(workload, lines)?;
            }
        }
        Ok(())
    }

    fn zooms_row(&mut self, workload: &Workload, lines: usize) -> Result<(), String> {
        let network = workload.network(lines);
        let points = network.lines.coordinates.len() / 2;
        let (patience, form) = (self.options.patience(), self.options.form);
        let mut cells = vec![workload.name.to_string(), whole(lines), whole(points)];
        let (mut looks, mut parts) = (Vec::new(), Vec::new());
        for mode in MODES.iter().filter(|mode| mode.coarse) {
            let name = format!("{} of {}, {}", workload.name, whole(lines), mode.name);
            let in_this = |fault| format!("zooms, {name}: {fault}");
            let call = network.call(mode);
            let mut zooms = Zooms::of(&call);
            let times = zooms.compare(patience).map_err(in_this)?;
            let [look, finish] = zooms.judging(patience).map_err(in_this)?;
            cells.push(measured(form, times.ratio(), times.port));
            looks.push(time(look));
            parts.push(short(look / finish));
            if workload.name == GATED && lines >= LEAST {
                self.summary.zooms.push(name.clone(), times.ratio());
                self.summary.judging.push(name, look / finish);
            } else {
                self.summary.zooms_beside.push(name, times.ratio());
            }
        }
        cells.extend(looks);
        cells.push(parts.join(", "));
        println!("{}", row(form, &COLUMNS, &cells));
        Ok(())
    }
}
