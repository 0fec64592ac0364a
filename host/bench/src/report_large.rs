//! The table of deliveries of many lines.

use crate::clock::Patience;
use crate::large::{call, compare, region, MODES, REGIONS, SIZES};
use crate::report::{Report, NOTHING};
use crate::table::{head, measured, row, time, whole, Column};
use answers::styles::Style;
use answers::BuildCall;

const COLUMNS: [Column; 7] = [
    Column::words("deliveries", 12),
    Column::numbers("lines", 9),
    Column::numbers("points", 10),
    Column::words("mode", 17),
    Column::numbers("the Rust", 8),
    Column::numbers("on one core", 15),
    Column::numbers("on two", 15),
];

/// A delivery is put so often at least, since one of a million lines takes about a second.
const LEAST: usize = 3;

impl Report<'_> {
    /// Measures and prints deliveries of each region.
    pub(crate) fn deliveries(&mut self) -> Result<(), String> {
        let named =
            |(name, _): &Style<BuildCall>| self.options.asks_for(&format!("deliveries, {name}"));
        let regions: Vec<Style<BuildCall>> = REGIONS.into_iter().filter(named).collect();
        if !regions.is_empty() {
            println!("\n{}", head(self.options.form, &COLUMNS));
        }
        let sizes = if self.options.quick { &SIZES[..1] } else { &SIZES[..] };
        for style in regions {
            for &lines in sizes {
                self.deliveries_rows(style, lines)?;
            }
        }
        Ok(())
    }

    fn deliveries_rows(&mut self, style: Style<BuildCall>, lines: usize) -> Result<(), String> {
        let region = region(style, lines);
        let patience = Patience { least: LEAST, ..self.options.patience() };
        for mode in &MODES {
            let name = format!("{} of {}, {}", style.0, whole(lines), mode.name);
            let times = compare(self.oracle, &call(&region, mode), patience)
                .map_err(|fault| format!("{name}: {fault}"))?;
            let of = |port: f64| measured(self.options.form, port / times.rust, port);
            let cells = [
                style.0.to_string(),
                whole(lines),
                whole(region.coordinates.len() / 2),
                mode.name.to_string(),
                time(times.rust),
                of(times.one),
                times.two.map_or(NOTHING.to_string(), of),
            ];
            self.summary.one_core.push(name.clone(), times.one / times.rust);
            if let Some(two) = times.two {
                self.summary.two_cores.push(name, two / times.rust);
            }
            println!("{}", row(self.options.form, &COLUMNS, &cells));
        }
        Ok(())
    }
}
