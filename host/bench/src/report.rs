//! A whole run: the tables, row by row as they are measured, and what they add up to.

use crate::clock::Patience;
use crate::ends::{Directions, Rivals, DIRECTIONS, ROUTES, SIZES};
use crate::geos::Geos;
use crate::options::Options;
use crate::summary::Summary;
use crate::table::{head, measured, row, short, time, whole, Column};
use crate::times::Times;
use crate::wkb::{self, Run};
use crate::workloads::{Workload, MODES, WORKLOADS};
use crate::{building, pairing};
use answers::random::Random;
use answers::styles::heights::with_extras;
use answers::{BuildCall, Route};
use oracle::Oracle;

/// What was not measured.
pub(crate) const NOTHING: &str = "-";

const BUILDING: [Column; 9] = [
    Column::words("building", 13),
    Column::numbers("lines", 5),
    Column::numbers("points", 6),
    Column::numbers(MODES[0].name, 17),
    Column::numbers(MODES[1].name, 17),
    Column::numbers(MODES[2].name, 17),
    Column::numbers(MODES[3].name, 17),
    Column::numbers("zeroing, strict", 15),
    Column::numbers("of GEOS, strict", 15),
];

const PAIRING: [Column; 7] = [
    Column::words("pairs", 23),
    Column::words("directions", 25),
    Column::numbers("limit", 5),
    Column::numbers("32 ends", 15),
    Column::numbers("200 ends", 15),
    Column::numbers("2,000 ends", 15),
    Column::numbers("8,192 ends", 15),
];

const WKB: [Column; 6] = [
    Column::words("WKB", 19),
    Column::numbers("records", 7),
    Column::numbers("points", 6),
    Column::numbers("of plain Rust", 15),
    Column::numbers("copy alone", 15),
    Column::numbers("of GEOS", 7),
];

const EXTRAS: [Column; 6] = [
    Column::words("extras", 26),
    Column::numbers("lines", 6),
    Column::numbers("points", 6),
    Column::numbers("type 2", 7),
    Column::numbers("Z, of its bytes", 15),
    Column::numbers("ZM, of its bytes", 16),
];

/// The workloads of building with extras, with their modes.
const HIGH: [(&str, usize, usize); 3] =
    [("borders", 4_096, 0), ("borders", 4_096, 3), ("long lines", 16, 0)];

/// A run in the making.
pub struct Report<'a> {
    pub oracle: Oracle,
    pub geos: Option<&'a Geos>,
    pub options: &'a Options,
    pub summary: Summary,
}

impl Report<'_> {
    /// Measures and prints everything that is asked for. The error names the workload on which
    /// the sides differ.
    pub fn run(&mut self) -> Result<(), String> {
        self.building()?;
        self.pairing()?;
        self.windows()?;
        self.checking()?;
        self.zooms()?;
        self.deliveries()?;
        self.wkb()?;
        self.extras()
    }

    fn building(&mut self) -> Result<(), String> {
        let asked = |workload: &&Workload| self.options.asks_for(workload.name);
        let workloads: Vec<_> = WORKLOADS.iter().filter(asked).collect();
        self.head(&BUILDING, workloads.is_empty());
        for workload in workloads {
            for lines in self.options.sizes(workload.sizes) {
                self.building_row(workload, lines)?;
            }
        }
        Ok(())
    }

    fn pairing(&mut self) -> Result<(), String> {
        let with_all = |rivals| DIRECTIONS.iter().map(move |ways| (rivals, ways));
        let mut rows: Vec<(&Rivals, &Directions)> = ROUTES.iter().flat_map(with_all).collect();
        rows.retain(|(rivals, ways)| self.options.asks_for(&pairs_name(rivals, ways)));
        self.head(&PAIRING, rows.is_empty());
        for (rivals, ways) in rows {
            self.pairing_row(rivals, ways)?;
        }
        Ok(())
    }

    fn wkb(&mut self) -> Result<(), String> {
        let rows = |&way: &WkbWay| {
            let of = move |&(order, number): &(&'static str, u8)| {
                // Heights and measures in one order: the other differs by as much as that of x and y.
                let types = if number == 1 { &wkb::TYPES[..] } else { &wkb::TYPES[..1] };
                let named = move |&(kind, wkb_type): &(&'static str, u32)| {
                    let name = format!("WKB {}, {order}{kind}", way.name);
                    let of = move |&records| (way, name.clone(), wkb_type, records, number);
                    wkb::RECORDS.iter().map(of)
                };
                types.iter().flat_map(named)
            };
            wkb::ORDERS.iter().flat_map(of)
        };
        let mut rows: Vec<(WkbWay, String, u32, usize, u8)> =
            WKB_WAYS.iter().flat_map(rows).collect();
        rows.retain(|(_, name, ..)| self.options.asks_for(name));
        self.head(&WKB, rows.is_empty());
        for (way, name, wkb_type, records, order) in rows {
            self.wkb_row(way, &name, &Run::of(wkb_type, records, order))?;
        }
        Ok(())
    }

    /// The library's times with extras as parts of those without.
    fn extras(&mut self) -> Result<(), String> {
        let named = |(name, lines, mode): &(&str, usize, usize)| {
            (format!("extras, {name}, {}", MODES[*mode].name), *lines)
        };
        let building: Vec<_> =
            HIGH.iter().filter(|high| self.options.asks_for(&named(high).0)).collect();
        let wkb: Vec<_> = WKB_WAYS
            .iter()
            .flat_map(|way| wkb::RECORDS.iter().map(move |&records| (way, records)))
            .filter(|(way, _)| self.options.asks_for(&format!("extras, WKB {}", way.name)))
            .collect();
        self.head(&EXTRAS, building.is_empty() && wkb.is_empty());
        let patience = self.options.patience();
        for high in building {
            let ((name, lines), mode) = (named(high), &MODES[high.2]);
            let workload = WORKLOADS.iter().find(|workload| workload.name == high.0);
            let flat =
                workload.map(|workload| workload.network(lines).call(mode)).unwrap_or_default();
            let of = |&(_, wkb_type): &(&str, u32)| match wkb_type {
                2 => flat.clone(),
                _ => with_extras(&mut Random::new(7), &flat, wkb_type),
            };
            let calls: Vec<BuildCall> = wkb::TYPES.iter().map(of).collect();
            let times = building::with_extras(&calls, patience);
            let bytes: Vec<f64> = calls.iter().map(|call| call.coordinates.len() as f64).collect();
            let points = flat.coordinates.len() / 2;
            let times = times.map_err(|fault| format!("{name}: {fault}"))?;
            self.extras_row(&name, lines, points, &times, &bytes);
        }
        for (way, records) in wkb {
            let name = format!("extras, WKB {}", way.name);
            let runs: Vec<Run> =
                wkb::TYPES.map(|(_, t)| Run::of_points(t, wkb::FEW_POINTS, records, 1)).into();
            let times =
                (way.times_of)(&runs, patience).map_err(|fault| format!("{name}: {fault}"))?;
            let bytes: Vec<f64> = runs.iter().map(|run| run.bytes.len() as f64).collect();
            self.extras_row(&name, records, wkb::FEW_POINTS, &times, &bytes);
        }
        Ok(())
    }

    /// A row of times of type 2, Z and ZM, with the bytes of each.
    fn extras_row(
        &mut self,
        name: &str,
        lines: usize,
        points: usize,
        times: &[f64],
        bytes: &[f64],
    ) {
        let short_name = name.strip_prefix("extras, ").unwrap_or(name);
        let mut cells = vec![short_name.to_string(), whole(lines), whole(points), time(times[0])];
        for (k, kind) in [(1, "Z"), (2, "ZM")] {
            let ratio = times[k] / times[0] / (bytes[k] / bytes[0]);
            cells.push(measured(self.options.form, ratio, times[k]));
            self.summary.extras.push(format!("{kind}, {short_name} of {}", whole(lines)), ratio);
        }
        println!("{}", row(self.options.form, &EXTRAS, &cells));
    }

    /// The head of a table that has a row.
    fn head(&self, columns: &[Column], empty: bool) {
        if !empty {
            println!("\n{}", head(self.options.form, columns));
        }
    }

    fn building_row(&mut self, workload: &Workload, lines: usize) -> Result<(), String> {
        let network = workload.network(lines);
        let points = network.lines.coordinates.len() / 2;
        let mut cells = vec![workload.name.to_string(), whole(lines), whole(points)];
        let mut beside = Vec::new();
        for mode in &MODES {
            let name = format!("{} of {}, {}", workload.name, whole(lines), mode.name);
            let in_this = |fault| format!("{name}: {fault}");
            let call = network.call(mode);
            let times = building::compare(self.oracle, &call, self.options.patience());
            let times = times.map_err(in_this)?;
            cells.push(measured(self.options.form, times.ratio(), times.port));
            if mode.is_plainest() {
                beside = self.beside(&name, &call, times).map_err(in_this)?;
            }
            self.summary.building.push(name, times.ratio());
        }
        cells.extend(beside);
        println!("{}", row(self.options.form, &BUILDING, &cells));
        Ok(())
    }

    /// What stands beside the ratios: the zeroing alone as a part of the Rust's time, and the
    /// port's time as a part of GEOS's.
    fn beside(
        &mut self,
        name: &str,
        call: &BuildCall,
        times: Times,
    ) -> Result<Vec<String>, String> {
        let patience = self.options.patience();
        let zeroing = building::zeroing(call, patience);
        let mut cells = vec![measured(self.options.form, zeroing / times.rust, zeroing)];
        cells.push(match self.geos {
            Some(geos) => {
                let ratio = times.port / building::merging(self.oracle, geos, call, patience)?;
                self.summary.geos.push(name.to_string(), ratio);
                short(ratio)
            }
            None => NOTHING.to_string(),
        });
        Ok(cells)
    }

    fn pairing_row(&mut self, rivals: &Rivals, ways: &Directions) -> Result<(), String> {
        let mut cells =
            vec![rivals.name.to_string(), ways.name.to_string(), format!("{}", ways.limit)];
        for ends in SIZES {
            if self.options.quick && too_long(rivals.route, ends) {
                cells.push(NOTHING.to_string());
                continue;
            }
            let name = format!("{} of {}", pairs_name(rivals, ways), whole(ends));
            let (call, patience) = (ways.call(ends), self.options.patience());
            let times = pairing::compare(self.oracle, rivals.route, &call, patience)
                .map_err(|fault| format!("{name}: {fault}"))?;
            cells.push(measured(self.options.form, times.ratio(), times.port));
            self.summary.pairing.push(name, times.ratio());
        }
        println!("{}", row(self.options.form, &PAIRING, &cells));
        Ok(())
    }

    fn wkb_row(&mut self, way: WkbWay, name: &str, run: &Run) -> Result<(), String> {
        let (records, patience) = (whole(run.lengths.len()), self.options.patience());
        let full_name = format!("{name} of {records}");
        let in_this = |fault| format!("{full_name}: {fault}");
        let times = (way.times)(run, patience).map_err(in_this)?;
        let copying = wkb::copying(run, patience);
        let mut cells = vec![name.to_string(), records.clone(), whole(wkb::POINTS)];
        cells.push(measured(self.options.form, times.ratio(), times.port));
        cells.push(measured(self.options.form, copying / times.rust, copying));
        let geos = self.geos.map(|geos| (way.geos)(geos, run, patience).map_err(in_this));
        cells.push(match geos.transpose()?.flatten() {
            Some(geos) => {
                let ratio = times.port / geos;
                self.summary.wkb_geos.push(full_name.clone(), ratio);
                short(ratio)
            }
            None => NOTHING.to_string(),
        });
        self.summary.wkb.push(full_name, times.ratio());
        println!("{}", row(self.options.form, &WKB, &cells));
        Ok(())
    }
}

/// Reading or writing records, with how it is timed, and how GEOS is.
#[derive(Clone, Copy)]
struct WkbWay {
    name: &'static str,
    times: fn(&Run, Patience) -> Result<Times, String>,
    times_of: fn(&[Run], Patience) -> Result<Vec<f64>, String>,
    geos: fn(&Geos, &Run, Patience) -> Result<Option<f64>, String>,
}

const WKB_WAYS: [WkbWay; 2] = [
    WkbWay { name: "in", times: wkb::reading, times_of: wkb::readings, geos: wkb::geos_reading },
    WkbWay { name: "out", times: wkb::writing, times_of: wkb::writings, geos: wkb::geos_writing },
];

/// The Rust's sorted route takes seconds for the most ends.
fn too_long(route: Route, ends: usize) -> bool {
    route == Route::Plain && ends > 2_000
}

fn pairs_name(rivals: &Rivals, ways: &Directions) -> String {
    format!("pairs {}, {}", rivals.name, ways.name)
}
