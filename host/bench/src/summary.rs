//! The ratios of a run taken together, and the gate.

use crate::table::short;

/// No ratio may be above this.
pub const MOST_RATIO: f64 = 1.0;

/// No ratio to GEOS's reading of WKB may be above this.
pub const MOST_OF_GEOS: f64 = 0.2;

/// No time with extras may be above this part of that without, by the bytes of both: 1, and a tenth for
/// what a clock does not tell apart.
pub const MOST_OF_BYTES: f64 = 1.1;

/// No window that meets a hundredth of the chains may take more than this part of a look at all boxes in
/// plain Rust, and of GEOS's tree.
pub const MOST_OF_ALL_BOXES: f64 = 0.25;
pub const MOST_OF_TREE: f64 = 1.0;

/// No check of a network of many chains may take more than this part of building it.
pub const MOST_OF_BUILDING: f64 = 1.0;

/// Five tolerances by one round one may not take more than this part of five whole calls, on a network like real
/// borders; and 19's look at the pieces not more than this part of a call that finishes them.
pub const MOST_OF_FIVE_CALLS: f64 = 0.75;
pub const MOST_OF_FINISHING: f64 = 0.1;
/// No delivery may take more than these parts of one call of the Rust, on one core and on two.
pub const MOST_ON_ONE: f64 = 1.0;
pub const MOST_ON_TWO: f64 = 0.6;

/// The geometric mean of building may not be above this.
pub const MOST_MEAN: f64 = 0.5;

/// Ratios of one kind, each with the name of its workload.
#[derive(Clone, Debug, Default)]
pub struct Ratios(Vec<(String, f64)>);

impl Ratios {
    pub fn push(&mut self, name: String, ratio: f64) {
        self.0.push((name, ratio));
    }

    /// The geometric mean, if there is a ratio.
    pub fn mean(&self) -> Option<f64> {
        let logarithms: f64 = self.0.iter().map(|(_, ratio)| ratio.ln()).sum();
        (!self.0.is_empty()).then(|| (logarithms / self.0.len() as f64).exp())
    }

    /// The greatest ratio with its name, if there is one.
    pub fn worst(&self) -> Option<&(String, f64)> {
        self.0.iter().max_by(|a, b| a.1.total_cmp(&b.1))
    }

    /// The ratios above the most that is allowed, the greatest first.
    pub fn above(&self, most: f64) -> Vec<&(String, f64)> {
        let mut above: Vec<_> = self.0.iter().filter(|(_, ratio)| *ratio > most).collect();
        above.sort_by(|a, b| b.1.total_cmp(&a.1));
        above
    }

    /// One line: how many, the geometric mean, the worst.
    pub fn line(&self, title: &str) -> Option<String> {
        let (name, worst) = self.worst()?;
        let (count, mean) = (self.0.len(), short(self.mean()?));
        let worst = short(*worst);
        Some(format!("{title}: {count} ratios, geometric mean {mean}, worst {worst} ({name})"))
    }
}

/// All ratios of a run.
#[derive(Clone, Debug, Default)]
pub struct Summary {
    pub building: Ratios,
    pub pairing: Ratios,
    pub geos: Ratios,
    pub wkb: Ratios,
    pub wkb_geos: Ratios,
    /// The port's time with extras as a part of that without, each by its bytes.
    pub extras: Ratios,
    /// Windows that meet a hundredth of the chains.
    pub windows: Ratios,
    pub windows_geos: Ratios,
    /// Checks of what was built, as parts of building it: of networks, and of one long chain, few lines and
    /// long ones.
    pub checking: Ratios,
    pub checking_beside: Ratios,
    /// Five tolerances by one round one, as parts of five whole calls: of borders, and of all else.
    pub zooms: Ratios,
    pub zooms_beside: Ratios,
    /// 19's look at the pieces of borders, as parts of a call that finishes them.
    pub judging: Ratios,
    /// Deliveries of many lines, on one core and on two.
    pub one_core: Ratios,
    pub two_cores: Ratios,
}

impl Summary {
    /// The lines about each kind, then one for each ratio above the most that is allowed.
    pub fn lines(&self) -> Vec<String> {
        let titles = [
            ("building", &self.building),
            ("pairing", &self.pairing),
            ("building, of GEOS", &self.geos),
            ("WKB, of plain Rust", &self.wkb),
            ("WKB, of GEOS", &self.wkb_geos),
            ("extras, of their bytes", &self.extras),
            ("windows, of all boxes in plain Rust", &self.windows),
            ("windows, of GEOS's tree", &self.windows_geos),
            ("checking networks, of building", &self.checking),
            ("checking others, of building", &self.checking_beside),
            ("zooms of borders, of five whole calls", &self.zooms),
            ("zooms of others, of five whole calls", &self.zooms_beside),
            ("19 of borders, of finishing", &self.judging),
            ("deliveries on one core", &self.one_core),
            ("deliveries on two", &self.two_cores),
        ];
        let mut lines: Vec<_> =
            titles.iter().filter_map(|(title, ratios)| ratios.line(title)).collect();
        for (ratios, most) in self.gated() {
            for (name, ratio) in ratios.above(most) {
                lines.push(format!("above {}: {} ({name})", short(most), short(*ratio)));
            }
        }
        lines
    }

    /// The ratios that the gate looks at one by one, with the most that each may be.
    fn gated(&self) -> [(&Ratios, f64); 12] {
        [
            (&self.building, MOST_RATIO),
            (&self.pairing, MOST_RATIO),
            (&self.wkb, MOST_RATIO),
            (&self.wkb_geos, MOST_OF_GEOS),
            (&self.extras, MOST_OF_BYTES),
            (&self.windows, MOST_OF_ALL_BOXES),
            (&self.windows_geos, MOST_OF_TREE),
            (&self.checking, MOST_OF_BUILDING),
            (&self.zooms, MOST_OF_FIVE_CALLS),
            (&self.judging, MOST_OF_FINISHING),
            (&self.one_core, MOST_ON_ONE),
            (&self.two_cores, MOST_ON_TWO),
        ]
    }

    /// True where the gate is open.
    pub fn within(&self) -> bool {
        let no_ratio_above =
            self.gated().iter().all(|(ratios, most)| ratios.above(*most).is_empty());
        no_ratio_above && self.building.mean().map_or(true, |mean| mean <= MOST_MEAN)
    }
}
