//! The building workloads. A name and a size determine the lines, on every machine alike.

pub mod districts;
pub mod networks;
pub mod roads;
pub mod stars;

use answers::{BuildCall, MOST_DISTRICT_LINES};

/// Lines, with the settings under which they are built.
pub struct Network {
    /// The lines; all plain and of one group in a district, since GEOS knows neither kinds nor groups.
    pub lines: BuildCall,
    /// A tolerance at which round two has nodes to join.
    pub coarse: f64,
    /// The limit where junctions are paired.
    pub limit: f64,
}

/// A named way to make a network of so many lines.
pub struct Workload {
    pub name: &'static str,
    pub sizes: &'static [usize],
    make: fn(usize) -> Network,
}

impl Workload {
    /// The network of so many lines: of one district, or, where one may not have so many, half of them of
    /// each.
    pub fn network(&self, lines: usize) -> Network {
        match lines > MOST_DISTRICT_LINES {
            true => districts::two((self.make)(lines / 2)),
            false => (self.make)(lines),
        }
    }
}

/// Bends of up to 60 degrees.
pub const USUAL_LIMIT: f64 = -0.5;

/// The most lines of a district stand before those of two.
const GROWTH: &[usize] = &[256, 1_024, 2_048, 4_096];

/// All workloads, in the order of the table.
pub const WORKLOADS: [Workload; 10] = [
    Workload { name: "tiny", sizes: &[3, 30], make: networks::borders },
    Workload { name: "borders", sizes: GROWTH, make: networks::borders },
    Workload { name: "grid", sizes: GROWTH, make: networks::grid },
    Workload { name: "tree", sizes: GROWTH, make: networks::tree },
    Workload { name: "road", sizes: GROWTH, make: roads::road },
    Workload { name: "shuffled road", sizes: GROWTH, make: roads::shuffled },
    Workload { name: "star", sizes: GROWTH, make: stars::star },
    Workload { name: "log yard", sizes: GROWTH, make: stars::log_yard },
    Workload { name: "identical", sizes: GROWTH, make: stars::identical },
    Workload { name: "long lines", sizes: &[16], make: roads::long_lines },
];

/// A way to build: the switch, and whether the tolerance is coarse or 0.
pub struct Mode {
    pub name: &'static str,
    pub switch: u8,
    pub coarse: bool,
}

/// All modes, in the order of the columns.
pub const MODES: [Mode; 4] = [
    Mode { name: "strict", switch: 0, coarse: false },
    Mode { name: "junctions", switch: 1, coarse: false },
    Mode { name: "strict, coarse", switch: 0, coarse: true },
    Mode { name: "junctions, coarse", switch: 1, coarse: true },
];

impl Mode {
    /// True for the one mode that GEOS has too.
    pub fn is_plainest(&self) -> bool {
        self.switch == 0 && !self.coarse
    }
}

impl Network {
    /// The call that builds these lines in a mode.
    pub fn call(&self, mode: &Mode) -> BuildCall {
        let tolerance = if mode.coarse { self.coarse } else { 0.0 };
        BuildCall {
            tolerance: tolerance.to_bits(),
            switch: mode.switch,
            limit: self.limit.to_bits(),
            ..self.lines.clone()
        }
    }
}
