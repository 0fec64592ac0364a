//! Whether the leaves and the processor agree, pattern by pattern.

use crate::leaves;
use std::fmt;

/// Tolerances for the cells, taken in turn: plain ones, one below every number, and no numbers.
const TOLERANCES: [f64; 6] = [1.0, 0.1, 1e-7, 5e-324, f64::INFINITY, f64::NAN];

/// Origins for the cells, taken in turn: zeros of both signs, plain ones, the least and the greatest
/// number, and no numbers. Their number has no factor in common with that of the tolerances, so that
/// each is taken with each.
const ORIGINS: [f64; 11] =
    [0.0, -0.0, 0.25, -0.1, 4096.0, -1e15, 5e-324, f64::MAX, f64::MIN, f64::NEG_INFINITY, f64::NAN];

/// The patterns at which one leaf differs.
#[derive(Default)]
pub struct Differing {
    pub count: u64,
    pub first: Option<u64>,
}

impl Differing {
    fn note(&mut self, bits: u64, agrees: bool) {
        if !agrees {
            self.count += 1;
            self.first.get_or_insert(bits);
        }
    }
}

/// What a run over patterns found.
#[derive(Default)]
pub struct Report {
    pub patterns: u64,
    pub bits: Differing,
    pub root: Differing,
    pub floor: Differing,
    pub cell: Differing,
}

impl Report {
    /// Compares each leaf with the processor at each pattern.
    pub fn of(patterns: impl Iterator<Item = u64>) -> Report {
        let mut report = Report::default();
        for bits in patterns {
            let x = f64::from_bits(bits);
            let tolerance = TOLERANCES[report.patterns as usize % TOLERANCES.len()];
            let origin = ORIGINS[report.patterns as usize % ORIGINS.len()];
            report.patterns += 1;
            report.bits.note(bits, same(leaves::of_bits(bits), x) && kept(x));
            report.root.note(bits, same(leaves::root(x), leaves::processor_root(x)));
            report.floor.note(bits, leaves::floor(x) == leaves::processor_floor(x));
            let cell = leaves::cell(bits, origin, tolerance);
            report.cell.note(bits, cell == leaves::processor_cell(bits, origin, tolerance));
        }
        report
    }

    /// Whether nothing differs.
    pub fn agrees(&self) -> bool {
        self.rows().iter().all(|(_, differing)| differing.count == 0)
    }

    fn rows(&self) -> [(&'static str, &Differing); 4] {
        [("bits", &self.bits), ("root", &self.root), ("floor", &self.floor), ("cell", &self.cell)]
    }
}

impl fmt::Display for Report {
    fn fmt(&self, f: &mut fmt::Formatter) -> fmt::Result {
        writeln!(f, "{} patterns", self.patterns)?;
        for (name, differing) in self.rows() {
            write!(f, "{name:6}{:>10} differ", differing.count)?;
            match differing.first {
                Some(bits) => writeln!(f, ", first at bits {bits:#018x}")?,
                None => writeln!(f)?,
            }
        }
        Ok(())
    }
}

/// Equal bits, or two NaNs.
fn same(x: f64, y: f64) -> bool {
    x.to_bits() == y.to_bits() || (x.is_nan() && y.is_nan())
}

/// A value kept as its bits comes back, and a NaN has one pattern.
fn kept(x: f64) -> bool {
    let expected = if x.is_nan() { 0x7ff8_0000_0000_0000 } else { x.to_bits() };
    leaves::bits_of(x) == expected
}
