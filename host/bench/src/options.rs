//! What the command is asked for.

use crate::clock::Patience;
use crate::table::Form;
use std::time::Duration;

pub const USAGE: &str = "bench [--quick] [--only NAME] [--markdown] [--gate]

  --quick      fewer sizes and shorter runs, under 20 seconds instead of 3 minutes
  --only NAME  only workloads with NAME in their name, which for pairing calls begins with `pairs`,
               for checks with `checking` and for many tolerances with `zooms`
  --markdown   tables in the form of docs/SPEED.md
  --gate       status 1 where a ratio is above 1, one to GEOS's WKB above 0.2, one of windows to a
               look at all boxes above 0.25, one of checking networks to building above 1, one of five
               zooms of borders to five whole calls above 0.75, one of 19 to finishing above 0.1,
               one of deliveries on two cores above 0.6, or
               the geometric mean of building above 0.5

Exit status: 0, or 1 where the sides answer differently or the gate is shut; 2 for bad usage.";

/// The options of a run.
#[derive(Clone, Debug, Default, PartialEq)]
pub struct Options {
    pub quick: bool,
    pub only: Option<String>,
    pub form: Form,
    pub gate: bool,
}

impl Options {
    /// The options that the words stand for, if they stand for any.
    pub fn of(mut words: impl Iterator<Item = String>) -> Option<Options> {
        let mut options = Options::default();
        while let Some(word) = words.next() {
            match word.as_str() {
                "--quick" => options.quick = true,
                "--only" => options.only = Some(words.next()?),
                "--markdown" => options.form = Form::Markdown,
                "--gate" => options.gate = true,
                _ => return None,
            }
        }
        Some(options)
    }

    /// True where a workload of this name is asked for.
    pub fn asks_for(&self, name: &str) -> bool {
        self.only.as_ref().map_or(true, |only| name.contains(only.as_str()))
    }

    /// The sizes that are run: all of them, or the smallest and the largest.
    pub fn sizes(&self, all: &[usize]) -> Vec<usize> {
        match (self.quick, all) {
            (true, &[least, .., most]) => vec![least, most],
            _ => all.to_vec(),
        }
    }

    /// How long a comparison is run.
    pub fn patience(&self) -> Patience {
        let milliseconds = if self.quick { 30 } else { 250 };
        Patience { time: Duration::from_millis(milliseconds), least: 3, most: 1_000 }
    }
}
