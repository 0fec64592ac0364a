//! The arguments of `lovasuku why`.

use super::{help, options, reading, settings, store};
use crate::delivery::Reading;
use crate::districts::District;
use crate::source::Wanted;
use crate::store::Asked;
use clap::{Arg, ArgMatches, Command};
use lovasuku_chains::Settings;
use std::path::PathBuf;

/// What a run of `lovasuku why` is asked for.
#[derive(Clone, Debug, PartialEq)]
pub struct Question {
    pub input: PathBuf,
    /// The names of the two lines.
    pub lines: [String; 2],
    pub settings: Settings,
    pub class: Option<String>,
    pub district: Option<District>,
    pub reading: Reading,
    /// What is asked of a store.
    pub store: Asked,
    pub units: Option<String>,
}

impl Question {
    /// What is to be read.
    pub fn wanted(&self) -> Wanted<'_> {
        Wanted { input: &self.input, reading: &self.reading, store: &self.store }
    }
}

/// The subcommand.
pub fn command() -> Command {
    let line = |name: &'static str, words: &'static str| {
        Arg::new(name).value_name("LINE").required(true).allow_hyphen_values(true).help(words)
    };
    Command::new("why")
        .about("Tell why two lines of a delivery are joined or not")
        .long_about(help::WHY)
        .after_help(help::WHY_EXAMPLES)
        .arg(
            options::path("input")
                .value_name("IN")
                .required(true)
                .help("The delivery that was joined, - for the standard input, or what GDAL reads"),
        )
        .arg(line("one", "The name of a line: its id, or its position"))
        .arg(line("other", "The name of another"))
        .next_help_heading("Joining")
        .args(options::with_one_tolerance())
        .next_help_heading("Reading")
        .args(options::reading())
        .next_help_heading("Stores")
        .args(options::store())
        .next_help_heading("Lengths")
        .arg(options::units())
}

/// The question that the arguments ask.
pub fn of(matches: &ArgMatches) -> Question {
    let text = |name: &str| matches.get_one::<String>(name).cloned();
    let (settings, _, _) = settings(matches);
    let tolerance = matches.get_one::<f64>("tolerance").copied().unwrap_or_default();
    Question {
        input: matches.get_one::<PathBuf>("input").cloned().unwrap_or_default(),
        lines: ["one", "other"].map(|name| text(name).unwrap_or_default()),
        settings: settings.with_tolerance(tolerance),
        class: text("class"),
        district: matches.get_one::<District>("district").cloned(),
        reading: reading(matches),
        store: store(matches),
        units: text("units"),
    }
}
