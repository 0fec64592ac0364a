//! The arguments of `lovasuku check`.

use super::options::{flag, named, path, reading, store, with_one_tolerance};
use super::{reading as reading_of, store as store_of};
use crate::delivery::{Point, Reading};
use crate::districts::District;
use crate::store::Asked;
use clap::{Arg, ArgMatches, Command};
use lovasuku_chains::Settings;
use std::path::{Path, PathBuf};

/// What a run of `lovasuku check` is asked for.
#[derive(Clone, Debug, PartialEq)]
pub struct CheckRequest {
    /// The chains that were made elsewhere.
    pub chains: PathBuf,
    /// The lines that they were made of.
    pub of: PathBuf,
    pub settings: Settings,
    pub class: Option<String>,
    pub district: Option<District>,
    pub reading: Reading,
    /// What is asked of the store that the lines are in.
    pub store: Asked,
    /// The property of a chain that lists its lines in the order of travel.
    pub path: String,
    pub quiet: bool,
}

const LONG: &str = "\
Check chains that were made elsewhere of the lines of a delivery.

CHAINS is GeoJSON or a layer of a store, a feature a chain, whose property path lists its lines in the order of travel: their
ids, or their positions where they have none, counted from 0; or objects whose member line is such a name,
as join writes them. Which lines were turned is not read. The chains are accepted exactly if every line
stands in one chain, once; the lines of a chain are of one class and one district; what passes through,
as a MultiLineString does, stands alone; a line that stands alone is untouched, bit for bit; and for each
other chain a direction can be chosen for every line such that consecutive lines meet, exactly or, with a
tolerance, in one cell, and that the lines laid end to end without repeats are the chain's positions.
Heights are looked at in lines that stand alone only. Chains may be cut, turned or joined otherwise than
join would.

The verdict is that of the verified library. It is written to the standard output, and where it is no,
with the first chain and line that is at fault and why.";

const EXAMPLES: &str = "\
Examples:
  lovasuku check chains.geojson --of lines.geojson
      checks chains whose lines meet exactly
  lovasuku check chains.geojson --of lines.geojson --tolerance 2 --class surface
      lets lines meet in one cell of 2 units too, and asks for one surface in each chain
  lovasuku join lines.geojson -o - -q | lovasuku check - --of lines.geojson
      checks what join makes, which is always accepted

Exit status:
  0  the chains are accepted
  1  the chains are not accepted
  2  the arguments or a file are at fault; nothing was checked";

/// The options of join that the verdict depends on, and what they are for here.
const SHARED: [(&str, &str); 9] = [
    (
        "tolerance",
        "Let lines meet in one square cell of this side too, in units of the coordinates",
    ),
    ("origin", "Count the cells of the tolerance from this corner, which else is 0,0"),
    ("class", "Ask for the same value of this property in all lines of a chain"),
    ("district", "Let no chain have lines with this value beside lines without it"),
    ("explode", "Take the parts of MultiLineStrings as lines, which else pass through"),
    ("skip-other", "Leave out points, polygons and features without geometry among the lines"),
    ("drop-empty", "Leave out lines without length, as if they had not been there"),
    ("drop-heights", "Leave heights out, of lines and of chains"),
    ("id", "Name lines by this property in place of their ids"),
];

/// The options that are shared, each with what it is for here.
fn shared(all: impl IntoIterator<Item = Arg>) -> impl Iterator<Item = Arg> {
    all.into_iter().filter_map(|arg| {
        let (_, help) = SHARED.into_iter().find(|(name, _)| arg.get_id() == name)?;
        Some(arg.help(help).long_help(help))
    })
}

/// What is asked of the store that the lines are in.
fn store_of_lines() -> impl Iterator<Item = Arg> {
    store().into_iter().map(|arg| match arg.get_help().map(|help| help.to_string()) {
        Some(help) => arg.help(help.replace("of IN", "of LINES").replace("to IN", "to LINES")),
        None => arg,
    })
}

pub fn check() -> Command {
    Command::new("check")
        .about("Check chains that were made elsewhere of the lines of a delivery")
        .long_about(LONG)
        .after_help(EXAMPLES)
        .arg(
            path("chains")
                .value_name("CHAINS")
                .required(true)
                .help("The chains: GeoJSON, - for the standard input, or what GDAL reads"),
        )
        .arg(
            path("of")
                .long("of")
                .value_name("LINES")
                .required(true)
                .help("The lines: GeoJSON, - for the standard input, or what GDAL reads"),
        )
        .next_help_heading("Meeting")
        .args(shared(with_one_tolerance()))
        .next_help_heading("Reading")
        .args(shared(reading()))
        .arg(
            named("path")
                .value_name("PROPERTY")
                .default_value("path")
                .help("The property of a chain that lists its lines in the order of travel"),
        )
        .next_help_heading("Stores")
        .args(store_of_lines())
        .next_help_heading("Outputs")
        .arg(flag("quiet").short('q').help("Show no progress, no verdict and no warnings"))
}

pub fn of_check(matches: &ArgMatches) -> Result<CheckRequest, String> {
    let file = |name: &str| matches.get_one::<PathBuf>(name).cloned().unwrap_or_default();
    let text = |name: &str| matches.get_one::<String>(name).cloned();
    let request = CheckRequest {
        chains: file("chains"),
        of: file("of"),
        settings: Settings {
            tolerance: matches.get_one::<f64>("tolerance").copied().unwrap_or_default(),
            origin: matches.get_one::<Point>("origin").copied().unwrap_or_default(),
            limit: None,
        },
        class: text("class"),
        district: matches.get_one::<District>("district").cloned(),
        reading: reading_of(matches),
        store: store_of(matches),
        path: text("path").unwrap_or_default(),
        quiet: matches.get_flag("quiet"),
    };
    match [&request.chains, &request.of].iter().all(|file| file.as_path() == Path::new("-")) {
        true => Err("the chains and the lines cannot both be the standard input".into()),
        false => Ok(request),
    }
}
