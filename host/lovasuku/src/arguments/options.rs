//! The subcommands and their options.

use super::help;
use super::zooms::Tolerances;
use crate::delivery::Point;
use crate::districts::District;
use crate::outcome::CHAINS;
use crate::writing::Keep;
use clap::{value_parser, Arg, ArgAction, Command};
use lovasuku_chains::{Offset, Window};
use std::path::PathBuf;

pub fn join() -> Command {
    Command::new("join")
        .about("Join the lines of a delivery into chains")
        .long_about(help::JOIN)
        .after_help(help::JOIN_EXAMPLES)
        .arg(
            path("input").value_name("IN").required(true).help(
                "GeoJSON, - for the standard input, or what GDAL reads, as roads.gpkg or PG:...",
            ),
        )
        .next_help_heading("Outputs")
        .args(outputs())
        .next_help_heading("Joining")
        .args(settings())
        .next_help_heading("Reading")
        .args(reading())
        .next_help_heading("Stores")
        .args(store())
        .arg(into())
        .next_help_heading("Properties and lengths")
        .args(properties())
}

/// Writes a page of the manual, made of these definitions.
pub fn manual() -> Command {
    Command::new("manual")
        .about("Write a page of the manual (roff), as `lovasuku manual join | man -l -`")
        .arg(
            Arg::new("page")
                .value_name("PAGE")
                .value_parser(["join", "check", "why"])
                .help("The page of a subcommand; without it that of the command"),
        )
}

fn outputs() -> [Arg; 8] {
    [
        path("output")
            .short('o')
            .long("output")
            .value_name("OUT")
            .required(true)
            .help("The chains as GeoJSON, - for the standard output, or a store, as chains.gpkg or PG:..."),
        path("map")
            .long("map")
            .value_name("FILE.svg")
            .help("Draw the input, the chains, the bridges and the gaps"),
        flag("arrows")
            .requires("map")
            .help("Show on the map which way each line was drawn, along its chain or against it"),
        path("bridges").long("bridges").value_name("FILE").help(
            "Write each segment that the tolerance made, and each gap below it that stayed open",
        ),
        path("page")
            .long("page")
            .value_name("FILE.html")
            .help("Write a page for any browser that tells of every joint why it was made")
            .long_help(help::PAGE),
        named("window")
            .value_name("X1,Y1,X2,Y2")
            .allow_hyphen_values(true)
            .value_parser(window)
            .help("Write only the chains whose extents meet this window, from its least x and y on")
            .long_help(help::WINDOW),
        Arg::new("format")
            .short('f')
            .long("format")
            .value_name("FORMAT")
            .help("The format of OUT and --bridges, which else goes by their names")
            .long_help(help::FORMAT),
        flag("quiet").short('q').help("Show no progress, no summary and no warnings"),
    ]
}

fn settings() -> [Arg; 7] {
    [
        Arg::new("tolerance")
            .long("tolerance")
            .value_name("T")
            .default_value("0")
            .allow_negative_numbers(true)
            .value_parser(Tolerances::of)
            .help("Join ends in one square cell of this side, in units of the coordinates")
            .long_help(format!("{}\n{}", help::TOLERANCE, help::TOLERANCES)),
        Arg::new("origin")
            .long("origin")
            .value_name("X,Y")
            .allow_hyphen_values(true)
            .value_parser(point)
            .help("Count the cells of the tolerance from this corner, which else is 0,0")
            .long_help(help::ORIGIN),
        Arg::new("limit")
            .long("limit")
            .value_name("M")
            .allow_negative_numbers(true)
            .value_parser(|text: &str| within(text, -1.0, 1.0))
            .conflicts_with("bend")
            .help("Pair ends at junctions up to this dot product of directions: -1 straight on, 1 any"),
        Arg::new("bend")
            .long("bend")
            .value_name("DEG")
            .allow_negative_numbers(true)
            .value_parser(|text: &str| within(text, 0.0, 180.0))
            .help("The same by a bend in degrees: 0 none, 90 up to a right angle, 180 any"),
        Arg::new("offset")
            .long("offset")
            .value_name("MM")
            .allow_negative_numbers(true)
            .value_parser(offset)
            .conflicts_with_all(["limit", "bend"])
            .help("The same by millimetres of offset per metre run: 0 straight on, 1000 a bend of 45 degrees")
            .long_help(help::OFFSET),
        named("class")
            .value_name("PROPERTY")
            .help("Join only lines that have the same value of this property"),
        named("district")
            .value_name("PROPERTY=VALUE")
            .value_parser(District::of)
            .help("Put the lines with this value into a second district, never joined with the rest")
            .long_help(help::DISTRICT),
    ]
}

/// The settings with one tolerance.
pub(super) fn with_one_tolerance() -> impl Iterator<Item = Arg> {
    settings().into_iter().map(|arg| match arg.get_id() == "tolerance" {
        true => {
            arg.value_parser(|text: &str| within(text, 0.0, f64::MAX)).long_help(help::TOLERANCE)
        }
        false => arg,
    })
}

pub(super) fn reading() -> [Arg; 5] {
    [
        flag("explode")
            .help("Join the parts of MultiLineStrings, which else pass through")
            .long_help(help::EXPLODE),
        flag("skip-other").help(
            "Leave out points, polygons and features without geometry, which else are a fault",
        ),
        flag("drop-empty")
            .help("Leave out lines without length, which keep others from being joined")
            .long_help(help::DROP_EMPTY),
        flag("drop-heights")
            .help("Leave heights out, which else ride along with their positions")
            .long_help(help::DROP_HEIGHTS),
        named("id")
            .value_name("PROPERTY")
            .help("Name lines by this property in place of their ids"),
    ]
}

pub(super) fn store() -> [Arg; 4] {
    [
        named("layer").value_name("NAME").help("The layer or table of IN, where it has several"),
        named("sql")
            .value_name("QUERY")
            .conflicts_with_all(["layer", "where"])
            .help("The rows that a query to IN gives, in its own SQL")
            .long_help(help::SQL),
        named("where").value_name("CONDITION").help("Only the rows for which this holds"),
        named("geometry")
            .value_name("COLUMN")
            .help("The column of geometry, where a layer has several"),
    ]
}

fn into() -> Arg {
    named("into")
        .value_name("TABLE")
        .default_value(CHAINS)
        .help("The table that the chains are put into, where OUT is a database")
        .long_help(help::INTO)
}

fn properties() -> [Arg; 3] {
    [
        named("keep")
            .value_name("HOW")
            .value_parser(Keep::NAMES.map(|(name, _)| name))
            .default_value("shared")
            .help("Which properties of its members a chain has")
            .long_help(help::KEEP),
        named("prefix")
            .value_name("PREFIX")
            .help("Begin the names members, path, count, loop and parts with this"),
        units(),
    ]
}

pub(super) fn units() -> Arg {
    named("units")
        .value_name("UNIT")
        .help("What the coordinates are in, as m, ft or degrees")
        .long_help(help::UNITS)
}

pub(super) fn path(name: &'static str) -> Arg {
    Arg::new(name).value_parser(value_parser!(PathBuf))
}

/// An option of one value under its own name.
pub(super) fn named(name: &'static str) -> Arg {
    Arg::new(name).long(name)
}

pub(super) fn flag(name: &'static str) -> Arg {
    named(name).action(ArgAction::SetTrue)
}

/// A number from the lowest to the highest that is allowed.
pub(super) fn within(text: &str, lowest: f64, highest: f64) -> Result<f64, String> {
    match text.parse::<f64>() {
        Ok(x) if (lowest..=highest).contains(&x) => Ok(x),
        _ if highest == f64::MAX => Err(format!("not a number from {lowest} up")),
        _ => Err(format!("not a number from {lowest} to {highest}")),
    }
}

/// So many finite numbers with commas between them.
fn numbers<const N: usize>(text: &str) -> Option<[f64; N]> {
    let number = |text: &str| text.trim().parse().ok().filter(|x: &f64| x.is_finite());
    let numbers: Vec<f64> = text.split(',').map(number).collect::<Option<_>>()?;
    numbers.try_into().ok()
}

/// Two finite numbers with a comma between them.
fn point(text: &str) -> Result<Point, String> {
    numbers(text).ok_or_else(|| "not two numbers with a comma between them".into())
}

/// The least x and y of a window and the greatest.
fn window(text: &str) -> Result<Window, String> {
    match numbers(text) {
        None => Err("not four numbers with commas between them".into()),
        Some([x, y, to_x, to_y]) if x <= to_x && y <= to_y => {
            Ok(Window { least: [x, y], greatest: [to_x, to_y] })
        }
        Some(_) => Err("its least x and y come first, and one is above the greatest".into()),
    }
}

/// A whole number of millimetres per metre run that is an offset.
fn offset(text: &str) -> Result<Offset, String> {
    let offset = text.parse().ok().and_then(|millimetres| Offset::new(millimetres).ok());
    offset.ok_or_else(|| "not a whole number from 0 to 1000".into())
}
