//! The arguments of the command.

mod check;
mod help;
mod options;
mod why;
mod zooms;

use crate::delivery::{Heights, Point, Reading};
use crate::districts::District;
use crate::source::Wanted;
use crate::store;
use crate::writing::{Format, Keep};
pub use check::CheckRequest;
use clap::error::ErrorKind;
use clap::{ArgMatches, Command};
use lovasuku_chains::{limit_of_bend, Offset, Settings, Window};
use std::path::{Path, PathBuf};
pub use why::Question;
use zooms::Tolerances;

/// What a run of `lovasuku join` is asked for.
#[derive(Clone, Debug, PartialEq)]
pub struct Request {
    pub input: PathBuf,
    pub output: PathBuf,
    pub map: Option<PathBuf>,
    pub bridges: Option<PathBuf>,
    pub page: Option<PathBuf>,
    /// The map shows the way that each line was drawn.
    pub arrows: bool,
    /// The format of outputs where their names do not decide.
    pub format: Option<Format>,
    /// The driver of GDAL's for outputs, where one was named.
    pub driver: Option<String>,
    /// The name of the layer of the chains in a database.
    pub into: String,
    pub settings: Settings,
    /// The window that chains have to meet to be written.
    pub window: Option<Window>,
    /// The bend in degrees where the limit was given by one.
    pub bend: Option<f64>,
    /// The offset where the limit was given by one.
    pub offset: Option<Offset>,
    pub class: Option<String>,
    /// The lines of the second district, which are never joined with others.
    pub district: Option<District>,
    pub reading: Reading,
    /// What is asked of a store.
    pub store: store::Asked,
    pub keep: Keep,
    /// What the names of the properties begin with that every chain has.
    pub prefix: String,
    /// The unit of the coordinates, where it was named.
    pub units: Option<String>,
    pub quiet: bool,
}

impl Request {
    /// What is to be read.
    pub fn wanted(&self) -> Wanted<'_> {
        Wanted { input: &self.input, reading: &self.reading, store: &self.store }
    }

    /// The paths of all outputs.
    fn outputs(&self) -> Vec<&Path> {
        let others = [&self.bridges, &self.map, &self.page].map(Option::as_ref);
        let all = [Some(&self.output)].into_iter().chain(others);
        all.flatten().map(PathBuf::as_path).collect()
    }
}

/// What the arguments ask for.
#[derive(Clone, Debug, PartialEq)]
pub enum Asked {
    /// A run for each of several tolerances, which share all else but the names of their outputs.
    Join(Vec<Request>),
    Check(Box<CheckRequest>),
    Why(Box<Question>),
    /// The manual page of the command, or of a subcommand.
    Manual(Option<String>),
}

/// Reads the arguments, or ends with what is wrong with them.
pub fn asked() -> Asked {
    let mut command = command();
    let matches = command.get_matches_mut();
    match matches.subcommand() {
        Some(("manual", page)) => Asked::Manual(page.get_one::<String>("page").cloned()),
        Some((name @ "check", check)) => match check::of_check(check) {
            Ok(request) => Asked::Check(Box::new(request)),
            Err(fault) => failed(&mut command, name, fault),
        },
        Some(("why", question)) => Asked::Why(Box::new(why::of(question))),
        Some((name, join)) => match of_join(join) {
            Ok(requests) => Asked::Join(requests),
            Err(fault) => failed(&mut command, name, fault),
        },
        None => failed(&mut command, "", "nothing is asked for".into()),
    }
}

/// Ends with a fault, and with the usage of the subcommand that it is a fault of.
fn failed(command: &mut Command, name: &str, fault: String) -> ! {
    command.build();
    match command.find_subcommand_mut(name) {
        Some(subcommand) => subcommand.error(ErrorKind::ValueValidation, fault).exit(),
        None => command.error(ErrorKind::ValueValidation, fault).exit(),
    }
}

/// The command and its arguments.
pub fn command() -> Command {
    Command::new("lovasuku")
        .about("Verified line joining for overview maps")
        .version(env!("CARGO_PKG_VERSION"))
        .subcommand_required(true)
        .arg_required_else_help(true)
        .after_help(help::EXAMPLES)
        .subcommand(options::join())
        .subcommand(check::check())
        .subcommand(why::command())
        .subcommand(options::manual())
}

fn of_join(matches: &ArgMatches) -> Result<Vec<Request>, String> {
    let path = |name: &str| matches.get_one::<PathBuf>(name).cloned();
    let text = |name: &str| matches.get_one::<String>(name).cloned();
    let (settings, bend, offset) = settings(matches);
    let request = Request {
        input: path("input").unwrap_or_default(),
        output: path("output").unwrap_or_default(),
        map: path("map"),
        bridges: path("bridges"),
        page: path("page"),
        arrows: matches.get_flag("arrows"),
        format: text("format").and_then(|name| Format::of(&name)),
        driver: text("format").filter(|name| Format::of(name).is_none()),
        into: text("into").unwrap_or_default(),
        settings,
        window: matches.get_one::<Window>("window").copied(),
        bend,
        offset,
        class: text("class"),
        district: matches.get_one::<District>("district").cloned(),
        reading: reading(matches),
        store: store(matches),
        keep: text("keep").and_then(|name| Keep::of(&name)).unwrap_or_default(),
        prefix: text("prefix").unwrap_or_default(),
        units: text("units"),
        quiet: matches.get_flag("quiet"),
    };
    match matches.get_one::<Tolerances>("tolerance") {
        Some(tolerances) => zooms::requests(&request, tolerances),
        None => Err("no tolerance is named".into()),
    }
}

/// The settings but for the tolerance, with the bend or the offset that the limit was given by.
fn settings(matches: &ArgMatches) -> (Settings, Option<f64>, Option<Offset>) {
    let number = |name: &str| matches.get_one::<f64>(name).copied();
    let bend = number("bend");
    let offset = matches.get_one::<Offset>("offset").copied();
    let limit = number("limit").or_else(|| offset.map(Offset::limit));
    let settings = Settings {
        tolerance: 0.0,
        origin: matches.get_one::<Point>("origin").copied().unwrap_or_default(),
        limit: limit.or_else(|| bend.and_then(limit_of_bend)),
    };
    (settings, bend, offset)
}

fn reading(matches: &ArgMatches) -> Reading {
    Reading {
        heights: if matches.get_flag("drop-heights") { Heights::Dropped } else { Heights::Kept },
        explode: matches.get_flag("explode"),
        drop_empty: matches.get_flag("drop-empty"),
        skip_other: matches.get_flag("skip-other"),
        id: matches.get_one::<String>("id").cloned(),
    }
}

fn store(matches: &ArgMatches) -> store::Asked {
    let text = |name: &str| matches.get_one::<String>(name).cloned();
    store::Asked {
        layer: text("layer"),
        sql: text("sql"),
        filter: text("where"),
        geometry: text("geometry"),
    }
}
