//! How outputs are put in their places: all of them, or none.

use super::parts::Parts;
use super::places::Place;
use crate::store::shown;
use anyhow::{anyhow, bail, Context, Result};
use std::fs::OpenOptions;
use std::io::{self, BufWriter, Write};
use std::path::{Path, PathBuf};

/// What is written, and where it goes.
pub struct Output<'a> {
    pub target: Target,
    pub content: Content<'a>,
}

/// What is written to a place.
pub enum Content<'a> {
    Text(Text<'a>),
    /// A store, written by GDAL under the name that it is told, with what there is to warn of.
    Store {
        write: Box<dyn Fn(&str) -> Result<Vec<String>> + 'a>,
        /// The endings of files beside it that are of it alone.
        beside: &'static [&'static str],
    },
}

/// A text, made while it is written.
pub type Text<'a> = Box<dyn Fn(&mut dyn Write) -> io::Result<()> + 'a>;

/// So many bytes are written at a time.
const BUFFER: usize = 1 << 16;

/// The path of an output as it was asked for, and the place that it leads to.
#[derive(Clone, Debug)]
pub struct Target {
    pub path: PathBuf,
    place: Place,
}

impl Target {
    /// Where a path leads to, if that may be written.
    pub fn of(path: &Path) -> Result<Self> {
        let place = Place::of(path).with_context(|| fault(path))?;
        place.may_be_written().with_context(|| fault(path))?;
        Ok(Target { path: path.to_owned(), place })
    }

    /// True for a file and for a database, into which stores are written.
    pub fn takes_stores(&self) -> bool {
        matches!(self.place, Place::File(_) | Place::Database(_))
    }
}

/// Puts all outputs in their places, and tells of each what there is to warn of. Files are written beside
/// their places first, so that none is changed where one cannot be written.
pub fn put(outputs: &[Output]) -> Result<Vec<Vec<String>>> {
    let mut warnings = vec![Vec::new(); outputs.len()];
    let parts = Parts::begin().context("signals cannot be heeded")?;
    for (Output { target, content }, warnings) in outputs.iter().zip(&mut warnings) {
        if let Place::File(place) = &target.place {
            let written = match content {
                Content::Text(text) => beside_its_place(&parts, place, text).map_err(Into::into),
                Content::Store { write, beside } => {
                    stored(&parts, place, write, beside).map(|told| warnings.extend(told))
                }
            };
            written.with_context(|| fault(&target.path))?;
        }
    }
    for (output, warnings) in outputs.iter().zip(&mut warnings) {
        let told = write_through(output).with_context(|| fault(&output.target.path))?;
        warnings.extend(told);
    }
    parts.put().map_err(|(place, error)| anyhow!(error).context(fault(&place)))?;
    Ok(warnings)
}

/// Writes a text beside its place.
fn beside_its_place(parts: &Parts, place: &Path, text: &Text) -> io::Result<()> {
    let mut buffer = BufWriter::with_capacity(BUFFER, parts.open(place)?);
    text(&mut buffer)?;
    buffer.into_inner()?.sync_all()
}

/// Writes a store, of one file or more, in a folder of its own.
fn stored(
    parts: &Parts,
    place: &Path,
    write: &dyn Fn(&str) -> Result<Vec<String>>,
    beside: &[&str],
) -> Result<Vec<String>> {
    let path = parts.folder(place)?;
    let told = write(path.to_str().context("its name is not UTF-8")?)?;
    parts.gather(&path, place, beside)?;
    Ok(told)
}

fn fault(path: &Path) -> String {
    match path == Path::new("-") {
        true => "the standard output cannot be written".into(),
        false => format!("{} cannot be written", shown(path)),
    }
}

/// Writes what is no file by itself. What is open already goes on where it stands.
fn write_through(Output { target, content }: &Output) -> Result<Vec<String>> {
    match (&target.place, content) {
        (Place::File(_), _) => (),
        (Place::Database(name), Content::Store { write, .. }) => return write(name),
        (Place::Out, Content::Text(text)) => through(text, io::stdout().lock())?,
        (Place::Err, Content::Text(text)) => through(text, io::stderr())?,
        (Place::Through(path), Content::Text(text)) => {
            through(text, OpenOptions::new().append(true).open(path)?)?;
        }
        (_, Content::Store { .. }) => bail!("a store is written to a file or into a database"),
        (Place::Database(_), Content::Text(_)) => bail!("a database takes layers alone"),
    }
    Ok(Vec::new())
}

fn through(text: &Text, into: impl Write) -> io::Result<()> {
    let mut buffer = BufWriter::with_capacity(BUFFER, into);
    text(&mut buffer)?;
    buffer.flush()
}
