//! Where a delivery is read from: a text of GeoJSON, or a layer of a store.

use crate::delivery::{self, formats, Delivery, Reading};
use crate::progress::Progress;
use crate::store::{self, About, Asked, Dataset, Rows};
use anyhow::{ensure, Context, Result};
use std::fs::File;
use std::io::Read;
use std::path::Path;

/// What is to be read, and how.
#[derive(Clone, Copy)]
pub struct Wanted<'a> {
    pub input: &'a Path,
    pub reading: &'a Reading,
    /// What is asked of a store.
    pub store: &'a Asked,
}

impl Wanted<'_> {
    /// The name of the input, by its path unless it is the standard input or a database.
    pub fn name(&self, name: impl Fn(&Path) -> String) -> String {
        match self.input.to_str() {
            Some("-") => "standard input".into(),
            Some(connection) if store::is_database(connection) => store::shown(self.input),
            _ => name(self.input),
        }
    }

    /// The whole name of the input.
    pub fn whole_name(&self) -> String {
        self.name(|path| path.display().to_string())
    }
}

/// A delivery that was read from its source, but for its text.
pub enum Source<'r> {
    /// GeoJSON.
    Text,
    /// The rows of a layer.
    Layer(Box<Rows<'r>>),
}

/// How much of a file tells what it is.
const START: u64 = 512;

impl<'r> Source<'r> {
    /// Reads what is wanted: GeoJSON as a text as it is, or the ids and properties of a layer as one.
    pub fn read(wanted: Wanted<'r>, progress: &Progress) -> Result<(Self, String)> {
        let (name, what) = match store_of(wanted)? {
            None => return Ok((Source::Text, delivery::text(wanted.input)?)),
            Some(store) => store,
        };
        let opened = Dataset::open(&name, false);
        let dataset = match what {
            Some(what) => opened.with_context(|| format!("it is {what}, which GDAL reads"))?,
            None => opened?,
        };
        let mut text = Vec::new();
        let rows = store::read(&dataset, wanted.store, wanted.reading, &mut text, progress)?;
        let text = String::from_utf8(text).context("its texts are not UTF-8")?;
        Ok((Source::Layer(Box::new(rows)), text))
    }

    /// The delivery of a text, and what its layer is where it is one.
    pub fn delivery<'a>(
        self,
        text: &'a str,
        reading: &Reading,
        progress: &Progress,
    ) -> Result<(Delivery<'a>, Option<About>)> {
        match self {
            Source::Text => Ok((delivery::read(text, reading, progress)?, None)),
            Source::Layer(rows) => {
                rows.delivery(text).map(|(delivery, about)| (delivery, Some(about)))
            }
        }
    }
}

/// The name by which GDAL knows the input, where it is to be read from a store, and what it is, where its
/// first bytes tell that.
fn store_of(wanted: Wanted) -> Result<Option<(String, Option<&'static str>)>> {
    let (path, asked) = (wanted.input, !wanted.store.is_nothing());
    if path == Path::new("-") {
        ensure!(!asked, "--layer, --sql, --where and --geometry are for files and databases");
        return Ok(None);
    }
    let name = path.to_str().context("its name is not UTF-8")?;
    if store::is_connection(name) {
        return Ok(Some((name.to_owned(), None)));
    }
    if path.is_dir() {
        return Ok(Some((name.to_owned(), Some("a folder"))));
    }
    let mut start = Vec::new();
    // A pipe is read once, and what is read from it here would be missed.
    if let (true, Ok(file)) = (path.is_file(), File::open(path)) {
        file.take(START).read_to_end(&mut start).context("it cannot be read")?;
    }
    Ok(match formats::by_gdal(&start) {
        Some((what, prefix)) => Some((format!("{prefix}{name}"), Some(what))),
        None => asked.then(|| (name.to_owned(), None)),
    })
}
