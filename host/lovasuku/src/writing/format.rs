//! Formats of outputs.

use super::value;
use crate::delivery::object::Object;
use std::io::{self, Write};
use std::path::Path;

/// A format of features.
#[derive(Clone, Copy, Debug, PartialEq)]
pub enum Format {
    /// A FeatureCollection.
    Collection,
    /// A feature a line.
    Lines,
    /// A feature a line, behind a record separator (RFC 8142).
    Sequence,
}

impl Format {
    /// The formats by their names.
    pub const NAMES: [(&'static str, Format); 3] = [
        ("geojson", Format::Collection),
        ("geojsonl", Format::Lines),
        ("geojsonseq", Format::Sequence),
    ];

    /// The format of a name.
    pub fn of(name: &str) -> Option<Self> {
        let named = |(each, _): &(&str, Format)| each.eq_ignore_ascii_case(name);
        Format::NAMES.into_iter().find(named).map(|(_, format)| format)
    }

    /// The format that was asked for, or else the one of the ending of a path.
    pub fn of_output(path: &Path, asked: Option<Format>) -> Self {
        let ending = path.extension().and_then(|ending| ending.to_str()).unwrap_or_default();
        asked.unwrap_or(match &ending.to_ascii_lowercase()[..] {
            "geojsonl" | "ndjson" | "jsonl" => Format::Lines,
            "geojsons" | "geojsonseq" => Format::Sequence,
            _ => Format::Collection,
        })
    }

    /// Begins a text of features in this format. A FeatureCollection has the members.
    pub fn begin<'w>(
        self,
        into: &'w mut dyn Write,
        members: &Object,
    ) -> io::Result<FeatureText<'w>> {
        if self == Format::Collection {
            into.write_all(&head(members))?;
        }
        Ok(FeatureText { format: self, into, is_empty: true })
    }
}

/// A text of features, which goes to its place while it is written.
pub struct FeatureText<'w> {
    format: Format,
    into: &'w mut dyn Write,
    is_empty: bool,
}

impl FeatureText<'_> {
    /// Writes a feature behind the others.
    pub fn put(&mut self, feature: &[u8]) -> io::Result<()> {
        if !self.is_empty {
            let between = if self.format == Format::Collection { ",\n" } else { "\n" };
            self.into.write_all(between.as_bytes())?;
        }
        self.is_empty = false;
        match self.format {
            Format::Collection => self.into.write_all(feature),
            Format::Lines => self.into.write_all(&in_one_line(feature)),
            Format::Sequence => {
                self.into.write_all(&[0x1e])?;
                self.into.write_all(&in_one_line(feature))
            }
        }
    }

    /// Ends the text.
    pub fn end(self) -> io::Result<()> {
        match self.format {
            Format::Collection => self.into.write_all(b"\n]}\n"),
            _ if self.is_empty => Ok(()),
            _ => self.into.write_all(b"\n"),
        }
    }
}

/// The feature with a blank for each line break. What stays as it is written may have some, but never
/// within a text of JSON.
fn in_one_line(feature: &[u8]) -> Vec<u8> {
    let blank = |&byte: &u8| if byte == b'\n' || byte == b'\r' { b' ' } else { byte };
    feature.iter().map(blank).collect()
}

/// What stands before the features of a collection.
fn head(members: &Object) -> Vec<u8> {
    let mut out = b"{\"type\":\"FeatureCollection\",\n".to_vec();
    for (name, text) in members.iter() {
        value(&mut out, &name);
        out.push(b':');
        out.extend(text.bytes());
        out.extend(b",\n");
    }
    out.extend(b"\"features\":[\n");
    out
}
