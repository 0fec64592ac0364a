//! Where outputs go: what a path leads to, and that no two paths lead to the same.

use crate::store::is_database;
use anyhow::{ensure, Context, Result};
use std::fs::{self, Metadata, OpenOptions};
use std::io;
use std::os::unix::fs::{FileTypeExt, MetadataExt};
use std::path::{Path, PathBuf};

/// What the path of an output leads to.
#[derive(Clone, Debug, PartialEq)]
pub enum Place {
    /// The standard output, `-`, as it was opened for the command.
    Out,
    /// The standard error, by a path such as `/dev/stderr`.
    Err,
    /// A pipe, a device or a file that is open already: it is written through.
    Through(PathBuf),
    /// A database, by the name that GDAL knows it by.
    Database(String),
    /// A regular file, or none yet: its name in the folder that holds it, with all links followed.
    File(PathBuf),
}

/// How many links are followed at most, as many as Linux follows.
const MOST_LINKS: usize = 40;

impl Place {
    /// The place that a path leads to.
    pub fn of(path: &Path) -> io::Result<Self> {
        if path == Path::new("-") {
            return Ok(Place::Out);
        }
        if let Some(name) = path.to_str().filter(|name| is_database(name)) {
            return Ok(Place::Database(name.to_owned()));
        }
        let file = resolved(path)?;
        // What the command has open has a path there. To open it again would begin at its first byte.
        if file.starts_with("/proc") {
            return Ok(match file.file_name().and_then(|name| name.to_str()) {
                Some("1") => Place::Out,
                Some("2") => Place::Err,
                _ => Place::Through(file),
            });
        }
        match fs::metadata(&file) {
            Ok(about) if about.is_dir() => {
                Err(io::Error::new(io::ErrorKind::Other, "it is a folder"))
            }
            Ok(about) if !about.is_file() => Ok(Place::Through(file)),
            _ => Ok(Place::File(file)),
        }
    }

    /// Tests that a file that is there may be written. One that nobody may write is not replaced, not
    /// even for root.
    pub fn may_be_written(&self) -> Result<()> {
        if let Place::File(file) = self {
            if let Ok(about) = fs::metadata(file) {
                let mode = about.mode() & 0o777;
                ensure!(
                    !about.permissions().readonly(),
                    "its mode is {mode:o}: nobody may write it"
                );
                OpenOptions::new().append(true).open(file).context("it may not be written")?;
            }
        }
        Ok(())
    }

    /// What tells it from others. The null device and a database, which all may have in common, have
    /// nothing.
    fn identity(&self) -> Option<Identity> {
        let path = match self {
            Place::Database(_) => return None,
            Place::Out => Path::new("/dev/stdout"),
            Place::Err => Path::new("/dev/stderr"),
            Place::Through(path) | Place::File(path) => path,
        };
        match fs::metadata(path) {
            Ok(about) if is_null(&about) => None,
            Ok(about) => Some(Identity::Node([about.dev(), about.ino()])),
            Err(_) => Some(Identity::Name(path.to_owned())),
        }
    }
}

/// What tells a place from others: the device and the inode of what is there, or where it will be.
#[derive(Debug, PartialEq)]
enum Identity {
    Node([u64; 2]),
    Name(PathBuf),
}

fn is_null(about: &Metadata) -> bool {
    let null = fs::metadata("/dev/null");
    about.file_type().is_char_device() && null.map_or(false, |null| null.rdev() == about.rdev())
}

/// The path with its folder resolved and with links followed, also those that lead to nothing yet.
fn resolved(path: &Path) -> io::Result<PathBuf> {
    let mut path = path.to_owned();
    for _ in 0..MOST_LINKS {
        let name = path
            .file_name()
            .ok_or_else(|| io::Error::new(io::ErrorKind::Other, "it has no name"))?;
        let folder = match path.parent() {
            Some(folder) if folder != Path::new("") => folder,
            _ => Path::new("."),
        };
        let folder = folder.canonicalize()?;
        path = folder.join(name);
        match fs::read_link(&path) {
            Ok(to) if !folder.starts_with("/proc") => path = folder.join(to),
            _ => return Ok(path),
        }
    }
    Err(io::Error::new(io::ErrorKind::Other, "its links lead in a circle"))
}

/// Tests that no output takes the place of another, or of the input.
pub fn apart(input: &Path, outputs: &[&Path]) -> Result<(), String> {
    let input = regular(if input == Path::new("-") { Path::new("/dev/stdin") } else { input });
    let mut taken: Vec<(Identity, &Path)> = Vec::new();
    for path in outputs {
        // What cannot be resolved is told of when it is to be written.
        let identity = match Place::of(path).ok().and_then(|place| place.identity()) {
            None => continue,
            Some(identity) => identity,
        };
        if Some(&identity) == input.as_ref() {
            return Err(format!("{} is the input", path.display()));
        }
        if let Some((_, other)) = taken.iter().find(|(each, _)| *each == identity) {
            let [path, other] = [path, other].map(|path| path.display());
            return Err(format!("two outputs have the same place: {other} and {path}"));
        }
        taken.push((identity, path));
    }
    Ok(())
}

/// The identity of a regular file. A pipe or a terminal may be read and written.
fn regular(path: &Path) -> Option<Identity> {
    let about = fs::metadata(path).ok().filter(Metadata::is_file)?;
    Some(Identity::Node([about.dev(), about.ino()]))
}
