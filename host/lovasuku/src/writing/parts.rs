//! Parts: files that are written beside their places. They are put there together, or taken away,
//! also where a signal ends the command.

use signal_hook::consts::{SIGHUP, SIGINT, SIGTERM};
use signal_hook::iterator::Signals;
use signal_hook::low_level::emulate_default_handler;
use std::fs::{self, File, OpenOptions};
use std::io;
use std::path::{Path, PathBuf};
use std::sync::{Mutex, MutexGuard, PoisonError};
use std::thread;
use tempfile::{TempDir, TempPath};

/// What waits beside its place.
enum Part {
    File {
        file: TempPath,
        place: PathBuf,
    },
    /// A folder that files are made in, and that nothing is left of.
    Folder(TempDir),
    /// A file that belongs to what is replaced.
    Stale(PathBuf),
}

/// All parts that wait for being put in their places. Who holds the lock makes parts, puts them, or
/// takes them away.
static WAITING: Mutex<Vec<Part>> = Mutex::new(Vec::new());

fn waiting() -> MutexGuard<'static, Vec<Part>> {
    WAITING.lock().unwrap_or_else(PoisonError::into_inner)
}

/// The parts of a run, taken away at its end unless they are put in their places.
pub struct Parts(());

impl Parts {
    /// Begins with no parts, and heeds signals from here on.
    pub fn begin() -> io::Result<Self> {
        let mut signals = Signals::new(heeded())?;
        thread::spawn(move || {
            for signal in signals.forever() {
                let mut parts = waiting();
                parts.clear();
                // The signal ends the command while the lock is held, so that no part follows.
                emulate_default_handler(signal).unwrap_or_default();
            }
        });
        Ok(Parts(()))
    }

    /// A part for a place, of the mode that the place has.
    pub fn open(&self, place: &Path) -> io::Result<File> {
        let path = beside(place)?;
        let mut parts = waiting();
        let file = OpenOptions::new().write(true).create_new(true).open(&path)?;
        parts.push(Part::File { file: TempPath::from_path(path), place: place.to_owned() });
        drop(parts);
        if let Ok(about) = fs::metadata(place) {
            file.set_permissions(about.permissions())?;
        }
        Ok(file)
    }

    /// A folder beside a place, and the path in it under the name of the place.
    pub fn folder(&self, place: &Path) -> io::Result<PathBuf> {
        let path = beside(place)?;
        let (folder, name) = (path.parent(), path.file_name());
        let (folder, name) = folder.zip(name).ok_or(io::ErrorKind::InvalidInput)?;
        let mut parts = waiting();
        let made = tempfile::Builder::new().prefix(name).rand_bytes(0).tempdir_in(folder)?;
        let path = made.path().join(place.file_name().ok_or(io::ErrorKind::InvalidInput)?);
        parts.push(Part::Folder(made));
        Ok(path)
    }

    /// Takes all that was made in a folder for a place. Files beside the place with these endings are
    /// taken away if they were not made anew.
    pub fn gather(&self, path: &Path, place: &Path, endings: &[&str]) -> io::Result<()> {
        let (from, to) = path.parent().zip(place.parent()).ok_or(io::ErrorKind::InvalidInput)?;
        if !path.exists() {
            return Err(io::Error::new(io::ErrorKind::Other, "this format makes no such file"));
        }
        let mut parts = waiting();
        for entry in fs::read_dir(from)? {
            let (file, place) = entry.map(|entry| (entry.path(), to.join(entry.file_name())))?;
            if let Ok(about) = fs::metadata(&place) {
                fs::set_permissions(&file, about.permissions())?;
            }
            File::open(&file)?.sync_all()?;
            parts.push(Part::File { file: TempPath::from_path(file), place });
        }
        let made = |ending: &str| path.with_extension(ending).exists();
        let stale = endings.iter().filter(|ending| !made(ending));
        parts.extend(stale.map(|ending| Part::Stale(place.with_extension(ending))));
        Ok(())
    }

    /// Puts all parts in their places, or tells the place that one cannot be put in.
    pub fn put(self) -> Result<(), (PathBuf, io::Error)> {
        let (mut parts, mut folders) = (waiting(), Vec::new());
        for part in parts.drain(..) {
            match part {
                Part::File { file, place } => {
                    file.persist(&place).map_err(|fault| (place, fault.error))?;
                }
                Part::Stale(place) => match fs::remove_file(&place) {
                    Err(fault) if fault.kind() != io::ErrorKind::NotFound => {
                        return Err((place, fault))
                    }
                    _ => (),
                },
                // What was made in a folder may still have to be put in its place.
                Part::Folder(folder) => folders.push(folder),
            }
        }
        Ok(())
    }
}

/// The path of a part beside its place.
fn beside(place: &Path) -> io::Result<PathBuf> {
    let name = place.file_name().ok_or(io::ErrorKind::InvalidInput)?.to_string_lossy();
    Ok(place.with_file_name(format!(".{name}.{}.part", std::process::id())))
}

impl Drop for Parts {
    fn drop(&mut self) {
        waiting().clear();
    }
}

/// The signals that end the command, but for those that it was started to ignore, as by nohup.
fn heeded() -> Vec<i32> {
    let status = fs::read_to_string("/proc/self/status").unwrap_or_default();
    let ignored = status.lines().find_map(|line| line.strip_prefix("SigIgn:"));
    let ignored = ignored.and_then(|mask| u64::from_str_radix(mask.trim(), 16).ok()).unwrap_or(0);
    let heeded = |signal: &i32| ignored >> (signal - 1) & 1 == 0;
    [SIGHUP, SIGINT, SIGTERM].into_iter().filter(heeded).collect()
}
