//! Links the verified library, the archive that `host/archive door` writes.
//!
//! The environment variable LOVASUKU_DOOR names another archive. Without it the archive of this
//! repository is taken, and made first where it is missing or older than a file under `crates/`.

use std::env;
use std::fs;
use std::path::{Path, PathBuf};
use std::process::Command;
use std::time::SystemTime;

/// What went wrong, in one sentence.
type Outcome<T> = Result<T, String>;

fn main() {
    println!("cargo:rerun-if-changed=build.rs");
    println!("cargo:rerun-if-env-changed=LOVASUKU_DOOR");
    if let Err(fault) = archive().and_then(|archive| link(&archive)) {
        eprintln!("lovasuku-chains: {fault}");
        std::process::exit(1);
    }
}

/// The archive to link.
fn archive() -> Outcome<PathBuf> {
    match env::var_os("LOVASUKU_DOOR") {
        Some(named) => Ok(PathBuf::from(named)),
        None => made(),
    }
}

/// The archive of this repository, made anew where it has to be.
fn made() -> Outcome<PathBuf> {
    let root = Path::new(env!("CARGO_MANIFEST_DIR")).join("../..");
    let crates = root.join("crates");
    let archive = root.join("target/staticlib/libdoor.a");
    println!("cargo:rerun-if-changed={}", crates.display());
    let sources = newest(&crates);
    let current = |made| matches!(sources, Some(changed) if changed <= made);
    match changed(&archive) {
        Some(made) if current(made) => (),
        _ => prove(&root)?,
    }
    Ok(archive)
}

/// When a file was last changed, if there is one.
fn changed(file: &Path) -> Option<SystemTime> {
    fs::metadata(file).ok()?.modified().ok()
}

/// When the file last changed in a folder was, but for those that Rattle's `rt` makes in `out`.
fn newest(folder: &Path) -> Option<SystemTime> {
    let entries = fs::read_dir(folder).ok()?.flatten();
    let of = |entry: fs::DirEntry| match entry.path() {
        path if path.ends_with("out") => None,
        path if path.is_dir() => newest(&path),
        path => changed(&path),
    };
    entries.filter_map(of).max()
}

/// Proves the door and writes its archive.
fn prove(root: &Path) -> Outcome<()> {
    let run = Command::new(root.join("host/archive")).arg("door").output();
    let run = run.map_err(|fault| format!("`host/archive` did not start: {fault}"))?;
    match run.status.success() {
        true => Ok(()),
        false => Err(format!(
            "`host/archive door` failed (LOVASUKU_DOOR may name an archive made before):\n{}{}",
            String::from_utf8_lossy(&run.stdout),
            String::from_utf8_lossy(&run.stderr)
        )),
    }
}

/// Tells cargo to link a copy of the archive, under the name that the linker looks for.
fn link(archive: &Path) -> Outcome<()> {
    let out = PathBuf::from(env::var_os("OUT_DIR").ok_or("cargo names no OUT_DIR")?);
    println!("cargo:rerun-if-changed={}", archive.display());
    fs::copy(archive, out.join("libdoor.a"))
        .map_err(|fault| format!("the archive {}: {fault}", archive.display()))?;
    println!("cargo:rustc-link-search=native={}", out.display());
    println!("cargo:rustc-link-lib=static=door");
    Ok(())
}
