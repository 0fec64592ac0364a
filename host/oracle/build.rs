//! Makes two modules out of the Rust original: one as it is, one with the three edits of the rules.
//!
//! The original is read from `shared` beside the repository, or from the file that the variable
//! LOVASUKU_COALESCE names. Where it is absent, or the compiler too old for it, the same modules
//! are made without it, and the constant `MISSING` says why. What is made stands in OUT_DIR.

mod edits;

use edits::edited;
use std::path::{Path, PathBuf};
use std::process::Command;
use std::{env, fs, process};

/// The variable that names the original in another place.
const VARIABLE: &str = "LOVASUKU_COALESCE";

/// The place of the original, seen from this package.
const PLACE: &str = "../../../shared/docs/src/crates/core/src/overview/coalesce.rs";

/// The oldest compiler, by its minor version, that has all that the original uses.
const OLDEST: u32 = 82;

fn main() {
    if let Err(fault) = make() {
        eprintln!("oracle: {fault}");
        process::exit(1);
    }
}

/// Writes the modules, or gives the sentence with which the build fails.
fn make() -> Result<(), String> {
    println!("cargo:rerun-if-changed=build.rs");
    println!("cargo:rerun-if-changed=edits.rs");
    println!("cargo:rerun-if-env-changed={VARIABLE}");
    let package = PathBuf::from(variable("CARGO_MANIFEST_DIR")?);
    let out = PathBuf::from(variable("OUT_DIR")?);
    let modules = match original(&package)? {
        Ok(text) => {
            let window = module("window", &package.join("src/window.rs"));
            write(&out.join("unedited.rs"), &format!("{text}\n{window}"))?;
            write(&out.join("edited.rs"), &format!("{}\n{window}", edited(&text)?))?;
            let body = |name| module("coalesce", &out.join(name));
            modules("None", &body("unedited.rs"), &body("edited.rs"))
        }
        Err(reason) => {
            let absent = module("window", &package.join("src/absent.rs"));
            let body = format!("pub mod coalesce {{ {absent} }}");
            modules(&format!("Some({reason:?})"), &body, &body)
        }
    };
    write(&out.join("modules.rs"), &modules)
}

/// The text of the original, or the sentence that says why the comparison is skipped.
fn original(package: &Path) -> Result<Result<String, String>, String> {
    let named = env::var_os(VARIABLE).map(PathBuf::from);
    let path = named.clone().unwrap_or_else(|| package.join(PLACE));
    println!("cargo:rerun-if-changed={}", path.display());
    if !path.is_file() {
        return match named {
            Some(path) => Err(format!("{VARIABLE} names no file: {}", path.display())),
            None => Ok(Err("the Rust original is not beside this repository".to_string())),
        };
    }
    if minor_version()? < OLDEST {
        return Ok(Err(format!("the Rust original needs rustc 1.{OLDEST} or later")));
    }
    let text = fs::read_to_string(&path).map_err(|fault| format!("{}: {fault}", path.display()))?;
    Ok(Ok(text))
}

/// The two originals side by side, with what they expect around them.
fn modules(missing: &str, unedited: &str, edited: &str) -> String {
    let around = "#[allow(unused_imports)] use crate::stand_ins::{assign, level};";
    format!(
        "/// Why there is no oracle, where there is none.\n\
         pub const MISSING: Option<&str> = {missing};\n\
         #[allow(warnings, clippy::all)] mod unedited {{ {around} {unedited} }}\n\
         #[allow(warnings, clippy::all)] mod edited {{ {around} {edited} }}\n"
    )
}

/// The declaration of a module that stands in the given file.
fn module(name: &str, file: &Path) -> String {
    format!("#[path = {file:?}] pub mod {name};")
}

/// The minor version of the compiler.
fn minor_version() -> Result<u32, String> {
    let output = Command::new(variable("RUSTC")?).arg("--version").output();
    let output = output.map_err(|fault| format!("rustc --version: {fault}"))?;
    let text = String::from_utf8_lossy(&output.stdout).to_string();
    let minor = text.split('.').nth(1).and_then(|minor| minor.parse().ok());
    minor.ok_or(format!("rustc --version says {text:?}"))
}

fn variable(name: &str) -> Result<String, String> {
    env::var(name).map_err(|fault| format!("{name}: {fault}"))
}

fn write(path: &Path, text: &str) -> Result<(), String> {
    fs::write(path, text).map_err(|fault| format!("{}: {fault}", path.display()))
}
