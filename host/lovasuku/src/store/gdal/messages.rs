//! What GDAL tells of faults, kept until it is asked for in place of being printed.

use super::declared::{Gdal, Text};
use anyhow::{anyhow, Error};
use std::ffi::CStr;
use std::os::raw::c_int;
use std::sync::{Mutex, MutexGuard, PoisonError};

/// The classes of GDAL's messages, by their numbers.
const WARNING: c_int = 2;
const FAILURE: c_int = 3;

/// What was told since it was last asked for.
#[derive(Default)]
struct Told {
    warnings: Vec<String>,
    failures: Vec<String>,
}

static TOLD: Mutex<Told> = Mutex::new(Told { warnings: Vec::new(), failures: Vec::new() });

fn told() -> MutexGuard<'static, Told> {
    TOLD.lock().unwrap_or_else(PoisonError::into_inner)
}

/// Has GDAL tell its messages here.
pub fn heed(gdal: &Gdal) {
    // SAFETY: the function stays, and may be called by any thread.
    unsafe { (gdal.CPLSetErrorHandler)(Some(take)) };
}

/// Takes a message, in one line. A warning that was told before is not told again.
unsafe extern "C" fn take(class: c_int, _number: c_int, words: Text) {
    let lines = text(words);
    let lines: Vec<&str> = lines.lines().map(str::trim).filter(|line| !line.is_empty()).collect();
    let words = lines.join(" ");
    let mut told = told();
    match class {
        WARNING if !told.warnings.contains(&words) => told.warnings.push(words),
        WARNING => (),
        class if class >= FAILURE => told.failures.push(words),
        _ => (),
    }
}

/// A text of GDAL's; nothing where there is none.
///
/// # Safety
///
/// The text is null, or ends with a zero.
pub unsafe fn text(words: Text) -> String {
    match words.is_null() {
        true => String::new(),
        false => CStr::from_ptr(words).to_string_lossy().into_owned(),
    }
}

/// The failures that were told since the last look, as one sentence, if there are any.
pub fn failures() -> Option<Error> {
    let mut failures = std::mem::take(&mut told().failures);
    failures.dedup();
    (!failures.is_empty()).then(|| anyhow!("GDAL: {}", failures.join("; ")))
}

/// Takes failures of calls that succeeded all the same for warnings.
pub fn settle() {
    let mut told = told();
    let failures = std::mem::take(&mut told.failures);
    told.warnings.extend(failures);
    told.warnings.dedup();
}

/// What GDAL tells of a call that failed.
pub fn failure() -> Error {
    failures().unwrap_or_else(|| anyhow!("GDAL gives no reason"))
}

/// The warnings that were told since the last look.
pub fn warnings() -> Vec<String> {
    std::mem::take(&mut told().warnings)
}
