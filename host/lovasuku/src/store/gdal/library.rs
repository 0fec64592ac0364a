//! GDAL's library, which is looked for when a store is asked for, so that the command runs without it.
//!
//! It is opened by the dynamic linker's own calls. It stays open to the end of the command, so that
//! what was found in it holds as long.

use super::declared::Gdal;
use super::messages;
use anyhow::{anyhow, bail, Result};
use std::ffi::{CStr, CString, OsString};
use std::os::raw::{c_char, c_int, c_void};
use std::os::unix::ffi::OsStringExt;
use std::ptr::NonNull;
use std::sync::{Mutex, PoisonError};

extern "C" {
    fn dlopen(file: *const c_char, flags: c_int) -> *mut c_void;
    fn dlsym(library: *mut c_void, name: *const c_char) -> *mut c_void;
    fn dlerror() -> *const c_char;
}

/// Every name is looked up when the library is opened.
const RTLD_NOW: c_int = 2;

/// The variable that names the file of the library where the linker does not find it by itself.
pub const VARIABLE: &str = "LOVASUKU_GDAL";

/// The names of the library, from that of GDAL 3.6 on, the first with Arrow streams: those of Debian
/// and of its successors, and the one of a library that is installed for building with it.
const NAMES: [&str; 8] = [
    "libgdal.so.32",
    "libgdal.so.33",
    "libgdal.so.34",
    "libgdal.so.35",
    "libgdal.so.36",
    "libgdal.so.37",
    "libgdal.so.38",
    "libgdal.so",
];

/// What has to be installed where there is no library.
const PACKAGE: &str =
    "Debian 12 has GDAL in the package libgdal32 (apt-get install libgdal32), others in libgdal, 3.6 \
     or later";

/// An open library.
#[derive(Clone, Copy)]
pub struct Library(NonNull<c_void>);

impl Library {
    fn open(file: OsString) -> Result<Self, String> {
        let name = CString::new(file.into_vec()).map_err(|_| "a zero in its name".to_owned())?;
        // SAFETY: the name is a text that ends with a zero.
        let opened = unsafe { dlopen(name.as_ptr(), RTLD_NOW) };
        NonNull::new(opened).map(Library).ok_or_else(told)
    }

    /// Where a name of the library lies.
    pub fn find(self, name: &CStr) -> Result<NonNull<c_void>, String> {
        // SAFETY: the library is open, and the name ends with a zero.
        NonNull::new(unsafe { dlsym(self.0.as_ptr(), name.as_ptr()) }).ok_or_else(told)
    }
}

/// What the linker tells of its last fault.
fn told() -> String {
    // SAFETY: the linker's words, if any, stay until its next call on this thread.
    let words = unsafe { dlerror().as_ref().map(|words| CStr::from_ptr(words)) };
    words.map_or_else(String::new, |words| words.to_string_lossy().into_owned())
}

/// The library once it is found.
static FOUND: Mutex<Option<&'static Gdal>> = Mutex::new(None);

/// GDAL, found and made ready on first use, or what has to be done to have it.
pub fn gdal() -> Result<&'static Gdal> {
    let mut found = FOUND.lock().unwrap_or_else(PoisonError::into_inner);
    if let Some(gdal) = *found {
        return Ok(gdal);
    }
    let gdal: &'static Gdal = Box::leak(Box::new(declared(opened()?)?));
    messages::heed(gdal);
    // SAFETY: the function has no parameters, and may be called at any time.
    unsafe { (gdal.GDALAllRegister)() };
    *found = Some(gdal);
    Ok(gdal)
}

fn opened() -> Result<Library> {
    if let Some(file) = std::env::var_os(VARIABLE) {
        return Library::open(file).map_err(|fault| {
            anyhow!("GDAL, which {VARIABLE} names, is not found: {fault}; {PACKAGE}")
        });
    }
    let mut names = NAMES.iter().map(|name| Library::open(name.into()));
    match names.find_map(Result::ok) {
        Some(library) => Ok(library),
        None => bail!("GDAL is not found; {PACKAGE}"),
    }
}

fn declared(library: Library) -> Result<Gdal> {
    Gdal::of(library).map_err(|fault| {
        anyhow!("GDAL is older than 3.6 or is another library: {fault}; {PACKAGE}")
    })
}
