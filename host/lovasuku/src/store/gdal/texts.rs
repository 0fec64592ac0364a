//! Texts as C takes them.

use anyhow::{anyhow, Result};
use std::ffi::CString;
use std::os::raw::c_char;
use std::ptr::null;

/// A text that ends with a zero.
pub fn c_text(text: &str) -> Result<CString> {
    CString::new(text).map_err(|_| anyhow!("a text has a zero in it: {text:?}"))
}

/// Texts, with a null behind the last.
pub struct CTexts {
    places: Vec<*const c_char>,
    _texts: Vec<CString>,
}

impl CTexts {
    pub fn of(texts: &[String]) -> Result<Self> {
        let texts: Vec<CString> = texts.iter().map(|text| c_text(text)).collect::<Result<_>>()?;
        let places = texts.iter().map(|text| text.as_ptr()).chain([null()]).collect();
        Ok(CTexts { places, _texts: texts })
    }

    pub fn as_ptr(&self) -> *const *const c_char {
        self.places.as_ptr()
    }
}
