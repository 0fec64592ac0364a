//! Reference systems of coordinates.

use super::declared::{Gdal, Handle};
use super::library::gdal;
use super::messages::{failure, text};
use super::texts::c_text;
use anyhow::Result;
use std::os::raw::{c_char, c_int, c_void};
use std::ptr::{null, null_mut, NonNull};

/// x is the east and y the north, whatever the order of the system's own axes is.
const TRADITIONAL: c_int = 0;

/// A reference system.
pub struct Reference {
    gdal: &'static Gdal,
    handle: NonNull<c_void>,
}

impl Reference {
    /// A copy of GDAL's, if there is one.
    ///
    /// # Safety
    ///
    /// The handle is null or one of a reference system.
    pub(super) unsafe fn copied(gdal: &'static Gdal, handle: Handle) -> Option<Self> {
        let handle = NonNull::new(handle)?;
        let copy = NonNull::new((gdal.OSRClone)(handle.as_ptr()))?;
        Some(Reference { gdal, handle: copy })
    }

    /// The system of a name, as `EPSG:3067` or `urn:ogc:def:crs:EPSG::3067`.
    pub fn of(name: &str) -> Result<Self> {
        let gdal = gdal()?;
        let name = c_text(name)?;
        // SAFETY: an empty system is made, which takes the name, a text that ends with a zero.
        unsafe {
            let handle = NonNull::new((gdal.OSRNewSpatialReference)(null())).ok_or_else(failure)?;
            let made = Reference { gdal, handle };
            match (gdal.OSRSetFromUserInput)(handle.as_ptr(), name.as_ptr()) {
                0 => (gdal.OSRSetAxisMappingStrategy)(handle.as_ptr(), TRADITIONAL),
                _ => return Err(failure()),
            }
            Ok(made)
        }
    }

    /// The authority that names it, and its code there, as `EPSG` and `3067`.
    pub fn authority(&self) -> Option<(String, String)> {
        // SAFETY: the system is there; no key names the whole.
        let [name, code] = unsafe {
            [self.gdal.OSRGetAuthorityName, self.gdal.OSRGetAuthorityCode]
                .map(|get| text(get(self.handle.as_ptr(), null())))
        };
        (!name.is_empty() && !code.is_empty()).then_some((name, code))
    }

    /// Its name in words.
    pub fn name(&self) -> String {
        // SAFETY: the system is there.
        unsafe { text((self.gdal.OSRGetName)(self.handle.as_ptr())) }
    }

    /// The unit of its coordinates: degrees, or the one of lengths.
    pub fn unit(&self) -> String {
        let mut name: *mut c_char = null_mut();
        // SAFETY: the system is there, and keeps the name of its unit.
        unsafe {
            match (self.gdal.OSRIsGeographic)(self.handle.as_ptr()) {
                0 => (self.gdal.OSRGetLinearUnits)(self.handle.as_ptr(), &mut name),
                _ => return "degrees".into(),
            };
            text(name)
        }
    }

    pub(super) fn handle(&self) -> Handle {
        self.handle.as_ptr()
    }
}

impl Drop for Reference {
    fn drop(&mut self) {
        // SAFETY: it is the owner's, and is taken away once.
        unsafe { (self.gdal.OSRDestroySpatialReference)(self.handle.as_ptr()) };
    }
}
