//! Features that are put into layers.

use super::dataset::Layer;
use super::declared::{Gdal, Handle};
use super::messages::failure;
use super::texts::{c_text, CTexts};
use super::types::Field;
use anyhow::{ensure, Result};
use std::ffi::CString;
use std::os::raw::c_int;
use std::ptr::null_mut;

/// The value of a field.
pub enum Datum {
    Whole(i64),
    Real(f64),
    Text(CString),
    Bytes(Vec<u8>),
    Integers(Vec<c_int>),
    Wholes(Vec<i64>),
    Reals(Vec<f64>),
    Texts(Vec<String>),
}

/// A feature: its id where the layer has ids, its geometry as WKB, and the values of its fields by their
/// positions.
pub struct Row<'a> {
    pub id: Option<i64>,
    pub wkb: &'a [u8],
    pub values: &'a [(usize, Datum)],
}

/// A feature in the making, which is taken away at its end.
struct Made {
    gdal: &'static Gdal,
    handle: Handle,
}

impl Drop for Made {
    fn drop(&mut self) {
        // SAFETY: it is the owner's, and is taken away once.
        unsafe { (self.gdal.OGR_F_Destroy)(self.handle) };
    }
}

impl Layer<'_> {
    /// Adds a field; the layer may shorten its name or widen its type, or have such a field before.
    pub(super) fn add(&mut self, field: &Field) -> Result<()> {
        let gdal = self.dataset.gdal;
        let name = c_text(&field.name)?;
        let before = self.count();
        // SAFETY: the layer is there; the definition is made, copied by the layer, and taken away.
        let added = unsafe {
            let definition = (gdal.OGR_Fld_Create)(name.as_ptr(), field.kind.number);
            (gdal.OGR_Fld_SetSubType)(definition, field.kind.sub);
            (gdal.OGR_Fld_SetWidth)(definition, field.width);
            (gdal.OGR_Fld_SetPrecision)(definition, field.precision);
            let added = (gdal.OGR_L_CreateField)(self.handle.as_ptr(), definition, 1);
            (gdal.OGR_Fld_Destroy)(definition);
            added
        };
        ensure!(added == 0, failure());
        self.places.push(match self.count() > before {
            true => before,
            // SAFETY: the definition is the layer's, and the name ends with a zero.
            false => unsafe { (gdal.OGR_FD_GetFieldIndex)(self.definition(), name.as_ptr()) },
        });
        ensure!(self.places.last() >= Some(&0), "it is left out by this format");
        Ok(())
    }

    fn definition(&self) -> Handle {
        // SAFETY: the layer is there as long as its dataset.
        unsafe { (self.dataset.gdal.OGR_L_GetLayerDefn)(self.handle.as_ptr()) }
    }

    /// The number of fields.
    fn count(&self) -> c_int {
        // SAFETY: the definition is the layer's.
        unsafe { (self.dataset.gdal.OGR_FD_GetFieldCount)(self.definition()) }
    }

    /// Puts a feature behind the others.
    pub fn put(&mut self, row: &Row) -> Result<()> {
        let gdal = self.dataset.gdal;
        let mut geometry = null_mut();
        let length = c_int::try_from(row.wkb.len())?;
        // SAFETY: the bytes are as many as is told, and the feature is of the layer's definition. It
        // takes the geometry over. Each value goes to a field of the definition.
        unsafe {
            let read = gdal.OGR_G_CreateFromWkb;
            if read(row.wkb.as_ptr(), null_mut(), &mut geometry, length) != 0 {
                return Err(failure());
            }
            let made = Made { gdal, handle: (gdal.OGR_F_Create)(self.definition()) };
            (gdal.OGR_F_SetGeometryDirectly)(made.handle, geometry);
            if let Some(id) = row.id {
                (gdal.OGR_F_SetFID)(made.handle, id);
            }
            for (field, datum) in row.values {
                if let Some(&field) = self.places.get(*field) {
                    set(gdal, made.handle, field, datum)?;
                }
            }
            match (gdal.OGR_L_CreateFeature)(self.handle.as_ptr(), made.handle) {
                0 => Ok(()),
                _ => Err(failure()),
            }
        }
    }
}

/// Sets a field of a feature.
///
/// # Safety
///
/// The feature is there and has the field.
unsafe fn set(gdal: &Gdal, feature: Handle, field: c_int, datum: &Datum) -> Result<()> {
    match datum {
        Datum::Whole(number) => (gdal.OGR_F_SetFieldInteger64)(feature, field, *number),
        Datum::Real(number) => (gdal.OGR_F_SetFieldDouble)(feature, field, *number),
        Datum::Text(text) => (gdal.OGR_F_SetFieldString)(feature, field, text.as_ptr()),
        Datum::Bytes(all) => {
            let count = c_int::try_from(all.len())?;
            (gdal.OGR_F_SetFieldBinary)(feature, field, count, all.as_ptr().cast())
        }
        Datum::Integers(all) => {
            let count = c_int::try_from(all.len())?;
            (gdal.OGR_F_SetFieldIntegerList)(feature, field, count, all.as_ptr())
        }
        Datum::Wholes(all) => {
            let count = c_int::try_from(all.len())?;
            (gdal.OGR_F_SetFieldInteger64List)(feature, field, count, all.as_ptr())
        }
        Datum::Reals(all) => {
            let count = c_int::try_from(all.len())?;
            (gdal.OGR_F_SetFieldDoubleList)(feature, field, count, all.as_ptr())
        }
        Datum::Texts(all) => {
            (gdal.OGR_F_SetFieldStringList)(feature, field, CTexts::of(all)?.as_ptr())
        }
    }
    Ok(())
}
