//! Datasets and layers of GDAL's: what can be done with them, safely.

use super::arrow::{ArrowArrayStream, Stream};
use super::declared::{Gdal, Handle};
use super::library::gdal;
use super::messages::{failure, failures, text};
use super::reference::Reference;
use super::texts::{c_text, CTexts};
use super::types::{Field, FieldType};
use anyhow::{bail, Context, Result};
use std::os::raw::{c_int, c_uint, c_void};
use std::ptr::{null, null_mut, NonNull};

/// How a dataset is opened: for vectors, with faults told, and to be written where that is asked for.
const UPDATE: c_uint = 0x01;
const VECTOR: c_uint = 0x04;
const TELLING: c_uint = 0x40;

/// An open dataset.
pub struct Dataset {
    pub(super) gdal: &'static Gdal,
    pub(super) handle: NonNull<c_void>,
}

impl Dataset {
    /// Opens a file, a folder or a database by its name.
    pub fn open(name: &str, update: bool) -> Result<Self> {
        let gdal = gdal()?;
        let name = c_text(name)?;
        let flags = VECTOR | TELLING | if update { UPDATE } else { 0 };
        // SAFETY: the name ends with a zero; the lists may be missing.
        let opened = unsafe { (gdal.GDALOpenEx)(name.as_ptr(), flags, null(), null(), null()) };
        Dataset::of(gdal, opened)
    }

    pub(super) fn of(gdal: &'static Gdal, handle: Handle) -> Result<Self> {
        let handle = NonNull::new(handle).ok_or_else(failure)?;
        Ok(Dataset { gdal, handle })
    }

    /// The names of all layers.
    pub fn layers(&self) -> Vec<String> {
        // SAFETY: the dataset is open, and a layer of a number below the count is there.
        unsafe {
            let count = (self.gdal.GDALDatasetGetLayerCount)(self.handle.as_ptr());
            let layer = |k| (self.gdal.GDALDatasetGetLayer)(self.handle.as_ptr(), k);
            (0..count).map(|k| text((self.gdal.OGR_L_GetName)(layer(k)))).collect()
        }
    }

    /// The layer of a name.
    pub fn layer(&self, name: &str) -> Result<Layer<'_>> {
        let c_name = c_text(name)?;
        // SAFETY: the dataset is open, and the name ends with a zero.
        let layer =
            unsafe { (self.gdal.GDALDatasetGetLayerByName)(self.handle.as_ptr(), c_name.as_ptr()) };
        match NonNull::new(layer) {
            Some(handle) => Ok(Layer::of(self, handle, false)),
            None => bail!("it has no layer {name:?}; it has {}", listed(&self.layers())),
        }
    }

    /// The layer that a query gives.
    pub fn query(&self, sql: &str) -> Result<Layer<'_>> {
        let sql = c_text(sql)?;
        let handle = self.handle.as_ptr();
        // SAFETY: the dataset is open, and the query ends with a zero; a filter and a dialect may be
        // missing.
        let layer =
            unsafe { (self.gdal.GDALDatasetExecuteSQL)(handle, sql.as_ptr(), null_mut(), null()) };
        match NonNull::new(layer) {
            Some(handle) => Ok(Layer::of(self, handle, true)),
            None => Err(failures().unwrap_or_else(|| anyhow::anyhow!("it gives no rows"))),
        }
    }

    /// Runs a statement that gives no rows.
    pub fn run(&self, sql: &str) -> Result<()> {
        let sql = c_text(sql)?;
        let handle = self.handle.as_ptr();
        // SAFETY: as for a query; a layer that is given for all that is released once.
        unsafe {
            let rows = (self.gdal.GDALDatasetExecuteSQL)(handle, sql.as_ptr(), null_mut(), null());
            if !rows.is_null() {
                (self.gdal.GDALDatasetReleaseResultSet)(handle, rows);
            }
        }
        failures().map_or(Ok(()), Err)
    }

    /// Closes it, and tells what GDAL tells of that.
    pub fn close(self) -> Result<()> {
        drop(self);
        failures().map_or(Ok(()), Err)
    }
}

impl Drop for Dataset {
    fn drop(&mut self) {
        // SAFETY: it is open, and is closed once.
        unsafe { (self.gdal.GDALClose)(self.handle.as_ptr()) };
    }
}

/// Names in words.
pub fn listed(names: &[String]) -> String {
    match names {
        [] => "none".into(),
        names => names.iter().map(|name| format!("{name:?}")).collect::<Vec<_>>().join(", "),
    }
}

/// A layer of an open dataset, or the rows of a query.
pub struct Layer<'d> {
    pub(super) dataset: &'d Dataset,
    pub(super) handle: NonNull<c_void>,
    /// Where the fields lie that a layer was made with, some of which may have others of its own.
    pub(super) places: Vec<c_int>,
    of_query: bool,
}

impl<'d> Layer<'d> {
    pub(super) fn of(dataset: &'d Dataset, handle: NonNull<c_void>, of_query: bool) -> Self {
        Layer { dataset, handle, places: Vec::new(), of_query }
    }

    fn gdal(&self) -> &'static Gdal {
        self.dataset.gdal
    }

    /// The name of the layer.
    pub fn name(&self) -> String {
        // SAFETY: the layer is there as long as its dataset.
        unsafe { text((self.gdal().OGR_L_GetName)(self.handle.as_ptr())) }
    }

    /// The name of the column of ids; empty where the ids have none.
    pub fn id_column(&self) -> String {
        // SAFETY: as for the name.
        unsafe { text((self.gdal().OGR_L_GetFIDColumn)(self.handle.as_ptr())) }
    }

    /// How many rows it has, where that is known without a look at each.
    pub fn rows(&self) -> Option<usize> {
        // SAFETY: as for the name.
        let rows = unsafe { (self.gdal().OGR_L_GetFeatureCount)(self.handle.as_ptr(), 0) };
        usize::try_from(rows).ok()
    }

    /// Leaves out the rows for which a condition does not hold.
    pub fn filter(&mut self, condition: &str) -> Result<()> {
        let condition = c_text(condition)?;
        // SAFETY: the layer is there, and the condition ends with a zero.
        let set = unsafe {
            (self.gdal().OGR_L_SetAttributeFilter)(self.handle.as_ptr(), condition.as_ptr())
        };
        match set {
            0 => Ok(()),
            _ => Err(failure()),
        }
    }

    /// Its columns of geometry: their names and the reference systems of their coordinates.
    pub fn geometries(&self) -> Vec<(String, Option<Reference>)> {
        let gdal = self.gdal();
        // SAFETY: the definition is the layer's, and has as many columns as it tells.
        unsafe {
            let definition = (gdal.OGR_L_GetLayerDefn)(self.handle.as_ptr());
            let column = |k| {
                let column = (gdal.OGR_FD_GetGeomFieldDefn)(definition, k);
                let reference = (gdal.OGR_GFld_GetSpatialRef)(column);
                let name = text((gdal.OGR_GFld_GetNameRef)(column));
                (name, Reference::copied(gdal, reference))
            };
            (0..(gdal.OGR_FD_GetGeomFieldCount)(definition)).map(column).collect()
        }
    }

    /// Its fields.
    pub fn fields(&self) -> Vec<Field> {
        let gdal = self.gdal();
        // SAFETY: the definition is the layer's, and has as many fields as it tells.
        unsafe {
            let definition = (gdal.OGR_L_GetLayerDefn)(self.handle.as_ptr());
            let field = |k: c_int| {
                let field = (gdal.OGR_FD_GetFieldDefn)(definition, k);
                Field {
                    name: text((gdal.OGR_Fld_GetNameRef)(field)),
                    kind: FieldType {
                        number: (gdal.OGR_Fld_GetType)(field),
                        sub: (gdal.OGR_Fld_GetSubType)(field),
                    },
                    width: (gdal.OGR_Fld_GetWidth)(field),
                    precision: (gdal.OGR_Fld_GetPrecision)(field),
                }
            };
            (0..(gdal.OGR_FD_GetFieldCount)(definition)).map(field).collect()
        }
    }

    /// Its rows, in batches.
    pub fn stream(&mut self, options: &[String]) -> Result<Stream<'_>> {
        let options = CTexts::of(options)?;
        let mut stream = Box::new(ArrowArrayStream::empty());
        // SAFETY: the layer is there, the stream is empty, and stays where it is.
        let filled = unsafe {
            let get = self.gdal().OGR_L_GetArrowStream;
            get(self.handle.as_ptr(), &mut *stream, options.as_ptr())
        };
        match filled {
            true => Ok(Stream::of(stream)),
            false => Err(failure()).context("its rows cannot be read"),
        }
    }
}

impl Drop for Layer<'_> {
    fn drop(&mut self) {
        if self.of_query {
            let dataset = self.dataset.handle.as_ptr();
            // SAFETY: it is of a query to this dataset, and is released once.
            unsafe { (self.gdal().GDALDatasetReleaseResultSet)(dataset, self.handle.as_ptr()) };
        }
    }
}
