//! Drivers of GDAL's: what they can write, and what they make.

use super::dataset::{Dataset, Layer};
use super::declared::Gdal;
use super::library::gdal;
use super::messages::{failure, text};
use super::reference::Reference;
use super::texts::{c_text, CTexts};
use super::types::{Field, FieldType};
use anyhow::{bail, Context, Result};
use std::os::raw::{c_uint, c_void};
use std::ptr::{null, null_mut, NonNull};

/// A driver.
#[derive(Clone, Copy)]
pub struct Driver {
    gdal: &'static Gdal,
    handle: NonNull<c_void>,
}

impl Driver {
    /// The driver of a name, if it writes vectors.
    pub fn of(name: &str) -> Result<Self> {
        let gdal = gdal()?;
        let c_name = c_text(name)?;
        // SAFETY: the name ends with a zero.
        let handle = unsafe { (gdal.GDALGetDriverByName)(c_name.as_ptr()) };
        let driver = match NonNull::new(handle) {
            Some(handle) => Driver { gdal, handle },
            None => {
                bail!("GDAL has no driver {name:?} (ogrinfo --formats lists those that it has)")
            }
        };
        let can = |what: &str| driver.item(what).map_or(false, |answer| answer == "YES");
        match can("DCAP_VECTOR") && can("DCAP_CREATE") {
            true => Ok(driver),
            false => bail!("GDAL's driver {name:?} does not write vectors"),
        }
    }

    /// What it tells of itself under a name.
    fn item(&self, name: &str) -> Option<String> {
        let name = c_text(name).ok()?;
        let get = self.gdal.GDALGetMetadataItem;
        // SAFETY: the driver stays, and the name ends with a zero; there need be no domain.
        let item = unsafe { text(get(self.handle.as_ptr(), name.as_ptr(), null())) };
        (!item.is_empty()).then_some(item)
    }

    /// True where it lists a word under a name.
    fn lists(&self, name: &str, word: &str) -> bool {
        self.item(name).map_or(false, |items| items.split_whitespace().any(|item| item == word))
    }

    /// True where it writes fields of a type.
    pub fn writes(&self, kind: FieldType) -> bool {
        self.lists("DMD_CREATIONFIELDDATATYPES", kind.name())
    }

    /// The type as it writes it: without what is told of it beyond that, where it does not write such.
    /// That a text is JSON is listed by no driver of GDAL 3.6, and taken by those that list others.
    pub fn written(&self, kind: FieldType) -> FieldType {
        let list = "DMD_CREATIONFIELDDATASUBTYPES";
        let told = |sub: &str| match kind == FieldType::JSON {
            true => self.item(list).is_some(),
            false => self.lists(list, sub),
        };
        match kind.sub_name().map_or(false, told) {
            true => kind,
            false => FieldType { sub: 0, ..kind },
        }
    }

    /// True where its layers can be made with an option of a name.
    pub fn takes(&self, option: &str) -> bool {
        let options = self.item("DS_LAYER_CREATIONOPTIONLIST").unwrap_or_default();
        ['\'', '"'].iter().any(|mark| options.contains(&format!("name={mark}{option}{mark}")))
    }

    /// Makes a dataset.
    pub fn create(&self, path: &str) -> Result<Dataset> {
        let path = c_text(path)?;
        // SAFETY: the path ends with a zero; there are no pixels and no options.
        let made = unsafe {
            (self.gdal.GDALCreate)(self.handle.as_ptr(), path.as_ptr(), 0, 0, 0, 0, null())
        };
        Dataset::of(self.gdal, made)
    }
}

/// What a layer is made of.
pub struct Making<'a> {
    pub name: &'a str,
    pub reference: Option<&'a Reference>,
    /// The type of its geometry, by GDAL's number.
    pub geometry: u32,
    pub options: &'a [String],
    pub fields: &'a [Field],
}

impl Dataset {
    /// Makes a layer with its fields.
    pub fn make(&self, making: &Making) -> Result<Layer<'_>> {
        let gdal = self.gdal;
        let (name, options) = (c_text(making.name)?, CTexts::of(making.options)?);
        let reference = making.reference.map_or(null_mut(), Reference::handle);
        let geometry = making.geometry as c_uint;
        // SAFETY: the dataset is open, the texts end with zeros, and the reference system is there or
        // missing.
        let layer = unsafe {
            let make = gdal.GDALDatasetCreateLayer;
            make(self.handle.as_ptr(), name.as_ptr(), reference, geometry, options.as_ptr())
        };
        let mut layer = Layer::of(self, NonNull::new(layer).ok_or_else(failure)?, false);
        for field in making.fields {
            layer.add(field).with_context(|| format!("field {:?}", field.name))?;
        }
        Ok(layer)
    }

    /// True where what is written can be taken back until it is committed.
    fn has_transactions(&self) -> bool {
        // SAFETY: the dataset is open, and the name ends with a zero.
        c_text("Transactions").map_or(false, |name| unsafe {
            (self.gdal.GDALDatasetTestCapability)(self.handle.as_ptr(), name.as_ptr()) != 0
        })
    }

    /// Begins a transaction, where it has such. What is written until it is committed is taken back
    /// where it is not.
    pub fn begin(&self) -> Result<Transaction<'_>> {
        let dataset = self.has_transactions().then_some(self);
        // SAFETY: the dataset is open.
        let begun = dataset.map_or(0, |dataset| unsafe {
            (dataset.gdal.GDALDatasetStartTransaction)(dataset.handle.as_ptr(), 0)
        });
        match begun {
            0 => Ok(Transaction(dataset)),
            _ => Err(failure()),
        }
    }
}

/// A transaction of a dataset that has such.
pub struct Transaction<'d>(Option<&'d Dataset>);

impl Transaction<'_> {
    /// Commits what was written since it began.
    pub fn commit(mut self) -> Result<()> {
        // SAFETY: the dataset is open.
        let committed = self.0.take().map_or(0, |dataset| unsafe {
            (dataset.gdal.GDALDatasetCommitTransaction)(dataset.handle.as_ptr())
        });
        match committed {
            0 => Ok(()),
            _ => Err(failure()),
        }
    }
}

impl Drop for Transaction<'_> {
    fn drop(&mut self) {
        if let Some(dataset) = self.0 {
            // SAFETY: the dataset is open.
            unsafe { (dataset.gdal.GDALDatasetRollbackTransaction)(dataset.handle.as_ptr()) };
        }
    }
}
