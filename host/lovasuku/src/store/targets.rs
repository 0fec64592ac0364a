//! Which outputs are stores, and what must be so before one is written.

use super::connections::is_database;
use super::gdal::{failures, listed, warnings, Dataset, Driver};
use anyhow::{ensure, Context, Result};
use std::path::Path;

/// The endings of names, and the drivers of GDAL's that they ask for: formats that keep every bit of a
/// coordinate.
const ENDINGS: [(&str, &str); 4] =
    [("gpkg", GEOPACKAGE), ("fgb", "FlatGeobuf"), ("shp", SHAPEFILE), ("sqlite", "SQLite")];
const SHAPEFILE: &str = "ESRI Shapefile";

/// The endings of other formats that GDAL writes, where it is asked to by a driver's name.
const OTHER_ENDINGS: [&str; 10] =
    ["csv", "dxf", "gdb", "gml", "gpx", "kml", "kmz", "mif", "parquet", "tab"];

/// The driver of databases.
const DATABASE: &str = "PostgreSQL";

/// The drivers whose features have ids from 0 on, as they are given.
const WITH_IDS: [&str; 3] = [GEOPACKAGE, "SQLite", DATABASE];

/// The most bytes of a text in a Shapefile.
const SHAPEFILE_TEXT: usize = 254;

/// How a GeoPackage is made: its spatial index is laid when all features are there.
const GEOPACKAGE: &str = "GPKG";
const GEOPACKAGE_OPTIONS: [&str; 1] = ["SPATIAL_INDEX=NO"];

/// How a Shapefile is made: with texts in UTF-8.
const SHAPEFILE_OPTIONS: [&str; 1] = ["ENCODING=UTF-8"];

/// The endings of the files beside a Shapefile, which are of it alone.
const BESIDE_SHAPEFILE: [&str; 9] = ["shx", "dbf", "prj", "cpg", "qix", "sbn", "sbx", "idm", "ind"];

/// The name of the driver that an output goes by, where it is a store: the one that was asked for, or
/// that of its name. What has the ending of another format is no GeoJSON unless that is asked for.
pub fn driver_name(path: &Path, asked: Option<&str>) -> Result<Option<String>> {
    let ending = path.extension().and_then(|ending| ending.to_str()).unwrap_or_default();
    let ending = ending.to_ascii_lowercase();
    if let Some(name) = asked {
        return Ok(Some(name.to_owned()));
    }
    if path.to_str().map_or(false, is_database) {
        return Ok(Some(DATABASE.into()));
    }
    ensure!(
        !OTHER_ENDINGS.contains(&&ending[..]),
        ".{ending} is another format: -f DRIVER names the driver of GDAL's that writes it \
         (ogrinfo --formats lists them), -f geojson writes GeoJSON"
    );
    let known = ENDINGS.iter().find(|(each, _)| *each == ending);
    Ok(known.map(|(_, driver)| (*driver).to_owned()))
}

/// A store that is to be written.
#[derive(Clone)]
pub struct Store {
    pub driver: Driver,
    /// The name of the layer.
    pub layer: String,
    /// Whether features have ids from 0 on.
    pub ids: bool,
    /// The most bytes of a text, where there is a bound.
    pub longest: Option<usize>,
    /// Whether its spatial index is laid when all features are there.
    pub indexed: bool,
    /// How the layer is made, beyond its columns.
    pub options: &'static [&'static str],
    /// The endings of files beside it that are of it alone.
    pub beside: &'static [&'static str],
}

impl Store {
    /// The store of a path, by a driver's name. Its layer has the name of the file, or the given one in
    /// a database.
    pub fn of(path: &Path, driver: &str, layer: &str) -> Result<Self> {
        let stem = path.file_stem().and_then(|stem| stem.to_str()).unwrap_or(layer);
        let database = path.to_str().map_or(false, is_database);
        match database {
            true => may_be_added(path, layer)?,
            false => may_be_replaced(path)?,
        }
        let mut store = Store {
            driver: Driver::of(driver)?,
            layer: if database { layer } else { stem }.to_owned(),
            ids: WITH_IDS.iter().any(|each| each.eq_ignore_ascii_case(driver)),
            longest: None,
            indexed: driver.eq_ignore_ascii_case(GEOPACKAGE),
            options: &[],
            beside: &[],
        };
        if driver.eq_ignore_ascii_case(SHAPEFILE) {
            store.longest = Some(SHAPEFILE_TEXT);
            (store.options, store.beside) = (&SHAPEFILE_OPTIONS, &BESIDE_SHAPEFILE);
        }
        if store.indexed {
            store.options = &GEOPACKAGE_OPTIONS;
        }
        Ok(store)
    }
}

/// Tests that a database is there, and has no table of a name.
fn may_be_added(path: &Path, table: &str) -> Result<()> {
    let name = path.to_str().context("its name is not UTF-8")?;
    let tables = Dataset::open(name, true)?.layers();
    ensure!(
        !tables.iter().any(|each| each == table),
        "it has a table {table:?} (--into TABLE names another)"
    );
    Ok(())
}

/// What stands beside a file of SQLite's that is open elsewhere, or was when a computer failed.
const OPEN: [&str; 2] = ["-wal", "-journal"];

/// Tests that a file that is there has no layers that would be lost with it, and is not open elsewhere.
fn may_be_replaced(path: &Path) -> Result<()> {
    let name = path.to_str().context("its name is not UTF-8")?;
    for ending in OPEN {
        let beside = format!("{name}{ending}");
        ensure!(!Path::new(&beside).exists(), "it is open elsewhere: there is {beside}");
    }
    if path.is_file() {
        let layers = Dataset::open(name, false).map(|dataset| dataset.layers()).unwrap_or_default();
        // What is no store of GDAL's is replaced as any file is, and nothing is told of it.
        failures();
        warnings();
        ensure!(
            layers.len() < 2,
            "it has the layers {}, which would be lost with it",
            listed(&layers)
        );
    }
    Ok(())
}
