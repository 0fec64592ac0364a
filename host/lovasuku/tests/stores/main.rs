//! Stores: the same roads from GeoJSON, GeoPackage, FlatGeobuf and Shapefiles, the same chains into
//! them, by the command and by GDAL's own programs. Where these are not installed a line says so.

#[path = "../common/mod.rs"]
mod common;

mod faults;
mod fields;
mod gdal;
mod heights;
mod indexes;
mod places;
mod roads;
mod settings;
mod together;
