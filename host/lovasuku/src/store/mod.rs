//! Stores: files and databases that GDAL reads and writes, as GeoPackage, FlatGeobuf, Shapefiles and
//! PostGIS.
//!
//! GDAL's library is looked for when a store is asked for. What comes from it are columns of values and
//! of WKB, which the proved reader reads; what goes to it is WKB of the proved writer's.

mod batches;
mod connections;
mod fields;
mod gdal;
mod geometry;
mod index;
mod properties;
mod reading;
mod rows;
mod targets;
mod writing;

pub use connections::{is_connection, is_database, shown};
pub use fields::Kinds;
pub use gdal::{Dataset, Field, Reference};
pub use reading::{read, About, Asked, Rows};
pub use targets::{driver_name, Store};
pub use writing::{Drawn, Each, Features, Sheet};
