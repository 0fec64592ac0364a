//! GDAL, as it is used here: all that is unsafe lies in this folder, and what leaves it is safe.

mod arrow;
mod columns;
mod cursor;
mod dataset;
mod declared;
mod driver;
mod features;
mod library;
mod messages;
mod reference;
mod texts;
mod types;

pub use arrow::Batch;
pub use columns::{Column, Format, Offsets, Unit, Value};
pub use cursor::Cursor;
pub use dataset::{listed, Dataset, Layer};
pub use driver::{Driver, Making};
pub use features::{Datum, Row};
pub use messages::{failures, settle, warnings};
pub use reference::Reference;
pub use types::{Field, FieldType};
