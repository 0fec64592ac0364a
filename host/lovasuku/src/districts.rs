//! Districts: two may go through the library side by side, and lines of the one are never joined with
//! lines of the other.

use crate::delivery::Delivery;
use std::fmt;

/// The second district: the lines that have this value of a property. All others are the first's.
#[derive(Clone, Debug, PartialEq)]
pub struct District {
    pub property: String,
    pub value: String,
}

impl District {
    /// The district of `PROPERTY=VALUE`.
    pub fn of(text: &str) -> Result<Self, String> {
        match text.split_once('=') {
            Some((property, value)) if !property.is_empty() => {
                Ok(District { property: property.into(), value: value.into() })
            }
            _ => Err("not a property and a value with = between them".into()),
        }
    }

    /// True where a line is of it: the property is written as the value is, or is that text.
    pub fn has(&self, delivery: &Delivery, line: u32) -> bool {
        let is_text =
            |text: &str| serde_json::from_str(text).map_or(false, |it: String| it == self.value);
        let written = delivery.property(line, &self.property);
        written.map_or(false, |text| text == self.value || is_text(text))
    }
}

impl fmt::Display for District {
    fn fmt(&self, f: &mut fmt::Formatter<'_>) -> fmt::Result {
        write!(f, "{}={}", self.property, self.value)
    }
}
