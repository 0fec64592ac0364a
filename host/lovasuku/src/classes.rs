//! Classes: lines of different classes are never joined, and no line of one district with one of the other.

use crate::delivery::Delivery;
use crate::districts::District;
use anyhow::{bail, Result};
use lovasuku_chains::size::BORDER;
use std::collections::HashMap;

/// The class of every feature.
#[derive(Debug, PartialEq)]
pub struct Classes<'a> {
    /// The number of each feature's class; of the second district's features that from the border on.
    pub groups: Vec<u32>,
    /// The value that each class has in common as it is written; nothing where there is none.
    pub values: Vec<Option<&'a str>>,
}

impl<'a> Classes<'a> {
    /// The classes by a property. Features without the property are a class too, and where no
    /// property is named, all features are one class, in each district.
    pub fn of(
        delivery: &'a Delivery,
        property: Option<&str>,
        district: Option<&District>,
    ) -> Result<Self> {
        let mut classes = Classes { groups: Vec::new(), values: Vec::new() };
        let mut numbers: HashMap<Option<&str>, u32> = HashMap::new();
        for line in delivery.lines() {
            let value = property.and_then(|name| delivery.property(line, name));
            let group = *numbers.entry(value).or_insert_with(|| {
                classes.values.push(value);
                classes.values.len() as u32 - 1
            });
            let of_second = district.map_or(false, |district| district.has(delivery, line));
            classes.groups.push(if of_second { BORDER | group } else { group });
        }
        match (property, district) {
            _ if classes.groups.is_empty() => Ok(classes),
            (Some(name), _) if classes.values == [None] => {
                bail!("no feature has a property {name:?} for --class")
            }
            (_, Some(District { property, value })) if classes.of_second_district() == 0 => {
                bail!("no feature has a property {property:?} of value {value:?} for --district")
            }
            _ => Ok(classes),
        }
    }

    /// How many features are of the second district.
    pub fn of_second_district(&self) -> usize {
        self.groups.iter().filter(|&&group| group >= BORDER).count()
    }

    /// A class in words, with its district where there are two.
    pub fn name(&self, group: u32) -> String {
        let class = match self.values.get((group & !BORDER) as usize) {
            Some(Some(value)) => format!("class {value}"),
            _ if self.values.len() > 1 => "lines without a class".into(),
            _ => "all lines".into(),
        };
        match (self.of_second_district(), group < BORDER) {
            (0, _) => class,
            (_, true) => format!("{class} of the first district"),
            (_, false) => format!("{class} of the second district"),
        }
    }
}
