//! The features of a text as they become the lines of a delivery.

use super::object::Object;
use super::texts::{Properties, Texts};
use super::{Delivery, Feature, Reading, Sorting};
use std::collections::HashMap;

/// Features of a text, put together in their order.
pub struct Gathered<'a, 'r> {
    sorting: Sorting<'r>,
    /// The position of the next feature.
    pub position: u32,
    texts: Vec<[Option<&'a str>; 2]>,
    foreign: HashMap<u32, Object<'a>>,
}

impl<'a, 'r> Gathered<'a, 'r> {
    pub fn of(reading: &'r Reading) -> Self {
        let (texts, foreign) = (Vec::new(), HashMap::new());
        Gathered { sorting: Sorting::of(reading), position: 0, texts, foreign }
    }

    /// Puts a feature behind the others, or tells what is wrong with it.
    pub fn put(&mut self, mut feature: Feature<'a>) -> Result<(), String> {
        let properties = match feature.properties {
            Properties::Written(text) => text,
            Properties::Row(..) => None,
        };
        let before = self.sorting.shapes.len();
        let own = feature.geometry.dimension();
        let exploded = self.sorting.put(self.position, &feature.geometry, own)?;
        if exploded {
            feature.drop_box();
        }
        for line in before..self.sorting.shapes.len() {
            self.texts.push([feature.id, properties]);
            if !feature.foreign.is_empty() {
                self.foreign.insert(line as u32, feature.foreign.clone());
            }
        }
        self.position += 1;
        Ok(())
    }

    pub fn delivery(self) -> Delivery<'a> {
        let Gathered { sorting, texts, foreign, .. } = self;
        let Sorting { shapes, positions, parts, left_out, .. } = sorting;
        let texts = Texts::Written(texts);
        Delivery { shapes, texts, positions, parts, left_out, foreign, ..Delivery::default() }
    }
}
