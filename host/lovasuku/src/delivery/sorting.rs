//! What becomes of each feature: a line, several lines, left out, or a fault.

use super::{Geometry, Reading, Shapes};
use lovasuku_chains::Dimension;
use std::collections::BTreeMap;

/// The lines, what was left out, and how it is told.
#[derive(Debug)]
pub struct Sorting<'r> {
    pub reading: &'r Reading,
    pub shapes: Shapes,
    /// The position of each line's feature, where that may not be the line's own.
    pub positions: Vec<u32>,
    /// Which part of its feature each line is, where lines are parts.
    pub parts: Vec<u32>,
    pub left_out: LeftOut,
}

/// How much was left out.
#[derive(Clone, Debug, Default, PartialEq)]
pub struct LeftOut {
    /// Features that are no lines, by what they are.
    pub others: BTreeMap<String, usize>,
    /// Lines without length.
    pub without_length: usize,
}

impl LeftOut {
    /// True where nothing was left out.
    pub fn is_nothing(&self) -> bool {
        *self == LeftOut::default()
    }
}

impl<'r> Sorting<'r> {
    /// No lines so far.
    pub fn of(reading: &'r Reading) -> Self {
        let (positions, parts) = (Vec::new(), Vec::new());
        Sorting {
            reading,
            shapes: Shapes::default(),
            positions,
            parts,
            left_out: LeftOut::default(),
        }
    }

    /// Puts the geometry of a feature, of a dimension, where it belongs, or tells what is wrong with it. Gives
    /// whether its parts are lines of their own.
    pub fn put(
        &mut self,
        position: u32,
        geometry: &Geometry,
        own: Dimension,
    ) -> Result<bool, String> {
        match geometry {
            Geometry::Other(what) if self.reading.skip_other => {
                *self.left_out.others.entry(what.clone()).or_default() += 1;
                Ok(false)
            }
            Geometry::Other(what) => Err(format!(
                "its geometry is {what}, not a line (--skip-other leaves such features out)"
            )),
            Geometry::Lines(parts) if self.reading.explode && !parts.is_empty() => {
                for (part, run) in (0..).zip(parts) {
                    self.put_line([position, part], &Geometry::Line(run.lent()), own)?;
                }
                Ok(true)
            }
            geometry => self.put_line([position, 0], geometry, own).map(|()| false),
        }
    }

    fn put_line(
        &mut self,
        [position, part]: [u32; 2],
        geometry: &Geometry,
        own: Dimension,
    ) -> Result<(), String> {
        let Reading { explode, drop_empty, skip_other, .. } = *self.reading;
        let empty = geometry.is_empty();
        if drop_empty && (empty || geometry.has_no_length()) {
            self.left_out.without_length += 1;
        } else if empty {
            return Err("its coordinates are empty (--drop-empty leaves such lines out)".into());
        } else {
            self.shapes.push(geometry, own);
            if explode || drop_empty || skip_other {
                self.positions.push(position);
            }
            if explode {
                self.parts.push(part);
            }
        }
        Ok(())
    }
}
