//! The points of coordinates that may have extras.

use crate::size::POINT;
use crate::Dimension;
use std::fmt;
use std::slice::ChunksExact;

/// The points of a run of coordinates: x and y of each, whatever else they have.
#[derive(Clone)]
pub struct Points<'a>(ChunksExact<'a, f64>);

impl<'a> Points<'a> {
    /// The points of coordinates of a dimension.
    pub(crate) fn of(numbers: &'a [f64], dimension: Dimension) -> Self {
        Points(numbers.chunks_exact(dimension.stride()))
    }
}

fn point(numbers: &[f64]) -> [f64; POINT] {
    match *numbers {
        [x, y, ..] => [x, y],
        _ => [f64::NAN; POINT],
    }
}

impl Iterator for Points<'_> {
    type Item = [f64; POINT];

    fn next(&mut self) -> Option<[f64; POINT]> {
        self.0.next().map(point)
    }

    fn size_hint(&self) -> (usize, Option<usize>) {
        self.0.size_hint()
    }
}

impl DoubleEndedIterator for Points<'_> {
    fn next_back(&mut self) -> Option<[f64; POINT]> {
        self.0.next_back().map(point)
    }
}

impl ExactSizeIterator for Points<'_> {}

impl fmt::Debug for Points<'_> {
    fn fmt(&self, f: &mut fmt::Formatter<'_>) -> fmt::Result {
        f.debug_list().entries(self.clone()).finish()
    }
}
