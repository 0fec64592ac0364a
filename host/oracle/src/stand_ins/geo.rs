//! Coordinates and geometries.

/// A coordinate, compared by `==` of its floats.
#[derive(Debug, Clone, Copy, PartialEq)]
pub struct Coord<T> {
    pub x: T,
    pub y: T,
}

/// A run of coordinates.
#[derive(Debug, Clone, PartialEq)]
pub struct LineString<T>(pub Vec<Coord<T>>);

impl<T> LineString<T> {
    pub fn new(coordinates: Vec<Coord<T>>) -> Self {
        LineString(coordinates)
    }
}

/// A line that may be joined, or any other geometry with its coordinates.
#[derive(Debug, Clone, PartialEq)]
pub enum Geometry<T> {
    LineString(LineString<T>),
    Other(LineString<T>),
}

/// The extent of a geometry.
pub struct Rect<T>(Coord<T>, Coord<T>);

impl<T: Copy> Rect<T> {
    pub fn min(&self) -> Coord<T> {
        self.0
    }

    pub fn max(&self) -> Coord<T> {
        self.1
    }
}

/// The question for an extent, which chain building never asks.
pub trait BoundingRect<T> {
    fn bounding_rect(&self) -> Option<Rect<T>>;
}

impl<T> BoundingRect<T> for Geometry<T> {
    fn bounding_rect(&self) -> Option<Rect<T>> {
        unreachable!("extents are not ported")
    }
}

/// The question for the number of coordinates, which chain building never asks.
pub mod coords_iter {
    pub trait CoordsIter {
        fn coords_count(&self) -> usize;
    }

    impl<T> CoordsIter for super::Geometry<T> {
        fn coords_count(&self) -> usize {
            unreachable!("the memory guard is not ported")
        }
    }
}
