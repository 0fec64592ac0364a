//! The coordinate system of a level, which chain building never asks for.

#[derive(Debug, Clone, Copy)]
pub struct Crs;

impl Crs {
    pub fn meters_to_units(self, _metres: f64) -> f64 {
        unreachable!("levels are not ported")
    }
}
