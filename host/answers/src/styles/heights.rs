//! Heights and measures, put to the coordinates of a call of x and y.

use super::wild;
use crate::call::{stride_of, BuildCall};
use crate::random::Random;

/// The call of x and y with extras of a type: wild words, NaN among them, or a number of its own for
/// each coordinate, by which it shows where an extra came from.
pub fn with_extras(random: &mut Random, call: &BuildCall, wkb_type: u32) -> BuildCall {
    let extras = stride_of(wkb_type).map_or(0, |stride| stride - 2);
    let tagged = random.one_in(2);
    let mut tag = 0;
    let mut extra = |random: &mut Random| match tagged {
        true => {
            tag += 1;
            f64::from(tag).to_bits()
        }
        false if random.one_in(4) => random.bits(),
        false => wild::word(random),
    };
    let mut coordinates = Vec::with_capacity((2 + extras) * call.coordinates.len() / 2);
    for point in call.coordinates.chunks(2) {
        coordinates.extend(point);
        coordinates.extend((0..extras).map(|_| extra(random)));
    }
    BuildCall { wkb_type, coordinates, ..call.clone() }
}
