//! A bend as road crews state it.

use crate::size::MOST_OFFSET;
use crate::{door, Refusal};
use std::fmt;

/// A bend stated as millimetres of offset per metre run, a whole number from 0, straight on, to
/// 1,000, which is 45 degrees.
///
/// ```
/// use lovasuku_chains::{Offset, Refusal, Settings};
///
/// # fn main() -> Result<(), Refusal> {
/// let gentle = Offset::new(268)?;
/// assert_eq!(gentle.limit(), -0.965_913_556_273_921_1);
/// assert_eq!(gentle.degrees().round(), 15.0);
/// assert_eq!(Settings::default().with_offset(gentle).limit, Some(gentle.limit()));
/// assert_eq!(Offset::new(1_001), Err(Refusal::BadOffset));
/// # Ok(())
/// # }
/// ```
#[derive(Clone, Copy, Debug, Default, PartialEq, Eq, PartialOrd, Ord, Hash)]
pub struct Offset(u32);

impl Offset {
    /// An offset of so many millimetres per metre run.
    ///
    /// # Errors
    ///
    /// [`Refusal::BadOffset`] where there are more than 1,000.
    pub fn new(millimetres: u32) -> Result<Self, Refusal> {
        match millimetres <= MOST_OFFSET {
            true => Ok(Offset(millimetres)),
            false => Err(Refusal::BadOffset),
        }
    }

    /// The millimetres per metre run.
    pub fn millimetres(self) -> u32 {
        self.0
    }

    /// The limit that it stands for: minus M / 2^53, where M is the largest whole number with
    /// M * M * (1,000,000 + g * g) at most 1,000,000 * 2^106, for an offset of g.
    ///
    /// It comes from the verified library, exactly this double on every machine. A greater offset
    /// never gives a lower limit, and a call with this limit is proved to be the library's call
    /// with the offset in its place.
    pub fn limit(self) -> f64 {
        f64::from_bits(door::offset_limit(self.0) as u64)
    }

    /// The bend in degrees, for people: the angle whose tangent it is.
    pub fn degrees(self) -> f64 {
        (f64::from(self.0) / 1000.0).atan().to_degrees()
    }
}

impl fmt::Display for Offset {
    fn fmt(&self, f: &mut fmt::Formatter<'_>) -> fmt::Result {
        write!(f, "{} mm per metre", self.0)
    }
}
