//! What a coordinate has beside x and y.

/// What each coordinate of a call has beside x and y. One call has one dimension.
///
/// x and y alone decide what is joined. A height or a measure rides along with its point, may be any
/// double, NaN included, and comes back bit for bit; of coordinates that repeat one another's x and y
/// the earlier one stays, with its extras.
///
/// ```
/// use lovasuku_chains::Dimension;
///
/// assert_eq!((Dimension::Xyz.wkb_type(), Dimension::Xyz.stride()), (1002, 3));
/// assert_eq!(Dimension::of_wkb_type(3002), Some(Dimension::Xyzm));
/// // What Shapely writes for heights by default is no type of ISO's.
/// assert_eq!(Dimension::of_wkb_type(0x8000_0002), None);
/// ```
#[derive(Clone, Copy, Debug, Default, PartialEq, Eq, Hash)]
pub enum Dimension {
    /// x and y: type 2.
    #[default]
    Xy,
    /// x, y and a height: type 1002.
    Xyz,
    /// x, y and a measure: type 2002.
    Xym,
    /// x, y, a height and a measure: type 3002.
    Xyzm,
}

impl Dimension {
    /// All dimensions.
    pub const ALL: [Dimension; 4] =
        [Dimension::Xy, Dimension::Xyz, Dimension::Xym, Dimension::Xyzm];

    /// The dimension of a type of OGC 06-103r4, if it is a line's.
    pub fn of_wkb_type(wkb_type: u32) -> Option<Self> {
        Dimension::ALL.into_iter().find(|dimension| dimension.wkb_type() == wkb_type)
    }

    /// The type of a line of this dimension in OGC 06-103r4, by which the library knows it.
    pub fn wkb_type(self) -> u32 {
        match self {
            Dimension::Xy => 2,
            Dimension::Xyz => 1002,
            Dimension::Xym => 2002,
            Dimension::Xyzm => 3002,
        }
    }

    /// The numbers of a coordinate.
    pub fn stride(self) -> usize {
        match self {
            Dimension::Xy => 2,
            Dimension::Xyz | Dimension::Xym => 3,
            Dimension::Xyzm => 4,
        }
    }

    /// The numbers of a coordinate beside x and y.
    pub fn extras(self) -> usize {
        match self {
            Dimension::Xy => 0,
            Dimension::Xyz | Dimension::Xym => 1,
            Dimension::Xyzm => 2,
        }
    }
}
