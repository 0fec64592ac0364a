//! Why a call was turned away.

use std::error::Error;
use std::fmt;

/// Why a call was turned away. A refused call reports nothing and stores nothing.
///
/// The refusals are tested in the order in which they stand here, and the first that applies is
/// given. At the [`door`](crate::door), where a type is given, 12 is the first of all.
///
/// ```
/// use lovasuku_chains::Refusal;
///
/// assert_eq!(Refusal::CountsDoNotAddUp.number(), 4);
/// assert_eq!(
///     Refusal::CountsDoNotAddUp.to_string(),
///     "the counts do not add up to the coordinates (refusal 4)"
/// );
/// ```
#[derive(Clone, Copy, Debug, PartialEq, Eq, Hash)]
pub enum Refusal {
    /// 1: more than 4,096 lines, or, for pairing, more than 8,192 ends.
    TooMany,
    /// 2: the tables differ in length: one number of each per line, or per end one presence mark
    /// and two direction numbers.
    TablesDiffer,
    /// 3: a kind or a presence mark is above 1.
    MarkAboveOne,
    /// 4: the counts do not add up to the coordinates: as many numbers for each as its
    /// [`Dimension`](crate::Dimension) has.
    CountsDoNotAddUp,
    /// 5: more than 65,536 coordinates.
    TooManyCoordinates,
    /// 20: a district has more than 2,048 lines, of whichever kind.
    DistrictOverLines,
    /// 21: a district has more than 32,768 coordinates, of lines of whichever kind.
    DistrictOverCoordinates,
    /// 15: an x or a y is NaN or infinite, of whichever line. Heights and measures are not looked at.
    NoPlace,
    /// 6: the limit is NaN, below -1 or above 1. At the [`door`](crate::door) also: the switch is
    /// above 1.
    BadLimit,
    /// 22: the offset that stands in the limit's place is above 1,000 millimetres per metre run.
    BadOffset,
    /// 17: an x or a y of the origin is NaN or infinite, whatever the tolerance is.
    BadOrigin,
    /// 19: pieces that are lent are not those of these lines. Those of [`First`](crate::First) always are.
    BadPieces,
    /// 18: a window has a NaN, or a least x or y above its greatest.
    BadWindow,
    /// 7: a room is too short. [`Rooms`](crate::Rooms) never lends one that is.
    RoomTooShort,
    /// 8: a piece number occurs more than twice.
    PieceTooOften,
    /// 9: the indexed route was given a present direction that is not finite.
    NotFinite,
    /// 10: there is no such chain.
    NoSuchChain,
    /// 23: of chains made elsewhere, a record names no chain, reaches outside the listing, or lists a
    /// position that is none of a line's.
    BadRecord,
    /// 24: chains made elsewhere are not acceptable otherwise; [`find`](crate::find) tells where.
    NotAcceptable,
    /// 11: a record's byte order is neither 0 nor 1.
    BadByteOrder,
    /// 12: a record's type is none of a line's, 2, 1002, 2002 and 3002. At the
    /// [`door`](crate::door) also: the type that was given is none of these.
    BadType,
    /// 25: a record's type differs from the first record's.
    MixedTypes,
    /// 13: the lengths do not add up to the run, or a record is not as long as its header and its
    /// count say.
    BadLength,
    /// 14: a room is shorter than the records need: for coordinates, counts or the type where they are
    /// read, for bytes or lengths where they are written. [`WkbRooms`](crate::WkbRooms) and
    /// [`WkbBuf`](crate::WkbBuf) never lend one that is.
    RecordRoomTooShort,
    /// 16: the byte order to be written is neither 0 nor 1. [`ByteOrder`](crate::ByteOrder) has no
    /// other.
    UnknownOrder,
    /// 26: an end number is not below the number of ends, or the two are equal.
    NoTwoEnds,
    /// A number that this crate does not know: the library is of another version.
    Unknown(i64),
}

impl Refusal {
    /// The refusal of a number.
    pub fn of_number(number: i64) -> Self {
        match number {
            1 => Refusal::TooMany,
            2 => Refusal::TablesDiffer,
            3 => Refusal::MarkAboveOne,
            4 => Refusal::CountsDoNotAddUp,
            5 => Refusal::TooManyCoordinates,
            6 => Refusal::BadLimit,
            7 => Refusal::RoomTooShort,
            8 => Refusal::PieceTooOften,
            9 => Refusal::NotFinite,
            10 => Refusal::NoSuchChain,
            11 => Refusal::BadByteOrder,
            12 => Refusal::BadType,
            13 => Refusal::BadLength,
            14 => Refusal::RecordRoomTooShort,
            15 => Refusal::NoPlace,
            16 => Refusal::UnknownOrder,
            17 => Refusal::BadOrigin,
            18 => Refusal::BadWindow,
            19 => Refusal::BadPieces,
            20 => Refusal::DistrictOverLines,
            21 => Refusal::DistrictOverCoordinates,
            22 => Refusal::BadOffset,
            23 => Refusal::BadRecord,
            24 => Refusal::NotAcceptable,
            25 => Refusal::MixedTypes,
            26 => Refusal::NoTwoEnds,
            unknown => Refusal::Unknown(unknown),
        }
    }

    /// Its number in the rules.
    pub fn number(self) -> i64 {
        match self {
            Refusal::TooMany => 1,
            Refusal::TablesDiffer => 2,
            Refusal::MarkAboveOne => 3,
            Refusal::CountsDoNotAddUp => 4,
            Refusal::TooManyCoordinates => 5,
            Refusal::DistrictOverLines => 20,
            Refusal::DistrictOverCoordinates => 21,
            Refusal::NoPlace => 15,
            Refusal::BadLimit => 6,
            Refusal::BadOffset => 22,
            Refusal::BadOrigin => 17,
            Refusal::BadPieces => 19,
            Refusal::BadWindow => 18,
            Refusal::RoomTooShort => 7,
            Refusal::PieceTooOften => 8,
            Refusal::NotFinite => 9,
            Refusal::NoSuchChain => 10,
            Refusal::BadRecord => 23,
            Refusal::NotAcceptable => 24,
            Refusal::BadByteOrder => 11,
            Refusal::BadType => 12,
            Refusal::MixedTypes => 25,
            Refusal::BadLength => 13,
            Refusal::RecordRoomTooShort => 14,
            Refusal::UnknownOrder => 16,
            Refusal::NoTwoEnds => 26,
            Refusal::Unknown(unknown) => unknown,
        }
    }

    /// What is wrong with the call, as a sentence without its number.
    pub fn sentence(self) -> &'static str {
        match self {
            Refusal::TooMany => "there are more than 4,096 lines or more than 8,192 ends",
            Refusal::TablesDiffer => "the tables of the lines or ends differ in length",
            Refusal::MarkAboveOne => "a kind or a presence mark is neither 0 nor 1",
            Refusal::CountsDoNotAddUp => "the counts do not add up to the coordinates",
            Refusal::TooManyCoordinates => "there are more than 65,536 coordinates",
            Refusal::DistrictOverLines => "a district has more than 2,048 lines",
            Refusal::DistrictOverCoordinates => "a district has more than 32,768 coordinates",
            Refusal::NoPlace => "an x or a y is not finite, so that it is no place",
            Refusal::BadLimit => "the limit is not a number from -1 to 1",
            Refusal::BadOffset => "the offset is above 1,000 millimetres per metre run",
            Refusal::BadOrigin => "the origin is not finite, so that it is no place",
            Refusal::BadPieces => "the pieces are not those of these lines",
            Refusal::BadWindow => "the window has a NaN, or a least above its greatest",
            Refusal::RoomTooShort => "a room is too short",
            Refusal::PieceTooOften => "a piece number occurs more than twice",
            Refusal::NotFinite => {
                "a direction is not finite, which the indexed route does not take"
            }
            Refusal::NoSuchChain => "there is no such chain",
            Refusal::BadRecord => {
                "a record names no chain, reaches outside the listing or lists what is no line"
            }
            Refusal::NotAcceptable => "the chains are not acceptable as chains of these lines",
            Refusal::BadByteOrder => "a record's byte order is neither 0 nor 1",
            Refusal::BadType => "a record's type is none of 2, 1002, 2002 and 3002",
            Refusal::MixedTypes => "a record's type differs from the first record's",
            Refusal::BadLength => {
                "the lengths do not add up to the run, or a record's count and length disagree"
            }
            Refusal::RecordRoomTooShort => "a room is too short for the records",
            Refusal::UnknownOrder => "the byte order to be written is neither 0 nor 1",
            Refusal::NoTwoEnds => "the numbers are not those of two ends",
            Refusal::Unknown(_) => "the library refused the call for a reason unknown here",
        }
    }
}

impl fmt::Display for Refusal {
    fn fmt(&self, f: &mut fmt::Formatter<'_>) -> fmt::Result {
        write!(f, "{} (refusal {})", self.sentence(), self.number())
    }
}

impl Error for Refusal {}

#[cfg(test)]
mod tests {
    use super::Refusal;

    #[test]
    fn numbers_go_there_and_back() {
        for number in 1..=30 {
            let refusal = Refusal::of_number(number);
            assert_eq!(refusal.number(), number);
            let known = number <= 19 || [20, 21, 22, 23, 24, 25, 26].contains(&number);
            assert_eq!(!known, matches!(refusal, Refusal::Unknown(_)));
        }
    }
}
