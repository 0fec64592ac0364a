//! How much a call takes, and the room that it asks for.

/// The most lines of a building call.
pub const MOST_LINES: usize = 4_096;

/// The most coordinates of a building call.
pub const MOST_POINTS: usize = 65_536;

/// The first group of the second district. Two districts may share a building call: lines of groups below
/// this are the first's and all others the second's.
pub const BORDER: u32 = 1 << 31;

/// The most lines that a district may bring to a building call.
pub const MOST_DISTRICT_LINES: usize = 2_048;

/// The most coordinates that a district may bring to a building call.
pub const MOST_DISTRICT_POINTS: usize = 32_768;

/// The most ends of a pairing call.
pub const MOST_ENDS: usize = 8_192;

/// The greatest offset, in millimetres per metre run.
pub const MOST_OFFSET: u32 = 1_000;

/// The numbers of a chain's record: first member, member count, source, first coordinate,
/// coordinate count, and 1 where it is a loop.
pub const RECORD: usize = 6;

/// The numbers of a piece's record: first member, member count, source, first coordinate and coordinate
/// count.
pub const PIECE: usize = 5;

/// The numbers of a box: least x, least y, greatest x, greatest y.
pub const BOX: usize = 4;

/// The numbers of boxes for each chain, and beside these: room for its own box and for all above it.
pub const BOXES: usize = 8;
/// The numbers of boxes beside those for each chain.
pub const BOXES_BESIDE: usize = 64;

/// The numbers of a point: x and y. A [`Dimension`](crate::Dimension) has the extras.
pub const POINT: usize = 2;

/// The words of workspace for each line.
pub const LINE_WORKSPACE: usize = 192;

/// The words of workspace for each end.
pub const END_WORKSPACE: usize = 64;

/// The bytes of a WKB record before its coordinates: byte order, type and count.
pub const WKB_HEADER: usize = 9;

/// The bytes of a number in a WKB record.
pub const WKB_NUMBER: usize = 8;
