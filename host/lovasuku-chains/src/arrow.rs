//! Lines from a run of WKB records with offsets, as Arrow lays out binary arrays.

use crate::{Refusal, WkbLines, WkbRooms};

/// A place in a run as Arrow counts it: `i32` in binary arrays, `i64` in large ones.
pub trait RunOffset: Copy + sealed::Sealed {
    /// The place as a number of bytes, if it is one.
    fn place(self) -> Option<usize>;
}

mod sealed {
    pub trait Sealed {}
    impl Sealed for i32 {}
    impl Sealed for i64 {}
}

impl RunOffset for i32 {
    fn place(self) -> Option<usize> {
        usize::try_from(self).ok()
    }
}

impl RunOffset for i64 {
    fn place(self) -> Option<usize> {
        usize::try_from(self).ok()
    }
}

/// Reads lines from a run of WKB records that offsets cut: record k lies from offset k to offset
/// k + 1, as in an array of Arrow's, and the run may go on before the first and behind the last.
///
/// The run is read where it lies. Everything else is as with [`read_wkb`](crate::read_wkb), whose table of lengths is
/// made of the offsets in the rooms.
///
/// ```
/// use lovasuku_chains::{read_wkb_offsets, Rooms, Settings, WkbRooms};
///
/// # fn main() -> Result<(), lovasuku_chains::Refusal> {
/// // A batch of a layer as GDAL's `OGR_L_GetArrowStream` hands it over: the geometry's buffer of
/// // bytes and its buffer of offsets, one more than there are lines.
/// let mut data = Vec::new();
/// let mut offsets: Vec<i32> = vec![0];
/// for [from, to] in [[0.0f64, 1.0], [1.0, 2.0]] {
///     data.extend([1, 2, 0, 0, 0, 2, 0, 0, 0]);
///     [from, 0.0, to, 0.0].iter().for_each(|x| data.extend(x.to_le_bytes()));
///     offsets.push(data.len() as i32);
/// }
///
/// let mut store = WkbRooms::default();
/// let roads = read_wkb_offsets(&data, &offsets, &mut store)?;
/// let mut rooms = Rooms::default();
/// let chains = rooms.build(roads.plain(), Settings::default())?;
/// assert_eq!(chains.merged(), [0.0, 0.0, 1.0, 0.0, 2.0, 0.0]);
///
/// // A part of the batch has a part of the offsets, and the same bytes.
/// let second = read_wkb_offsets(&data, &offsets[1..], &mut store)?;
/// assert_eq!(second.coordinates(), [1.0, 0.0, 2.0, 0.0]);
/// # Ok(())
/// # }
/// ```
///
/// # Errors
///
/// Those of [`read_wkb`](crate::read_wkb). Offsets that are negative, that descend or that lie beyond the run are
/// [`Refusal::BadLength`].
pub fn read_wkb_offsets<'a, T: RunOffset>(
    run: &[u8],
    offsets: &[T],
    rooms: &'a mut WkbRooms,
) -> Result<WkbLines<'a>, Refusal> {
    let WkbRooms { lines, lengths } = rooms;
    lengths.clear();
    let part = part(run, offsets, lengths).ok_or(Refusal::BadLength)?;
    lines.read(part, lengths)
}

/// The part of the run that the offsets lie in, and the lengths of its records.
fn part<'r, T: RunOffset>(
    run: &'r [u8],
    offsets: &[T],
    lengths: &mut Vec<u64>,
) -> Option<&'r [u8]> {
    let mut places = offsets.iter().map(|offset| offset.place());
    let first = match places.next() {
        None => return Some(&[]),
        Some(first) => first?,
    };
    let mut last = first;
    for place in places {
        let place = place?;
        lengths.push(place.checked_sub(last)? as u64);
        last = place;
    }
    run.get(first..last)
}
