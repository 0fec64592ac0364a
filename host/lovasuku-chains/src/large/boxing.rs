//! The boxes of chains, and above them those of pairs; and which chains are loops.

use crate::size::BOX;

/// Least x, least y, greatest x, greatest y.
pub type Extent = [f64; BOX];

/// The box of no coordinates.
const EMPTY: Extent = [f64::INFINITY, f64::INFINITY, f64::NEG_INFINITY, f64::NEG_INFINITY];

/// The box around two. Of equal numbers those of the first stay.
fn around(one: Extent, other: Extent) -> Extent {
    let least = |k: usize| if other[k] < one[k] { other[k] } else { one[k] };
    let greatest = |k: usize| if one[k] < other[k] { other[k] } else { one[k] };
    [least(0), least(1), greatest(2), greatest(3)]
}

/// The box of coordinates.
pub fn of(numbers: &[f64], stride: usize) -> Extent {
    numbers.chunks_exact(stride).fold(EMPTY, |sum, p| around(sum, [p[0], p[1], p[0], p[1]]))
}

/// True where there are at least three coordinates, of which the first and the last agree in x and y,
/// bit for bit.
pub fn is_loop(numbers: &[f64], stride: usize) -> bool {
    let bits = |at: usize| [numbers[at], numbers[at + 1]].map(f64::to_bits);
    numbers.len() >= 3 * stride && bits(0) == bits(numbers.len() - stride)
}

/// Writes the boxes of pairs behind those of so many chains, level by level, an odd last one alone, up to
/// one for all, as far as there is room.
pub fn put_levels(boxes: &mut [f64], chains: usize) {
    let (mut first, mut count) = (0, chains);
    while count > 1 {
        let next = first + count;
        for k in 0..(count + 1) / 2 {
            let one = read(boxes, first + 2 * k);
            let both = match 2 * k + 1 < count {
                true => one.and_then(|one| Some(around(one, read(boxes, first + 2 * k + 1)?))),
                false => one,
            };
            let room = boxes.get_mut(BOX * (next + k)..BOX * (next + k + 1));
            if let (Some(room), Some(both)) = (room, both) {
                room.copy_from_slice(&both);
            }
        }
        first = next;
        count = (count + 1) / 2;
    }
}

/// A box at a place, if it is wholly there.
fn read(boxes: &[f64], place: usize) -> Option<Extent> {
    match *boxes.get(BOX * place..BOX * (place + 1))? {
        [a, b, c, d] => Some([a, b, c, d]),
        _ => None,
    }
}
