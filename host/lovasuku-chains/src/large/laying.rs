//! Laying pieces end to end without a call: for chains that are more than one holds, and wherever what a call
//! laid is not kept. A coordinate whose x and y equal those before it is left out.

use super::pieces::Pieces;
use super::touching::{touch_runs, TOGETHER};

/// Lays the pieces of a chain, which are entered at the given ends, one after another into a room, and
/// gives how many numbers were written.
pub fn lay(pieces: &impl Pieces, steps: &[u32], room: &mut [f64]) -> usize {
    let mut written = 0;
    each_touched(pieces, steps, |numbers| {
        if !repeats(&room[..written], numbers) {
            room[written..written + numbers.len()].copy_from_slice(numbers);
            written += numbers.len();
        }
    });
    written
}

/// True where the pieces of a chain, laid so, are the given numbers bit for bit.
pub fn is_laid(pieces: &impl Pieces, steps: &[u32], laid: &[f64]) -> bool {
    let (mut seen, mut same) = (0, true);
    each_touched(pieces, steps, |numbers| {
        if same && !repeats(&laid[..seen], numbers) {
            let next = laid.get(seen..seen + numbers.len());
            let bits =
                |next: &[f64]| next.iter().zip(numbers).all(|(a, b)| a.to_bits() == b.to_bits());
            same = next.map_or(false, bits);
            seen += numbers.len();
        }
    });
    same && seen == laid.len()
}

/// Lays pieces behind the numbers of a chain.
pub fn lay_behind(pieces: &impl Pieces, steps: impl Iterator<Item = u32>, into: &mut Vec<f64>) {
    each(pieces, steps, |numbers| put(numbers, into));
}

/// Lays a run behind the numbers of a chain, from its last coordinate to its first.
pub fn turn_behind(run: &[f64], stride: usize, into: &mut Vec<f64>) {
    run.rchunks_exact(stride).for_each(|numbers| put(numbers, into));
}

#[inline]
fn put(numbers: &[f64], into: &mut Vec<f64>) {
    if !repeats(into, numbers) {
        into.extend_from_slice(numbers);
    }
}

/// True where a coordinate repeats x and y of the last.
#[inline]
fn repeats(laid: &[f64], numbers: &[f64]) -> bool {
    let last = laid.len().checked_sub(numbers.len()).map(|at| [laid[at], laid[at + 1]]);
    last == Some([numbers[0], numbers[1]])
}

/// As `each`, with the memory of many pieces asked for at once.
#[inline]
fn each_touched(pieces: &impl Pieces, steps: &[u32], mut put: impl FnMut(&[f64])) {
    for steps in steps.chunks(TOGETHER) {
        touch_runs(steps.iter().map(|step| pieces.numbers(step >> 1)));
        each(pieces, steps.iter().copied(), &mut put);
    }
}

/// Tells of the coordinates of pieces that are entered at the given ends, one after another.
#[inline]
fn each(pieces: &impl Pieces, steps: impl Iterator<Item = u32>, put: impl FnMut(&[f64])) {
    match pieces.stride() {
        2 => each_of::<2>(pieces, steps, put),
        3 => each_of::<3>(pieces, steps, put),
        _ => each_of::<4>(pieces, steps, put),
    }
}

/// The same for coordinates of so many numbers.
#[inline]
fn each_of<const STRIDE: usize>(
    pieces: &impl Pieces,
    steps: impl Iterator<Item = u32>,
    mut put: impl FnMut(&[f64]),
) {
    for step in steps {
        let run = pieces.numbers(step >> 1);
        match step & 1 {
            0 => run.chunks_exact(STRIDE).for_each(|numbers| put(&numbers[..STRIDE])),
            _ => run.rchunks_exact(STRIDE).for_each(|numbers| put(&numbers[..STRIDE])),
        }
    }
}

#[cfg(test)]
mod tests {
    use super::{is_laid, lay, lay_behind, turn_behind};
    use crate::large::pieces::LinePieces;
    use crate::{Dimension, LinesBuf};

    fn bits(numbers: &[f64]) -> Vec<u64> {
        numbers.iter().map(|x| x.to_bits()).collect()
    }

    #[test]
    fn lines_are_laid_end_to_end() {
        let mut lines = LinesBuf::of(Dimension::Xyz);
        lines.push([[0.0, 0.0, 1.0], [1.0, 0.0, 2.0], [1.0, 0.0, 3.0]], 0);
        lines.push([[2.0, 0.0, 4.0], [1.0, -0.0, 5.0]], 0);
        let pieces = LinePieces { lines: lines.lines(), firsts: &[0, 3, 5] };
        let mut room = [9.0; 15];
        // Of coordinates that repeat one another's x and y the earlier one stays, with its extras.
        assert_eq!(lay(&pieces, &[0, 3], &mut room), 9);
        assert_eq!(room[..10], [0.0, 0.0, 1.0, 1.0, 0.0, 2.0, 2.0, 0.0, 4.0, 9.0]);
        assert_eq!(lay(&pieces, &[2, 1], &mut room), 9);
        let wanted = [2.0, 0.0, 4.0, 1.0, -0.0, 5.0, 0.0, 0.0, 1.0];
        assert_eq!(bits(&room[..9]), bits(&wanted));
    }

    #[test]
    fn what_was_laid_is_known_again_by_every_bit() {
        let mut lines = LinesBuf::of(Dimension::Xyz);
        lines.push([[0.0, 0.0, f64::NAN], [1.0, 0.0, 2.0]], 0);
        lines.push([[1.0, -0.0, 4.0], [2.0, 0.0, 5.0]], 0);
        let pieces = LinePieces { lines: lines.lines(), firsts: &[0, 2, 4] };
        let laid = [0.0, 0.0, f64::NAN, 1.0, 0.0, 2.0, 2.0, 0.0, 5.0];
        assert!(is_laid(&pieces, &[0, 2], &laid));
        assert!(!is_laid(&pieces, &[0, 3], &laid) && !is_laid(&pieces, &[0], &laid));
        assert!(!is_laid(&pieces, &[0, 2], &laid[..6]));
        for k in 0..laid.len() {
            let mut other = laid;
            other[k] = if k == 4 { -0.0 } else { other[k] + 0.5 };
            assert!(k == 2 || !is_laid(&pieces, &[0, 2], &other), "{k}");
        }
    }

    #[test]
    fn a_piece_is_laid_and_then_turned() {
        let mut lines = LinesBuf::default();
        lines.push([[0.0, 1.0], [0.0, 2.0]], 0);
        lines.push([[-0.0, 2.0], [5.0, 2.0]], 0);
        let pieces = LinePieces { lines: lines.lines(), firsts: &[0, 2, 4] };
        let (mut piece, mut chain) = (Vec::new(), vec![7.0, 7.0, 5.0, 2.0]);
        lay_behind(&pieces, [0, 2].into_iter(), &mut piece);
        // The first coordinate repeats that of the chain so far. Zero stays as the piece has it.
        turn_behind(&piece, 2, &mut chain);
        assert_eq!(bits(&chain), bits(&[7.0, 7.0, 5.0, 2.0, 0.0, 2.0, 0.0, 1.0]));
    }
}
