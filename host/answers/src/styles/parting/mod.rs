//! Pieces to be finished: as round one leaves them, lent otherwise, and with what 19 forbids.

mod breaking;
mod lending;

use crate::call::BuildCall;
use crate::model::parting::left;
use crate::pieces::{FinishCall, Pieces, PIECE};
use crate::random::Random;
pub use breaking::{broken, BREAKS};
pub use lending::WAYS;

/// A piece in the making: its lines, their marks, its listing, its source and the numbers of its coordinates.
#[derive(Clone, Debug, Default, PartialEq, Eq)]
pub struct Made {
    /// Positions of lines.
    pub members: Vec<u32>,
    /// A mark for each.
    pub marks: Vec<u8>,
    /// Positions of lines.
    pub listing: Vec<u32>,
    /// The first coordinate in the lines' own, where it is one line.
    pub own: Option<u32>,
    /// All numbers of its coordinates.
    pub numbers: Vec<u64>,
}

/// A named way to change pieces before they are laid out. It tells whether it found any to change.
pub type Way =
    (&'static str, fn(random: &mut Random, lines: &BuildCall, pieces: &mut Vec<Made>) -> bool);

/// The pieces of round one of a call's lines.
pub fn made(lines: &BuildCall) -> Vec<Made> {
    let Pieces { records, members, marks, listing, merged, .. } = left(lines);
    let stride = lines.stride();
    let piece = |record: &[u32]| {
        let (places, first) =
            (record[0] as usize..(record[0] + record[1]) as usize, record[3] as usize);
        let from = if record[2] == 0 { &lines.coordinates } else { &merged };
        Made {
            members: members[places.clone()].to_vec(),
            marks: marks[places.clone()].to_vec(),
            listing: listing[places].to_vec(),
            own: (record[2] == 0).then_some(record[3]),
            numbers: from[stride * first..stride * (first + record[4] as usize)].to_vec(),
        }
    };
    records.chunks_exact(PIECE).map(piece).collect()
}

/// The call that lends pieces, close together or with something between them.
pub fn laid_out(random: &mut Random, lines: BuildCall, pieces: &[Made], loose: bool) -> FinishCall {
    let stride = lines.stride();
    let mut lent = Pieces { k: pieces.len() as u64, ..Pieces::default() };
    for piece in pieces {
        if loose && random.one_in(2) {
            between(random, &mut lent, stride);
        }
        let member = lent.members.len() as u32;
        lent.members.extend(&piece.members);
        lent.marks.extend(&piece.marks);
        lent.listing.extend(&piece.listing);
        let points = (piece.numbers.len() / stride) as u32;
        let (source, first) = match piece.own {
            Some(first) => (0, first),
            None => {
                let first = (lent.merged.len() / stride) as u32;
                lent.merged.extend(&piece.numbers);
                (1, first)
            }
        };
        lent.records.extend([member, piece.members.len() as u32, source, first, points]);
    }
    if loose {
        between(random, &mut lent, stride);
        lent.records.extend((0..random.below(7)).map(|_| random.bits() as u32));
    }
    FinishCall { lines, pieces: lent }
}

/// Puts something between pieces that no record names.
fn between(random: &mut Random, lent: &mut Pieces, stride: usize) {
    for _ in 0..random.below(3) {
        lent.members.push(random.pick(&[0, u32::MAX]));
        lent.marks.push(random.pick(&[0, 1, 2, u8::MAX]));
        lent.listing.push(random.pick(&[0, u32::MAX]));
    }
    let numbers = stride * random.below(3);
    lent.merged.extend((0..numbers).map(|_| random.pick(&[0, u64::MAX])));
}

/// Pieces of a call's lines, to be finished under its settings or others: as round one left them, lent
/// otherwise, or with something that 19 forbids. With them goes the name of the last thing done.
pub fn lent(random: &mut Random, mut lines: BuildCall) -> (&'static str, FinishCall) {
    if lines.refusal().is_some() {
        return ("refused lines", FinishCall { lines, pieces: Pieces::default() });
    }
    let mut pieces = made(&lines);
    let mut named = "as left";
    for _ in 0..random.pick(&[0, 1, 2, 2, 3]) {
        let (name, way) = random.pick(&WAYS);
        if way(random, &lines, &mut pieces) {
            named = name;
        }
    }
    if random.one_in(3) {
        lines.tolerance = random.pick(&[0f64, 0.25, 1.0, 3.0, f64::NAN, -1.0]).to_bits();
    }
    let loose = random.one_in(2);
    let mut call = laid_out(random, lines, &pieces, loose);
    for _ in 0..random.pick(&[0, 0, 0, 1, 1, 2]) {
        let (name, broken) = random.pick(&BREAKS);
        if broken(random, &mut call) {
            named = name;
        }
    }
    (named, call)
}
