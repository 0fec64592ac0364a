//! Pieces lent otherwise than round one left them, all of which 19 lets pass.

use super::{Made, Way};
use crate::call::BuildCall;
use crate::random::Random;

/// All ways.
pub const WAYS: [Way; 10] = [
    ("another order", another_order),
    ("members in another order", other_members),
    ("a listing in another order", other_listing),
    ("other marks", other_marks),
    ("turned coordinates", turned),
    ("one coordinate", one_coordinate),
    ("repeats", repeats),
    ("other places", other_places),
    ("pieces joined", joined),
    ("pieces parted", parted),
];

/// Some piece of several lines.
fn several<'a>(random: &mut Random, pieces: &'a mut [Made]) -> Option<&'a mut Made> {
    let all: Vec<usize> = (0..pieces.len()).filter(|&k| pieces[k].members.len() > 1).collect();
    (!all.is_empty()).then(|| &mut pieces[random.pick(&all)])
}

fn another_order(random: &mut Random, _: &BuildCall, pieces: &mut Vec<Made>) -> bool {
    random.shuffle(pieces);
    pieces.len() > 1
}

fn other_members(random: &mut Random, _: &BuildCall, pieces: &mut Vec<Made>) -> bool {
    several(random, pieces).map_or(false, |piece| {
        let mut both: Vec<(u32, u8)> =
            piece.members.iter().copied().zip(piece.marks.iter().copied()).collect();
        random.shuffle(&mut both);
        (piece.members, piece.marks) = both.into_iter().unzip();
        true
    })
}

fn other_listing(random: &mut Random, _: &BuildCall, pieces: &mut Vec<Made>) -> bool {
    several(random, pieces).map_or(false, |piece| {
        random.shuffle(&mut piece.listing);
        true
    })
}

/// Marks that are no round's, of pieces of one line too.
fn other_marks(random: &mut Random, _: &BuildCall, pieces: &mut Vec<Made>) -> bool {
    for piece in pieces.iter_mut() {
        piece.marks.iter_mut().for_each(|mark| *mark = u8::from(random.one_in(2)));
    }
    !pieces.is_empty()
}

fn turned(random: &mut Random, lines: &BuildCall, pieces: &mut Vec<Made>) -> bool {
    several(random, pieces).map_or(false, |piece| {
        piece.numbers = piece.numbers.chunks(lines.stride()).rev().flatten().copied().collect();
        true
    })
}

fn one_coordinate(random: &mut Random, lines: &BuildCall, pieces: &mut Vec<Made>) -> bool {
    several(random, pieces).map_or(false, |piece| {
        piece.numbers.truncate(lines.stride());
        true
    })
}

/// A coordinate twice, within what all lines have.
fn repeats(random: &mut Random, lines: &BuildCall, pieces: &mut Vec<Made>) -> bool {
    let stride = lines.stride();
    let all: usize = pieces.iter().map(|piece| piece.numbers.len()).sum();
    if all + stride > lines.coordinates.len() {
        return false;
    }
    several(random, pieces).map_or(false, |piece| {
        let at = stride * random.below(piece.numbers.len() / stride);
        let point = piece.numbers[at..at + stride].to_vec();
        piece.numbers.splice(at..at, point);
        true
    })
}

/// Coordinates that are no line's.
fn other_places(random: &mut Random, lines: &BuildCall, pieces: &mut Vec<Made>) -> bool {
    let stride = lines.stride();
    several(random, pieces).map_or(false, |piece| {
        let at = random.below(piece.numbers.len());
        let place = random.pick(&[0f64, -0.0, 0.5, 1e300, -7.25]).to_bits();
        piece.numbers[at] = if at % stride < 2 { place } else { u64::MAX };
        true
    })
}

/// Two pieces of one group as one, the coordinates of both, whether they meet or not.
fn joined(random: &mut Random, lines: &BuildCall, pieces: &mut Vec<Made>) -> bool {
    let group = |piece: &Made| lines.groups[piece.members[0] as usize];
    if pieces.len() < 2 {
        return false;
    }
    let one = random.below(pieces.len());
    let same = |&k: &usize| k != one && group(&pieces[k]) == group(&pieces[one]);
    let others: Vec<usize> = (0..pieces.len()).filter(same).collect();
    if others.is_empty() {
        return false;
    }
    let behind = pieces[random.pick(&others)].clone();
    let piece = &mut pieces[one];
    piece.members.extend(&behind.members);
    piece.marks.extend(&behind.marks);
    piece.listing.extend(&behind.listing);
    piece.numbers.extend(&behind.numbers);
    piece.own = None;
    pieces.retain(|each| *each != behind);
    true
}

/// A piece of several lines as lines by themselves.
fn parted(random: &mut Random, lines: &BuildCall, pieces: &mut Vec<Made>) -> bool {
    let all: Vec<usize> = (0..pieces.len()).filter(|&k| pieces[k].members.len() > 1).collect();
    if all.is_empty() {
        return false;
    }
    let piece = pieces.swap_remove(random.pick(&all));
    let firsts = lines.firsts();
    for &line in &piece.members {
        let first = firsts[line as usize];
        pieces.push(Made {
            members: vec![line],
            marks: vec![random.below(2) as u8],
            listing: vec![line],
            own: Some(first as u32),
            numbers: lines.numbers(line as usize, first).to_vec(),
        });
    }
    true
}
