//! Building in two calls: the pieces of round one, which pieces a second call takes, and what it makes of
//! them.

use super::plane::{cell_key, exact_key};
use super::{layout, lines, round, Coordinate, Piece};
use crate::call::{BuildCall, Built, Refusal, ROOM_TOO_SHORT};
use crate::pieces::{part, FinishCall, Pieces, BAD_PIECES, PIECE};

/// The refusal of a first call that the model knows: it has no origin.
pub fn first_refusal(call: &BuildCall) -> Option<Refusal> {
    BuildCall { origin: [0; 2], ..call.clone() }.refusal()
}

/// The pieces that round one leaves, laid out as chains are.
pub fn left(call: &BuildCall) -> Pieces {
    let (plain, _) = lines(call);
    let pieces = round(call, plain, &exact_key);
    let laid = layout::built(call, &pieces);
    Pieces {
        records: laid.table.iter().flat_map(|record| &record[..PIECE]).copied().collect(),
        members: laid.members,
        marks: laid.marks,
        listing: laid.listing,
        merged: laid.merged,
        k: pieces.len() as u64,
    }
}

/// What 19 forbids, clause by clause.
#[derive(Clone, Copy, Debug, PartialEq, Eq, PartialOrd, Ord)]
pub enum Forbidden {
    /// The records leave their slice.
    Records,
    /// A piece leaves the slices of its members, marks or listing.
    LeavesMembers,
    /// A piece leaves the slice of its coordinates.
    LeavesCoordinates,
    /// A piece has no line.
    NoLine,
    /// A piece has no coordinate.
    NoCoordinate,
    /// The members aren't the lines that don't pass through, each once.
    Members,
    /// The listing isn't.
    Listing,
    /// Members and listing name different lines in a piece.
    OtherLines,
    /// A piece mixes groups.
    Groups,
    /// A piece has a coordinate that isn't finite.
    NotFinite,
    /// A piece of one line isn't the line's own in source 0.
    NotOwn,
    /// A piece of more isn't in source 1.
    NotMerged,
    /// All have more coordinates than the lines together.
    TooMany,
    /// A mark is above 1.
    Mark,
}

/// The answer to a second call that is lent a room that is too short, or none that is.
pub fn finished(call: &FinishCall, short: bool) -> Result<Built, Refusal> {
    match call.lines.refusal() {
        Some(refusal) => Err(refusal),
        None if !forbidden(call).is_empty() => Err(BAD_PIECES),
        None if short => Err(ROOM_TOO_SHORT),
        None => Ok(chains(call)),
    }
}

/// The chains of pieces that 19 does not forbid: round two as they are lent, and what passes through.
fn chains(call: &FinishCall) -> Built {
    let FinishCall { lines: of, pieces: lent } = call;
    let tolerance = f64::from_bits(of.tolerance);
    let standing: Vec<Piece> = records(lent).map(|record| standing(call, record)).collect();
    let mut chains = match tolerance > 0.0 {
        true => {
            let key = |group, point| cell_key(group, point, of.origin, tolerance);
            round(of, standing, &key)
        }
        false => standing,
    };
    chains.extend(lines(of).1);
    layout::built(of, &chains)
}

fn records(pieces: &Pieces) -> impl Iterator<Item = &[u32]> {
    pieces.records.chunks_exact(PIECE).take(pieces.k as usize)
}

/// What a record stands for.
fn standing(call: &FinishCall, record: &[u32]) -> Piece {
    let positions = |of: &[u32]| -> Vec<usize> {
        let named = part(of, record).expect("a piece stays within its slices");
        named.iter().map(|&line| line as usize).collect()
    };
    let members = positions(&call.pieces.members);
    let coordinate = |numbers: &[u64]| {
        let extra = |k: usize| numbers.get(k).copied().unwrap_or(0);
        Coordinate { point: [numbers[0], numbers[1]], extras: [extra(2), extra(3)] }
    };
    let numbers = call.numbers(record).expect("a piece stays within its slices");
    Piece {
        group: call.lines.groups[members[0]],
        members,
        marks: part(&call.pieces.marks, record).expect("a piece stays within its slices").to_vec(),
        listing: positions(&call.pieces.listing),
        run: numbers.chunks(call.lines.stride()).map(coordinate).collect(),
    }
}

/// The clauses that do not hold. Where records leave their slice nothing else is told, and of a piece that
/// leaves a slice nothing that it names there.
pub fn forbidden(call: &FinishCall) -> Vec<Forbidden> {
    let lent = &call.pieces;
    let whole = (lent.records.len() / PIECE) as u64;
    if lent.k > whole {
        return vec![Forbidden::Records];
    }
    let mut found: Vec<Forbidden> =
        records(lent).flat_map(|record| of_piece(call, record)).collect();
    let plain: Vec<u32> =
        (0..call.lines.lines()).filter(|&y| !call.lines.passes(y)).map(|y| y as u32).collect();
    for (of, clause) in [(&lent.members, Forbidden::Members), (&lent.listing, Forbidden::Listing)] {
        let mut named: Vec<u32> =
            records(lent).filter_map(|record| part(of, record)).flatten().copied().collect();
        named.sort_unstable();
        found.extend((named != plain).then_some(clause));
    }
    let all: u64 = records(lent).map(|record| u64::from(record[4])).sum();
    let c: u64 = call.lines.counts.iter().map(|&count| u64::from(count)).sum();
    found.extend((all > c).then_some(Forbidden::TooMany));
    found.sort_unstable();
    found.dedup();
    found
}

/// The clauses about one piece that do not hold.
fn of_piece(call: &FinishCall, record: &[u32]) -> Vec<Forbidden> {
    let FinishCall { lines, pieces: lent } = call;
    let (members, listing) = (part(&lent.members, record), part(&lent.listing, record));
    let marks = part(&lent.marks, record);
    let mut found = Vec::new();
    let mut test = |wrong: bool, clause| found.extend(wrong.then_some(clause));
    test(record[1] == 0, Forbidden::NoLine);
    test(record[4] == 0, Forbidden::NoCoordinate);
    test(marks.map_or(false, |marks| marks.iter().any(|&mark| mark > 1)), Forbidden::Mark);
    match (members, listing, marks) {
        (Some(members), Some(listing), Some(_)) => {
            let sorted = |of: &[u32]| {
                let mut sorted = of.to_vec();
                sorted.sort_unstable();
                sorted
            };
            test(sorted(members) != sorted(listing), Forbidden::OtherLines);
            let group = |line: &u32| lines.groups.get(*line as usize);
            let other = |two: &[u32]| group(&two[0]) != group(&two[1]);
            test(members.windows(2).any(other), Forbidden::Groups);
        }
        _ => test(true, Forbidden::LeavesMembers),
    }
    match call.numbers(record) {
        Some(numbers) => {
            let place = |p: &[u64]| p.iter().take(2).all(|&bits| f64::from_bits(bits).is_finite());
            test(!numbers.chunks(lines.stride()).all(place), Forbidden::NotFinite);
        }
        None => test(true, Forbidden::LeavesCoordinates),
    }
    match record[1] {
        1 => {
            let line = members.map_or(usize::MAX, |members| members[0] as usize);
            let own = lines.firsts().get(line).map(|&first| [0, first as u32, lines.counts[line]]);
            test(own != Some([record[2], record[3], record[4]]), Forbidden::NotOwn);
        }
        _ => test(record[2] != 1, Forbidden::NotMerged),
    }
    found
}
