//! What 19 forbids, clause by clause, done to pieces as they are lent.

use crate::model::parting::Forbidden;
use crate::pieces::{FinishCall, PIECE};
use crate::random::Random;

/// A named break. It tells whether it found something to break.
pub type Break = (&'static str, fn(random: &mut Random, call: &mut FinishCall) -> bool);

/// All breaks. Each breaks the clause that [`broken`] names, and others where these hang together; the last two
/// break none.
pub const BREAKS: [Break; 25] = [
    ("one piece more", one_piece_more),
    ("as many pieces as there can be", endless),
    ("a piece less", a_piece_less),
    ("a record short by one", short_record),
    ("a line twice among the members", twice),
    ("a line twice in the listing", listed_twice),
    ("a line that is none", no_line_of_these),
    ("a line that passes through", passing),
    ("lines of two pieces exchanged in the listing", exchanged),
    ("no line", no_line),
    ("no coordinate", no_coordinate),
    ("a line of another group", another_group),
    ("members that are not lent", members_not_lent),
    ("marks that are not lent", marks_not_lent),
    ("a listing that is not lent", listing_not_lent),
    ("coordinates that are not lent", coordinates_not_lent),
    ("a first number that is the greatest", greatest),
    ("a coordinate that is no place", no_place),
    ("a lone line's equal in source 1", copied),
    ("a lone line elsewhere", elsewhere),
    ("several lines in source 0", merged_in_source_0),
    ("a mark above one", mark_above_one),
    ("one coordinate too many", one_too_many),
    ("as many coordinates as there can be", as_many_as_can_be),
    ("shared coordinates", shared),
];

/// The clause that a break of this name is meant for.
pub fn broken(name: &str) -> Option<Forbidden> {
    let clause = match name {
        "one piece more" | "as many pieces as there can be" | "a record short by one" => {
            Forbidden::Records
        }
        "a piece less"
        | "a line twice among the members"
        | "a line that is none"
        | "a line that passes through" => Forbidden::Members,
        "a line twice in the listing" => Forbidden::Listing,
        "lines of two pieces exchanged in the listing" => Forbidden::OtherLines,
        "no line" => Forbidden::NoLine,
        "no coordinate" => Forbidden::NoCoordinate,
        "a line of another group" => Forbidden::Groups,
        "members that are not lent" | "marks that are not lent" | "a listing that is not lent" => {
            Forbidden::LeavesMembers
        }
        "coordinates that are not lent" => Forbidden::LeavesCoordinates,
        "a coordinate that is no place" => Forbidden::NotFinite,
        "a lone line's equal in source 1" | "a lone line elsewhere" => Forbidden::NotOwn,
        "several lines in source 0" => Forbidden::NotMerged,
        "a mark above one" => Forbidden::Mark,
        "one coordinate too many" => Forbidden::TooMany,
        _ => return None,
    };
    Some(clause)
}

/// Some piece for which the question is answered with yes, by its place.
fn some(
    random: &mut Random,
    call: &FinishCall,
    question: impl Fn(&[u32]) -> bool,
) -> Option<usize> {
    let records = call.pieces.records.chunks_exact(PIECE).take(call.pieces.k as usize);
    let all: Vec<usize> =
        records.enumerate().filter(|(_, it)| question(it)).map(|(k, _)| k).collect();
    (!all.is_empty()).then(|| random.pick(&all))
}

/// The record of a piece.
fn record(call: &mut FinishCall, piece: usize) -> &mut [u32] {
    &mut call.pieces.records[PIECE * piece..PIECE * (piece + 1)]
}

fn one_piece_more(_: &mut Random, call: &mut FinishCall) -> bool {
    call.pieces.records.truncate(PIECE * call.pieces.k as usize);
    call.pieces.k += 1;
    true
}

fn endless(random: &mut Random, call: &mut FinishCall) -> bool {
    call.pieces.k = random.pick(&[u64::MAX, 1 << 63, u64::MAX / 5 + 1]);
    true
}

fn a_piece_less(_: &mut Random, call: &mut FinishCall) -> bool {
    call.pieces.k = call.pieces.k.saturating_sub(1);
    true
}

fn short_record(_: &mut Random, call: &mut FinishCall) -> bool {
    let whole = PIECE.saturating_mul(call.pieces.k as usize);
    call.pieces.records.truncate(whole.saturating_sub(1));
    whole > 0
}

/// The places of two members of the call.
fn two(random: &mut Random, call: &FinishCall) -> Option<(usize, usize)> {
    let n = call.pieces.members.len().min(call.pieces.listing.len());
    (n > 1).then(|| (random.below(n), random.below(n)))
}

fn twice(random: &mut Random, call: &mut FinishCall) -> bool {
    two(random, call).map_or(false, |(one, other)| {
        call.pieces.members[one] = call.pieces.members[other];
        one != other
    })
}

fn listed_twice(random: &mut Random, call: &mut FinishCall) -> bool {
    two(random, call).map_or(false, |(one, other)| {
        call.pieces.listing[one] = call.pieces.listing[other];
        one != other
    })
}

fn no_line_of_these(random: &mut Random, call: &mut FinishCall) -> bool {
    let n = call.lines.lines() as u32;
    let line = random.pick(&[n, n + 1, u32::MAX]);
    let both = random.one_in(2);
    two(random, call).map_or(false, |(place, _)| {
        call.pieces.members[place] = line;
        if both {
            call.pieces.listing[place] = line;
        }
        true
    })
}

/// A line that passes through named beside the others, as a piece by itself.
fn passing(random: &mut Random, call: &mut FinishCall) -> bool {
    let all: Vec<usize> = (0..call.lines.lines()).filter(|&y| call.lines.passes(y)).collect();
    if all.is_empty() || call.pieces.records.len() != PIECE * call.pieces.k as usize {
        return false;
    }
    let line = random.pick(&all);
    let (first, count) = (call.lines.firsts()[line] as u32, call.lines.counts[line]);
    let most =
        call.pieces.members.len().max(call.pieces.listing.len()).max(call.pieces.marks.len());
    call.pieces.members.resize(most, 0);
    call.pieces.listing.resize(most, 0);
    call.pieces.marks.resize(most, 0);
    call.pieces.members.push(line as u32);
    call.pieces.listing.push(line as u32);
    call.pieces.marks.push(0);
    call.pieces.records.extend([most as u32, 1, 0, first, count]);
    call.pieces.k += 1;
    true
}

fn exchanged(random: &mut Random, call: &mut FinishCall) -> bool {
    two(random, call).map_or(false, |(one, other)| {
        call.pieces.listing.swap(one, other);
        one != other
    })
}

fn no_line(random: &mut Random, call: &mut FinishCall) -> bool {
    let any = some(random, call, |_| true);
    any.map_or(false, |piece| {
        record(call, piece)[1] = 0;
        true
    })
}

fn no_coordinate(random: &mut Random, call: &mut FinishCall) -> bool {
    let any = some(random, call, |_| true);
    any.map_or(false, |piece| {
        record(call, piece)[4] = 0;
        true
    })
}

fn another_group(random: &mut Random, call: &mut FinishCall) -> bool {
    some(random, call, |record| record[1] > 1).map_or(false, |piece| {
        let place = record(call, piece)[0] as usize;
        let line = call.pieces.members.get(place).copied().unwrap_or(u32::MAX) as usize;
        call.lines.groups.iter_mut().skip(line).take(1).for_each(|group| *group ^= 1);
        true
    })
}

fn members_not_lent(_: &mut Random, call: &mut FinishCall) -> bool {
    call.pieces.members.pop().is_some()
}

fn marks_not_lent(_: &mut Random, call: &mut FinishCall) -> bool {
    call.pieces.marks.pop().is_some()
}

fn listing_not_lent(_: &mut Random, call: &mut FinishCall) -> bool {
    call.pieces.listing.pop().is_some()
}

fn coordinates_not_lent(_: &mut Random, call: &mut FinishCall) -> bool {
    call.pieces.merged.pop().is_some()
}

fn greatest(random: &mut Random, call: &mut FinishCall) -> bool {
    let any = some(random, call, |_| true);
    let number = random.pick(&[u32::MAX, u32::MAX - 1, 1 << 31]);
    let place = random.below(PIECE);
    any.map_or(false, |piece| {
        record(call, piece)[place] = number;
        true
    })
}

fn no_place(random: &mut Random, call: &mut FinishCall) -> bool {
    let merged = some(random, call, |record| record[2] == 1 && record[4] > 0);
    let stride = call.lines.stride();
    let lost = random.pick(&[f64::NAN, f64::INFINITY, f64::NEG_INFINITY]).to_bits();
    merged.map_or(false, |piece| {
        let (first, count) = (record(call, piece)[3] as usize, record(call, piece)[4] as usize);
        let at = stride * (first + random.below(count)) + random.below(2);
        call.pieces.merged.iter_mut().skip(at).take(1).for_each(|bits| *bits = lost);
        true
    })
}

/// A line by itself as the same bits in source 1.
fn copied(random: &mut Random, call: &mut FinishCall) -> bool {
    let stride = call.lines.stride();
    some(random, call, |record| record[1] == 1 && record[2] == 0).map_or(false, |piece| {
        let [first, count] = [3, 4].map(|k| record(call, piece)[k] as usize);
        let own = call.lines.coordinates.get(stride * first..stride * (first + count));
        let own = own.unwrap_or_default().to_vec();
        let to = (call.pieces.merged.len() / stride) as u32;
        call.pieces.merged.resize(stride * to as usize, 0);
        call.pieces.merged.extend(own);
        record(call, piece)[2] = 1;
        record(call, piece)[3] = to;
        true
    })
}

/// A line by itself at another place of the lines' coordinates, or shorter.
fn elsewhere(random: &mut Random, call: &mut FinishCall) -> bool {
    let shorter = random.one_in(2);
    some(random, call, |record| record[1] == 1 && record[4] > 1).map_or(false, |piece| {
        let record = record(call, piece);
        record[4] -= 1;
        record[3] += u32::from(!shorter);
        true
    })
}

fn merged_in_source_0(random: &mut Random, call: &mut FinishCall) -> bool {
    let stride = call.lines.stride();
    let points = call.lines.coordinates.len() / stride;
    some(random, call, |record| record[1] > 1).map_or(false, |piece| {
        let record = record(call, piece);
        record[2] = 0;
        record[3] = 0;
        record[4] = record[4].min(points as u32);
        true
    })
}

fn mark_above_one(random: &mut Random, call: &mut FinishCall) -> bool {
    let place = random.below(call.pieces.marks.len().max(1));
    let mark = random.pick(&[2, 3, 128, u8::MAX]);
    call.pieces.marks.iter_mut().skip(place).take(1).for_each(|it| *it = mark);
    !call.pieces.marks.is_empty()
}

/// Makes a piece of several lines so long that all have so many coordinates more than the lines, where they have
/// not too many already.
fn lengthened(random: &mut Random, call: &mut FinishCall, more: u64) -> bool {
    let stride = call.lines.stride();
    let c: u64 = call.lines.counts.iter().map(|&count| u64::from(count)).sum();
    let records = call.pieces.records.chunks_exact(PIECE).take(call.pieces.k as usize);
    let all: u64 = records.map(|record| u64::from(record[4])).sum();
    let several = some(random, call, |record| record[1] > 1 && record[4] > 0 && record[2] == 1);
    let (piece, missing) = match (several, (c + more).checked_sub(all)) {
        (Some(piece), Some(missing)) => (piece, missing as usize),
        _ => return false,
    };
    let [first, count] = [3, 4].map(|k| record(call, piece)[k] as usize);
    let own = call.pieces.merged.get(stride * first..stride * (first + count));
    let own = own.unwrap_or_default().to_vec();
    if own.is_empty() {
        return false;
    }
    let to = (call.pieces.merged.len() + stride - 1) / stride;
    call.pieces.merged.resize(stride * to, 0);
    call.pieces.merged.extend(&own);
    call.pieces.merged.extend(own[..stride].repeat(missing));
    record(call, piece)[3] = to as u32;
    record(call, piece)[4] += missing as u32;
    true
}

fn one_too_many(random: &mut Random, call: &mut FinishCall) -> bool {
    lengthened(random, call, 1)
}

fn as_many_as_can_be(random: &mut Random, call: &mut FinishCall) -> bool {
    lengthened(random, call, 0)
}

/// Two pieces of several lines with one run of coordinates.
fn shared(random: &mut Random, call: &mut FinishCall) -> bool {
    let several = |record: &[u32]| record[1] > 1 && record[2] == 1;
    let one = some(random, call, several);
    let other = some(random, call, several);
    one.zip(other).map_or(false, |(one, other)| {
        let [first, count] = [3, 4].map(|k| record(call, one)[k]);
        // No longer than it was, so that all have no more than the lines.
        let count = count.min(record(call, other)[4]);
        record(call, other)[3] = first;
        record(call, other)[4] = count;
        one != other
    })
}
