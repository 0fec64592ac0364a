//! Wrong answers that a port of building in two calls could plausibly give.

use answers::model::parting::{finished, first_refusal, forbidden, left, Forbidden};
use answers::{BuildCall, Built, FinishCall, Pieces, Refusal, BAD_PIECES};

fn number(Refusal(number): Refusal) -> i64 {
    i64::from(number)
}

/// The right pieces.
pub fn right_first(call: &BuildCall) -> Result<Pieces, i64> {
    first_refusal(call).map_or_else(|| Ok(left(call)), |refusal| Err(number(refusal)))
}

/// The right answer.
pub fn right(call: &FinishCall, short: bool) -> Result<Built, i64> {
    finished(call, short).map_err(number)
}

/// The answer where some clauses of 19 are let through. What they let through is not finished.
fn without(clauses: &[Forbidden], call: &FinishCall, short: bool) -> Result<Built, i64> {
    let lets_through = || forbidden(call).iter().all(|clause| clauses.contains(clause));
    match finished(call, short) {
        Err(BAD_PIECES) if lets_through() && short => Err(7),
        Err(BAD_PIECES) if lets_through() => Ok(Built::default()),
        answer => answer.map_err(number),
    }
}

/// A port that lets clauses of 19 through.
pub type Letting = fn(&FinishCall, bool) -> Result<Built, i64>;

use Forbidden::*;

/// A port for each clause. Members that are not the lines, each once, differ from the listing or have it beside
/// them.
pub const LETTING: [Letting; 14] = [
    |call, short| without(&[Records], call, short),
    |call, short| without(&[LeavesMembers], call, short),
    |call, short| without(&[LeavesCoordinates], call, short),
    |call, short| without(&[NoLine, NotMerged, Members, Listing], call, short),
    |call, short| without(&[NoCoordinate], call, short),
    |call, short| without(&[Members, OtherLines], call, short),
    |call, short| without(&[Listing, OtherLines], call, short),
    |call, short| without(&[Members, Listing], call, short),
    |call, short| without(&[OtherLines], call, short),
    |call, short| without(&[Groups], call, short),
    |call, short| without(&[NotFinite], call, short),
    |call, short| without(&[NotOwn], call, short),
    |call, short| without(&[NotMerged], call, short),
    |call, short| without(&[TooMany], call, short),
];

pub fn mark_let_through(call: &FinishCall, short: bool) -> Result<Built, i64> {
    without(&[Mark], call, short)
}

/// A short room before bad pieces.
pub fn room_first(call: &FinishCall, short: bool) -> Result<Built, i64> {
    match finished(call, short) {
        Err(BAD_PIECES) if short => Err(7),
        answer => answer.map_err(number),
    }
}

/// Bad pieces before an origin that is no place.
pub fn pieces_first(call: &FinishCall, short: bool) -> Result<Built, i64> {
    match finished(call, short) {
        Err(Refusal(17)) if call.pieces.k > (call.pieces.records.len() / 5) as u64 => Err(19),
        Err(Refusal(17)) if call.pieces.k == 0 && call.lines.lines() > 0 => Err(19),
        answer => answer.map_err(number),
    }
}

/// Round one once more over what is lent, which is then not what it was lent as.
pub fn lines_built_anew(call: &FinishCall, short: bool) -> Result<Built, i64> {
    let built = finished(call, short).map_err(number)?;
    let anew = FinishCall { pieces: left(&call.lines), lines: call.lines.clone() };
    Ok(finished(&anew, false).unwrap_or(built))
}

/// Round two skipped.
pub fn round_two_skipped(call: &FinishCall, short: bool) -> Result<Built, i64> {
    let mut other = call.clone();
    other.lines.tolerance = 0;
    finished(&other, short).map_err(number)
}

/// The marks that are lent not looked at.
pub fn marks_anew(call: &FinishCall, short: bool) -> Result<Built, i64> {
    right(call, short)?;
    let mut other = call.clone();
    other.pieces.marks.fill(0);
    finished(&other, short).map_err(number)
}

/// The members taken for the listing.
pub fn members_for_the_listing(call: &FinishCall, short: bool) -> Result<Built, i64> {
    right(call, short)?;
    let mut other = call.clone();
    other.pieces.listing = other.pieces.members.clone();
    finished(&other, short).map_err(number)
}

/// Records counted in sixes, as the chains' are.
pub fn records_of_six(call: &BuildCall) -> Result<Pieces, i64> {
    let mut pieces = right_first(call)?;
    pieces.records = pieces.records.chunks(5).flat_map(|it| [it, &[0]].concat()).collect();
    pieces.records.truncate(5 * call.lines());
    Ok(pieces)
}

/// Lines that pass through as pieces too.
pub fn passing_pieces(call: &BuildCall) -> Result<Pieces, i64> {
    let mut pieces = right_first(call)?;
    for line in (0..call.lines()).filter(|&line| call.passes(line)) {
        let first = call.firsts()[line] as u32;
        pieces.records.extend([pieces.members.len() as u32, 1, 0, first, call.counts[line]]);
        pieces.members.push(line as u32);
        pieces.listing.push(line as u32);
        pieces.marks.push(0);
        pieces.k += 1;
    }
    Ok(pieces)
}

/// An origin that is no place refused by the first call.
pub fn origin_refused(call: &BuildCall) -> Result<Pieces, i64> {
    call.refusal().map_or_else(|| Ok(left(call)), |refusal| Err(number(refusal)))
}
