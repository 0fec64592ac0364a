//! The rules in plain Rust, with no thought of speed.
//!
//! One file per heading of the rules: [`plane`] (keys, directions, the measure), [`selecting`],
//! [`reasons`] (why two ends are joined or not), [`walking`] (joining and walks), [`layout`] (the
//! answer's tables), [`boxes`] (extents, and what lies in a window), [`acceptable`] (chains
//! made elsewhere), [`parting`] (building in two calls). This file has the two rounds. The model refuses types that are none of the
//! four, districts over their shares, coordinates and origins that are no place and what the question
//! adds, and nothing else: it is put only to calls to which no other refusal applies.

pub mod acceptable;
pub mod boxes;
pub mod layout;
pub mod parting;
pub mod plane;
pub mod reasons;
pub mod selecting;
pub mod walking;

use crate::call::{BuildCall, Built, Pair, PairingCall, Port, Refusal, Route};
use plane::{cell_key, exact_key, same, Key, Point};
use walking::{joins, walks};

/// A coordinate: its point, and the extras that ride along. Those that its type has not are 0.
#[derive(Clone, Copy, Debug, PartialEq, Eq)]
pub struct Coordinate {
    /// x and y, as bits.
    pub point: Point,
    /// The height and the measure, or the one of them that there is, as bits.
    pub extras: [u64; 2],
}

/// A line, or several joined ones, with one run of coordinates.
#[derive(Clone, Debug)]
pub struct Piece {
    /// The lines in the order in which they were appended.
    pub members: Vec<usize>,
    /// Per member 1 where it was turned in an odd number of rounds.
    pub marks: Vec<u8>,
    /// The same lines in the order in which the coordinates pass them.
    pub listing: Vec<usize>,
    /// The coordinates.
    pub run: Vec<Coordinate>,
    /// The group of all its lines.
    pub group: u32,
}

/// The model as something that answers calls.
pub struct Model;

impl Port for Model {
    fn build(&mut self, call: &BuildCall) -> Result<Built, Refusal> {
        match call.refusal() {
            Some(refusal) => Err(refusal),
            None => Ok(built(call)),
        }
    }

    fn pairs(&mut self, _: Route, call: &PairingCall) -> Result<Vec<Pair>, Refusal> {
        let limit = f64::from_bits(call.limit);
        Ok(selecting::selected(&call.all_directions(), &call.pieces, limit))
    }
}

/// What ends meet by: the key of a point of a group.
pub type KeyOf<'a> = &'a dyn Fn(u32, Point) -> Key;

/// The answer by the rules, whatever the coordinates are.
pub fn built(call: &BuildCall) -> Built {
    let tolerance = f64::from_bits(call.tolerance);
    built_by(call, &exact_key, &|group, point| cell_key(group, point, call.origin, tolerance))
}

/// The answer where ends meet by the given keys, of round one and of round two.
pub fn built_by(call: &BuildCall, exact: KeyOf, cells: KeyOf) -> Built {
    let (plain, passing) = lines(call);
    let mut chains = rounds(call, plain, exact, cells);
    chains.extend(passing);
    layout::built(call, &chains)
}

/// The lines of a call as pieces of one member: those to be joined, and those that pass through.
fn lines(call: &BuildCall) -> (Vec<Piece>, Vec<Piece>) {
    let piece = |(line, first): (usize, usize)| Piece {
        members: vec![line],
        marks: vec![0],
        listing: vec![line],
        run: run(call, line, first),
        group: call.groups[line],
    };
    let all = call.firsts().into_iter().enumerate().map(piece);
    all.partition(|piece| !call.passes(piece.members[0]))
}

/// The coordinates of a line that begins at the given one.
fn run(call: &BuildCall, line: usize, first: usize) -> Vec<Coordinate> {
    let coordinate = |numbers: &[u64]| {
        let extra = |k: usize| numbers.get(k).copied().unwrap_or(0);
        Coordinate { point: [numbers[0], numbers[1]], extras: [extra(2), extra(3)] }
    };
    call.numbers(line, first).chunks(call.stride()).map(coordinate).collect()
}

/// Round one by exact keys and, where the tolerance is above 0, round two by cells.
fn rounds(call: &BuildCall, pieces: Vec<Piece>, exact: KeyOf, cells: KeyOf) -> Vec<Piece> {
    let pieces = round(call, pieces, exact);
    if f64::from_bits(call.tolerance) > 0.0 {
        round(call, pieces, cells)
    } else {
        pieces
    }
}

/// One round: the ends meet at nodes of equal keys, and each walk becomes a piece.
fn round(call: &BuildCall, pieces: Vec<Piece>, key: KeyOf) -> Vec<Piece> {
    let limit = (call.switch == 1).then(|| f64::from_bits(call.limit));
    let joins = joins(&pieces, key, limit);
    walks(&joins).iter().map(|walk| merge(&pieces, walk)).collect()
}

/// The piece of a walk, which is given by the ends at which it enters its pieces.
fn merge(pieces: &[Piece], walk: &[usize]) -> Piece {
    let head = &pieces[walk[0] / 2];
    let (members, marks, listing) = (vec![], vec![], vec![]);
    let mut merged = Piece { members, marks, listing, run: vec![], group: head.group };
    for &entry in walk {
        let (piece, turned) = (&pieces[entry / 2], entry % 2 == 1);
        merged.members.extend(&piece.members);
        merged.marks.extend(piece.marks.iter().map(|&mark| mark ^ u8::from(turned)));
        match turned {
            true => merged.listing.extend(piece.listing.iter().rev()),
            false => merged.listing.extend(&piece.listing),
        }
        append(&mut merged.run, &piece.run, turned);
    }
    if walk.len() == 1 {
        merged.run = head.run.clone();
    }
    merged
}

/// Appends a run, turned round if asked, without any coordinate whose x and y equal those of the last
/// written: that one stays, with its extras.
fn append(run: &mut Vec<Coordinate>, more: &[Coordinate], turned: bool) {
    for k in 0..more.len() {
        let coordinate = more[if turned { more.len() - 1 - k } else { k }];
        let repeated = matches!(run.last(), Some(last) if same(last.point, coordinate.point));
        if !repeated {
            run.push(coordinate);
        }
    }
}
