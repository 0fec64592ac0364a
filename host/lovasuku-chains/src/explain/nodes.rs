//! Nodes: the ends that meet in a round, and which of them are joined.

use super::plane::{direction, measure};
use crate::large::{Key, Point};
use crate::{Ends, Reason, Refusal, Rooms, Route};
use std::collections::HashMap;
use std::fmt;

/// The round in which ends meet.
#[derive(Clone, Copy, Debug, PartialEq, Eq, Hash, PartialOrd, Ord)]
pub enum Round {
    /// Round one: ends of lines whose x and y agree bit for bit.
    Exact,
    /// Round two: ends of what round one left that lie in one cell of the tolerance.
    Cells,
}

/// An end at a node.
#[derive(Clone, Copy, Debug, PartialEq)]
pub struct End {
    /// The position of the line that ends here.
    pub line: u32,
    /// True where it is the line's last point, false where it is its first.
    pub last: bool,
    /// The piece that it is an end of: in round one the line itself, in round two one of the pieces
    /// that round one left, by its position among these.
    pub piece: u32,
    /// Where it lies.
    pub point: Point,
    /// The unit direction from it into its piece, where it has one.
    pub direction: Option<[f64; 2]>,
}

/// Two ends or more of one group that meet in a round.
#[derive(Clone, Debug, PartialEq)]
pub struct Node {
    /// The round.
    pub round: Round,
    /// The ends, by piece, the first end of a piece before its last.
    pub ends: Vec<End>,
    /// The pairs that are joined, by the places of their ends here, the lower first. Of three ends or
    /// more they stand in the order of their selection.
    pub joined: Vec<[u32; 2]>,
}

/// Why two ends at a node are joined or not.
#[derive(Clone, Copy, Debug, PartialEq, Eq, Hash)]
pub enum Why {
    /// They meet with no third end, and are joined at any angle.
    NoThird,
    /// They meet with no third end, and are the two ends of one piece, which is never joined with
    /// itself.
    OnePiece,
    /// Three ends or more meet, and the settings pair no junctions.
    NotPaired,
    /// Three ends or more meet, and this is the library's reason.
    Junction(Reason),
}

impl Why {
    /// True where the two are joined.
    pub fn joins(self) -> bool {
        matches!(self, Why::NoThird | Why::Junction(Reason::Selected))
    }
}

impl fmt::Display for Why {
    fn fmt(&self, f: &mut fmt::Formatter<'_>) -> fmt::Result {
        match self {
            Why::NoThird => write!(f, "the two ends meet with no third"),
            Why::OnePiece => write!(f, "the two ends are of one piece and meet with no third"),
            Why::NotPaired => write!(f, "three ends or more meet, and junctions are not paired"),
            Why::Junction(reason) => reason.fmt(f),
        }
    }
}

impl Node {
    /// True where three ends or more meet.
    pub fn is_junction(&self) -> bool {
        self.ends.len() > 2
    }

    /// The measure of two ends by their places: the dot product of their directions, held within -1
    /// to 1. Nothing where one of them has no direction.
    pub fn measure(&self, [i, j]: [u32; 2]) -> Option<f64> {
        let direction = |place: u32| self.ends.get(place as usize)?.direction;
        Some(measure(direction(i)?, direction(j)?))
    }

    /// The place of a pair among those that are joined, whichever of its ends comes first.
    pub fn rank(&self, [i, j]: [u32; 2]) -> Option<usize> {
        self.joined.iter().position(|&pair| pair == [i.min(j), i.max(j)])
    }

    /// Why two ends, given by their places, are joined or not. Of three or more the library is asked.
    ///
    /// # Errors
    ///
    /// What the library refuses: [`Refusal::NoTwoEnds`] for places that are not those of two ends,
    /// [`Refusal::BadLimit`] for a limit that is none.
    pub fn why(&self, rooms: &mut Rooms, limit: Option<f64>, of: [u32; 2]) -> Result<Why, Refusal> {
        self.asked(rooms, limit, [of]).map(|all| all.first().copied().unwrap_or(Why::NotPaired))
    }

    /// Why each two ends are joined or not, for all pairs in the order of [`pairs`](Node::pairs).
    ///
    /// # Errors
    ///
    /// [`Refusal::BadLimit`] for a limit that is none.
    pub fn all_whys(&self, rooms: &mut Rooms, limit: Option<f64>) -> Result<Vec<Why>, Refusal> {
        self.asked(rooms, limit, self.pairs())
    }

    /// All pairs of ends by their places: 0 with 1, 0 with 2 .. 1 with 2, and so on.
    pub fn pairs(&self) -> impl Iterator<Item = [u32; 2]> {
        let ends = self.ends.len() as u32;
        (0..ends).flat_map(move |i| (i + 1..ends).map(move |j| [i, j]))
    }

    fn asked(
        &self,
        rooms: &mut Rooms,
        limit: Option<f64>,
        pairs: impl IntoIterator<Item = [u32; 2]>,
    ) -> Result<Vec<Why>, Refusal> {
        let table = Table::of(&self.ends);
        let why = |[i, j]: [u32; 2]| match (&self.ends[..], limit) {
            ([..], _) if i == j || i.max(j) as usize >= self.ends.len() => Err(Refusal::NoTwoEnds),
            ([one, other], _) if one.piece == other.piece => Ok(Why::OnePiece),
            ([_, _], _) => Ok(Why::NoThird),
            (_, None) => Ok(Why::NotPaired),
            (_, Some(limit)) => rooms.why(table.ends(), limit, [i, j]).map(Why::Junction),
        };
        pairs.into_iter().map(why).collect()
    }

    /// Finds which pairs are joined. Of three ends or more the library selects them.
    fn join(&mut self, rooms: &mut Rooms, limit: Option<f64>) -> Result<(), Refusal> {
        self.joined = match (&self.ends[..], limit) {
            ([one, other], _) if one.piece == other.piece => Vec::new(),
            ([_, _], _) => vec![[0, 1]],
            (_, None) => Vec::new(),
            (ends, Some(limit)) => {
                rooms.pairs(Route::Chosen, Table::of(ends).ends(), limit)?.to_vec()
            }
        };
        Ok(())
    }
}

/// The ends of a node as the library takes them.
struct Table {
    present: Vec<u8>,
    directions: Vec<f64>,
    pieces: Vec<u32>,
}

impl Table {
    fn of(ends: &[End]) -> Self {
        Table {
            present: ends.iter().map(|end| u8::from(end.direction.is_some())).collect(),
            directions: ends.iter().flat_map(|end| end.direction.unwrap_or_default()).collect(),
            pieces: ends.iter().map(|end| end.piece).collect(),
        }
    }

    fn ends(&self) -> Ends<'_> {
        Ends { present: &self.present, directions: &self.directions, pieces: &self.pieces }
    }
}

/// A piece of a round: its points, and the ends of lines that are its own.
pub struct Piece<'a> {
    pub number: u32,
    pub group: u32,
    pub points: &'a [Point],
    /// The line and whether it is its last point, at the first point of the piece and at its last.
    pub ends: [(u32, bool); 2],
}

impl Piece<'_> {
    fn ends(&self) -> Option<[End; 2]> {
        let (points, number) = (self.points, self.number);
        let [(first_line, first_last), (last_line, last_last)] = self.ends;
        let end =
            |line, last, point, direction| End { line, last, piece: number, point, direction };
        let forward = direction(points.iter().copied());
        let backward = direction(points.iter().rev().copied());
        Some([
            end(first_line, first_last, *points.first()?, forward),
            end(last_line, last_last, *points.last()?, backward),
        ])
    }
}

/// The nodes of a round at which two ends or more meet, in the order of their lowest ends. The pieces
/// come in ascending order.
pub fn nodes<'a>(
    round: Round,
    pieces: impl Iterator<Item = Piece<'a>>,
    key: impl Fn(u32, Point) -> Key,
    (rooms, limit): (&mut Rooms, Option<f64>),
) -> Result<Vec<Node>, Refusal> {
    let mut places: HashMap<Key, usize> = HashMap::new();
    let mut all: Vec<Node> = Vec::new();
    for piece in pieces {
        for end in piece.ends().into_iter().flatten() {
            let place = *places.entry(key(piece.group, end.point)).or_insert(all.len());
            match all.get_mut(place) {
                Some(node) => node.ends.push(end),
                None => all.push(Node { round, ends: vec![end], joined: Vec::new() }),
            }
        }
    }
    all.retain(|node| node.ends.len() > 1);
    all.iter_mut().try_for_each(|node| node.join(rooms, limit))?;
    Ok(all)
}
