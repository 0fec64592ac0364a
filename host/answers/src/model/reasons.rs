//! Why two ends are joined or not.

use super::plane::measure;
use crate::call::{Pair, WhyCall};

/// What the question is answered with.
#[derive(Clone, Copy, Debug, PartialEq, Eq)]
pub enum Told {
    /// Their pair is selected.
    Selected,
    /// They are of the same piece.
    SamePiece,
    /// One of them has no direction.
    AbsentDirection,
    /// Their measure is not at or below the limit.
    NotQualifying,
    /// The earliest selected pair that has one of them, by its place.
    Blocked(usize),
    /// A number is not that of an end, or the two are equal: the question is refused.
    NoTwoEnds,
}

impl Told {
    /// The answer at the door.
    pub fn answer(self) -> i64 {
        match self {
            Told::Selected => 0,
            Told::SamePiece => 1,
            Told::AbsentDirection => 2,
            Told::NotQualifying => 3,
            Told::Blocked(place) => 4 + place as i64,
            Told::NoTwoEnds => -26,
        }
    }

    /// What it says, without the place of a pair.
    pub fn name(self) -> &'static str {
        match self {
            Told::Selected => "selected",
            Told::SamePiece => "same piece",
            Told::AbsentDirection => "absent direction",
            Told::NotQualifying => "not qualifying",
            Told::Blocked(_) => "blocked",
            Told::NoTwoEnds => "no two ends",
        }
    }
}

/// The first reason that applies, where these pairs are selected.
///
/// # Panics
///
/// Panics where a pair that qualifies neither is selected nor has an end in a selected pair.
pub fn told(call: &WhyCall, selected: &[Pair]) -> Told {
    let WhyCall { pairing, ends: [i, j] } = call;
    let [a, b] = [*i, *j].map(|end| end as usize);
    if a >= pairing.ends() || b >= pairing.ends() || a == b {
        return Told::NoTwoEnds;
    }
    if selected.contains(&[*i.min(j), *i.max(j)]) {
        return Told::Selected;
    }
    if pairing.pieces[a] == pairing.pieces[b] {
        return Told::SamePiece;
    }
    match (pairing.direction(a), pairing.direction(b)) {
        (Some(one), Some(other)) if measure(one, other) <= f64::from_bits(pairing.limit) => {
            let blocks = |pair: &Pair| pair.contains(i) || pair.contains(j);
            let place = selected.iter().position(blocks);
            Told::Blocked(place.expect("a qualifying pair is selected or blocked"))
        }
        (Some(_), Some(_)) => Told::NotQualifying,
        _ => Told::AbsentDirection,
    }
}
