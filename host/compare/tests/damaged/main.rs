//! Damaged calls: the answer is the number of the first refusal that applies, and every room is as
//! before. Each refusal is tried from states in which everything that is tested before it is at
//! the edge of what is accepted, and beside every other damage.

mod building;
mod building_damages;
mod checks;
mod pairing;
mod pairing_damages;
mod question;
mod why;
mod windows;
mod zooms;

use answers::offset;
use std::cmp::Reverse;

/// Whether a lent room is shorter than it must be.
#[derive(Clone, Copy, Debug, PartialEq, Eq)]
pub enum Shortage {
    /// It has one number less.
    ByOne,
    /// It has no number.
    Empty,
}

impl Shortage {
    /// The length that is left of a length.
    pub fn left(self, length: usize) -> usize {
        match self {
            Shortage::ByOne => length.saturating_sub(1),
            Shortage::Empty => 0,
        }
    }
}

/// A call with the shortages of its rooms, in the order in which its rooms are lent.
#[derive(Clone)]
pub struct Lent<C, const ROOMS: usize> {
    pub call: C,
    pub short: [Option<Shortage>; ROOMS],
}

impl<C, const ROOMS: usize> Lent<C, ROOMS> {
    /// What the shortages leave of the lengths that the rooms must have.
    pub fn left(&self, mut lengths: [usize; ROOMS]) -> [usize; ROOMS] {
        for (length, shortage) in lengths.iter_mut().zip(self.short) {
            *length = shortage.map_or(*length, |shortage| shortage.left(*length));
        }
        lengths
    }
}

/// How a damage is done.
type Apply<C, const ROOMS: usize> = Box<dyn Fn(&mut Lent<C, ROOMS>)>;

/// A damage: the refusal that it calls for, what it is, and how it is done.
pub struct Damage<C, const ROOMS: usize> {
    pub refusal: i64,
    pub name: String,
    apply: Apply<C, ROOMS>,
}

impl<C, const ROOMS: usize> Damage<C, ROOMS> {
    /// Does the damage.
    pub fn apply_to(&self, lent: &mut Lent<C, ROOMS>) {
        (self.apply)(lent);
    }
}

/// A damage to the call itself.
pub fn damage<C, const ROOMS: usize>(
    refusal: i64,
    name: &str,
    apply: impl Fn(&mut C) + 'static,
) -> Damage<C, ROOMS> {
    let apply = Box::new(move |lent: &mut Lent<C, ROOMS>| apply(&mut lent.call));
    Damage { refusal, name: name.to_string(), apply }
}

/// Refusal 7: each of the rooms short by one, and empty.
pub fn short_rooms<C, const ROOMS: usize>(names: [&str; ROOMS]) -> Vec<Damage<C, ROOMS>> {
    let mut all: Vec<Damage<C, ROOMS>> = Vec::new();
    for (room, name) in names.iter().enumerate() {
        for shortage in [Shortage::ByOne, Shortage::Empty] {
            let name = format!("{name} short, {shortage:?}");
            let apply =
                Box::new(move |lent: &mut Lent<C, ROOMS>| lent.short[room] = Some(shortage));
            all.push(Damage { refusal: 7, name, apply });
        }
    }
    all
}

/// The refusals of building in the order of checking.
pub const IN_ORDER: [i64; 12] = [12, 1, 2, 3, 4, 5, 20, 21, 15, 6, 17, 7];

/// The place of a refusal in the order of checking, of which building has the beginning. 19 stands right behind
/// 17.
fn place(refusal: i64) -> i64 {
    let place = IN_ORDER.iter().position(|&each| each == refusal);
    match refusal {
        19 => self::place(17) + 1,
        _ => 2 * place.map_or(IN_ORDER.len() as i64 + refusal, |place| place as i64),
    }
}

/// The call with the damages, the first refusal's last, so that no other undoes it. Gives that
/// refusal too, and the names of all.
pub fn damaged<C: Clone, const ROOMS: usize>(
    call: &C,
    damages: &[&Damage<C, ROOMS>],
) -> (i64, Lent<C, ROOMS>, String) {
    let mut ordered = damages.to_vec();
    ordered.sort_by_key(|damage| Reverse(place(damage.refusal)));
    let mut lent = Lent { call: call.clone(), short: [None; ROOMS] };
    ordered.iter().for_each(|damage| (damage.apply)(&mut lent));
    let names: Vec<_> = ordered.iter().map(|damage| damage.name.as_str()).collect();
    (ordered[ordered.len() - 1].refusal, lent, names.join(" and "))
}

/// Floats that are no limit: NaN of both signs, the nearest beyond -1 and 1, infinities.
pub const NO_LIMITS: [u64; 6] = [
    0x7ff8_0000_0000_0000,
    0xfff0_0000_0000_0001,
    0xbff0_0000_0000_0001,
    0x3ff0_0000_0000_0001,
    0xfff0_0000_0000_0000,
    0x7ff0_0000_0000_0000,
];

/// Floats that are no place: infinities, and NaN of several payloads and both signs.
pub const NO_PLACES: [u64; 6] = [
    0x7ff0_0000_0000_0000,
    0xfff0_0000_0000_0000,
    0x7ff8_0000_0000_0000,
    0x7ff0_0000_0000_0001,
    0xfff4_0000_0000_0000,
    0xffff_ffff_ffff_ffff,
];

/// The limit of the greatest offset where there is a limit; no limit, and so no offset, stays.
pub fn bent(limit: u64) -> u64 {
    match (-1.0..=1.0).contains(&f64::from_bits(limit)) {
        true => offset::limit(offset::MOST).map_or(limit, f64::to_bits),
        false => limit,
    }
}

/// Numbers that are no type of a line: those beside the four, other geometry, what others write for
/// heights, measures and an SRID, and the four in other places of the word.
pub const NO_TYPES: [u32; 20] = [
    0,
    1,
    3,
    7,
    1000,
    1001,
    1003,
    2000,
    2001,
    2003,
    3001,
    3003,
    4002,
    0x8000_0002,
    0x4000_0002,
    0xc000_0002,
    0x2000_0002,
    0x0001_0002,
    0x0200_0000,
    u32::MAX,
];

/// Takes the last number out of a table.
pub fn shorter<T>(table: &mut Vec<T>) {
    table.pop();
}
