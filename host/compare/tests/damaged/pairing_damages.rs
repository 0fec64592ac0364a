//! Pairing calls that are accepted at the edge, and every damage to one.

use crate::{short_rooms, shorter, Lent, NO_LIMITS};
use answers::{PairingCall, Route};
use compare::pairing::PairRooms;

/// A pairing call with the shortages of its rooms.
pub type LentEnds = Lent<PairingCall, 2>;

type Damage = crate::Damage<PairingCall, 2>;

fn damage(refusal: i64, name: &str, apply: impl Fn(&mut PairingCall) + 'static) -> Damage {
    crate::damage(refusal, name, apply)
}

/// The lengths of the rooms that are lent: short ones where there are too many ends.
pub fn lengths(lent: &LentEnds) -> [usize; 2] {
    match lent.call.ends() {
        0..=8_192 => lent.left(PairRooms::lengths(&lent.call)),
        _ => [500; 2],
    }
}

/// Calls that every route accepts, each at an edge of the refusals. Every piece stands twice, and
/// an absent end has numbers that are not finite.
pub fn accepted() -> Vec<(&'static str, PairingCall)> {
    vec![
        ("4 ends, limit 1", ends(4, 1.0)),
        ("32 ends, limit -1", ends(32, -1.0)),
        ("8,192 ends, limit -1", ends(8_192, -1.0)),
    ]
}

fn ends(d: u32, limit: f64) -> PairingCall {
    let mut call = PairingCall { limit: limit.to_bits(), ..PairingCall::default() };
    for end in 0..d {
        let x = f64::from(end + 1) / f64::from(d + 1);
        call.push(true, [x.to_bits(), 0], u32::MAX - end / 2);
    }
    call.present[1] = 0;
    call.directions[2] = u64::MAX;
    call.directions[3] = f64::INFINITY.to_bits();
    call
}

/// Every damage on a route, in the order of the refusals that they call for.
pub fn damages(route: Route) -> Vec<Damage> {
    let mut all = tables();
    for limit in NO_LIMITS {
        let name = format!("limit {:?}", f64::from_bits(limit));
        all.push(damage(6, &name, move |call| call.limit = limit));
    }
    all.extend(short_rooms(["pairs", "workspace"]));
    all.extend(pieces());
    if route == Route::Indexed {
        all.extend(wild());
    }
    all
}

/// Refusals 1 to 3: too many ends, tables that differ in length, presence marks that are none.
fn tables() -> Vec<Damage> {
    vec![
        damage(1, "8,193 ends", |call| {
            call.present.resize(8_193, 0);
            call.directions.resize(2 * 8_193, 0);
            call.pieces.resize(8_193, 0);
        }),
        damage(1, "100,000 pieces alone", |call| call.pieces.resize(100_000, 0)),
        damage(2, "presence marks short by one", |call| shorter(&mut call.present)),
        damage(2, "presence marks long by one", |call| call.present.push(0)),
        damage(2, "no presence marks", |call| call.present.clear()),
        damage(2, "directions short by one", |call| shorter(&mut call.directions)),
        damage(2, "directions long by one", |call| call.directions.push(0)),
        damage(2, "one direction per end", |call| call.directions.truncate(call.pieces.len())),
        damage(2, "no directions", |call| call.directions.clear()),
        damage(2, "pieces short by one", |call| shorter(&mut call.pieces)),
        damage(3, "a presence mark of 2", |call| {
            call.present.iter_mut().take(1).for_each(|mark| *mark = 2)
        }),
        damage(3, "a last presence mark of 255", |call| {
            call.present.iter_mut().rev().take(1).for_each(|mark| *mark = 255);
        }),
    ]
}

/// Refusal 8: a piece that stands three times, present or not, side by side or far apart.
fn pieces() -> Vec<Damage> {
    vec![
        damage(8, "the first piece a third time", |call| {
            let first = call.pieces[0];
            call.pieces.iter_mut().rev().take(1).for_each(|piece| *piece = first);
        }),
        damage(8, "one piece for all", |call| call.pieces.fill(3)),
        damage(8, "a piece three times, all absent", |call| {
            call.present.fill(0);
            call.pieces[2] = call.pieces[0];
        }),
    ]
}

/// Refusal 9: a present direction that is not finite.
fn wild() -> Vec<Damage> {
    [f64::NAN, f64::INFINITY, f64::NEG_INFINITY]
        .into_iter()
        .flat_map(|float| {
            let set = move |number: fn(usize) -> usize| {
                damage(9, &format!("a direction of {float}"), move |call| {
                    let place = number(call.directions.len());
                    call.present[place / 2] = 1;
                    call.directions[place] = float.to_bits();
                })
            };
            [set(|_| 0), set(|_| 5), set(|length| length - 1)]
        })
        .collect()
}
