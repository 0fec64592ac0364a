//! Damaged pairing calls.

use crate::pairing_damages::{accepted, damages, lengths, LentEnds};
use crate::{bent, damaged};
use answers::random::Random;
use answers::{PairingCall, Route};
use compare::pairing::{compare_pairs, PairRooms, ROUTES};
use compare::{ByOffset, Door, Judge, Library};

/// Puts a damaged call to the library: the answer is the refusal, and the rooms are as before.
fn expect(refusal: i64, route: Route, lent: &LentEnds, name: &str) {
    let mut rooms = PairRooms::new(&mut Random::new(refusal as u64), lengths(lent));
    let answer = Library.pairs(route, &lent.call, &mut rooms);
    assert_eq!(answer, -refusal, "{route:?}, {name}");
    rooms.untouched().unwrap_or_else(|fault| panic!("{route:?}, {name}: {fault}"));
    expect_by_offset(refusal, route, lent, name);
}

/// Puts it to the library with an offset in the limit's place: 22 is in place of 6.
fn expect_by_offset(refusal: i64, route: Route, lent: &LentEnds, name: &str) {
    let mut lent = lent.clone();
    lent.call.limit = bent(lent.call.limit);
    let refusal = if refusal == 6 { 22 } else { refusal };
    let mut rooms = PairRooms::new(&mut Random::new(refusal as u64), lengths(&lent));
    let answer = ByOffset.pairs(route, &lent.call, &mut rooms);
    assert_eq!(answer, -refusal, "{route:?} by an offset, {name}");
    rooms.untouched().unwrap_or_else(|fault| panic!("{route:?} by an offset, {name}: {fault}"));
}

#[test]
fn undamaged_calls_are_accepted() {
    for (name, mut call) in accepted() {
        assert_eq!(compare_pairs(&Library, Judge::Model, &call, 1), Ok(()), "{name}");
        call.limit = bent(call.limit);
        assert_eq!(compare_pairs(&Library, Judge::Model, &call, 1), Ok(()), "{name}, bent");
    }
}

#[test]
fn each_damage_at_every_edge() {
    for (base, call) in accepted() {
        for route in ROUTES {
            for damage in damages(route) {
                let (refusal, lent, name) = damaged(&call, &[&damage]);
                expect(refusal, route, &lent, &format!("{base}: {name}"));
            }
        }
    }
}

#[test]
fn two_damages_at_once() {
    for (base, call) in &accepted()[..2] {
        for route in ROUTES {
            let all = damages(route);
            for (k, one) in all.iter().enumerate() {
                for other in all[k + 1..].iter().filter(|other| other.refusal != one.refusal) {
                    let (refusal, lent, name) = damaged(call, &[one, other]);
                    expect(refusal, route, &lent, &format!("{base}: {name}"));
                }
            }
        }
    }
}

#[test]
fn wild_directions_are_refused_by_the_indexed_route_alone() {
    for damage in damages(Route::Indexed).iter().filter(|damage| damage.refusal == 9) {
        let (_, lent, name) = damaged(&accepted()[1].1, &[damage]);
        assert_eq!(compare_pairs(&Library, Judge::Model, &lent.call, 1), Ok(()), "{name}");
    }
}

#[test]
fn no_ends_need_no_rooms() {
    let none = PairingCall::default();
    for route in ROUTES {
        let mut rooms = PairRooms::new(&mut Random::new(1), [0, 0]);
        assert_eq!(Library.pairs(route, &none, &mut rooms), 0);
        let mut rooms = PairRooms::new(&mut Random::new(1), [4, 4]);
        assert_eq!(Library.pairs(route, &none, &mut rooms), 0);
        assert_eq!(rooms.untouched(), Ok(()));
        let bad = PairingCall { limit: u64::MAX, ..none.clone() };
        assert_eq!(Library.pairs(route, &bad, &mut rooms), -6);
        let differ = PairingCall { directions: vec![0], ..none.clone() };
        assert_eq!(Library.pairs(route, &differ, &mut rooms), -2);
    }
}
