//! Questions about two ends of damaged pairing calls, and about numbers that are not those of two
//! ends: the plain route's refusals come first, then 26.

use crate::damaged;
use crate::pairing_damages::{accepted, damages, lengths, LentEnds};
use answers::random::Random;
use answers::{PairingCall, Route, WhyCall};
use compare::pairing::PairRooms;
use compare::why::compare_why;
use compare::{Door, Judge, Library};

/// Numbers that are not those of two ends of d, at each edge.
fn no_two_ends(d: u32) -> Vec<[u32; 2]> {
    let beyond = [d, d + 1, 8_192, 65_536, u32::MAX];
    let mut all: Vec<_> = beyond.into_iter().flat_map(|end| [[0, end], [end, 0]]).collect();
    all.extend([[0, 0], [d - 1, d - 1], [d, d], [d, d + 1], [u32::MAX, u32::MAX]]);
    all.retain(|[i, j]| i == j || *i >= d || *j >= d);
    all
}

/// Puts a question to the library: the answer is the refusal, and the rooms are as before.
fn expect(refusal: i64, lent: &LentEnds, ends: [u32; 2], name: &str) {
    let mut rooms = PairRooms::new(&mut Random::new(refusal as u64), lengths(lent));
    let call = WhyCall { pairing: lent.call.clone(), ends };
    assert_eq!(Library.why(&call, &mut rooms), -refusal, "{ends:?}, {name}");
    rooms.untouched().unwrap_or_else(|fault| panic!("{ends:?}, {name}: {fault}"));
}

#[test]
fn two_ends_are_accepted_in_either_order() {
    for (name, pairing) in accepted() {
        let last = pairing.ends() as u32 - 1;
        for ends in [[0, last], [last, 0], [0, 1], [last, last - 1]] {
            let call = WhyCall { pairing: pairing.clone(), ends };
            let told = compare_why(&Library, Judge::Model, &call, 1);
            assert!(told.is_ok(), "{name}, {ends:?}: {told:?}");
        }
    }
}

#[test]
fn numbers_that_are_not_those_of_two_ends() {
    for (name, call) in accepted() {
        for ends in no_two_ends(call.ends() as u32) {
            expect(26, &LentEnds { call: call.clone(), short: [None; 2] }, ends, name);
        }
    }
}

#[test]
fn the_plain_routes_refusals_come_first() {
    for (base, call) in &accepted()[..2] {
        let d = call.ends() as u32;
        for damage in damages(Route::Plain) {
            let (refusal, lent, name) = damaged(call, &[&damage]);
            for ends in [[0, d - 1], [d - 1, 0], [0, d], [d, 0], [0, 0], [u32::MAX, 1]] {
                expect(refusal, &lent, ends, &format!("{base}: {name}"));
            }
        }
    }
}

#[test]
fn of_no_ends_no_two_can_be_asked_about() {
    let none = PairingCall::default();
    for ends in [[0, 0], [0, 1], [u32::MAX, 0]] {
        let lent = LentEnds { call: none.clone(), short: [None; 2] };
        expect(26, &lent, ends, "no ends");
        let bad = PairingCall { limit: u64::MAX, ..none.clone() };
        expect(6, &LentEnds { call: bad, short: [None; 2] }, ends, "no ends, no limit");
    }
}

#[test]
fn directions_that_are_not_finite_are_accepted() {
    for damage in damages(Route::Indexed).iter().filter(|damage| damage.refusal == 9) {
        let (_, lent, name) = damaged(&accepted()[1].1, &[damage]);
        for ends in [[0, 2], [5, 2], [31, 4]] {
            let call = WhyCall { pairing: lent.call.clone(), ends };
            let told = compare_why(&Library, Judge::Model, &call, 1);
            assert!(told.is_ok(), "{name}, {ends:?}: {told:?}");
        }
    }
}
