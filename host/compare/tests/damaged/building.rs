//! Damaged building calls.

use crate::building_damages::{accepted, damages, lengths, LentLines, SMALL};
use crate::{bent, damaged, IN_ORDER, NO_PLACES, NO_TYPES};
use answers::random::Random;
use answers::BuildCall;
use compare::building::{compare_build, hold_build, BuildRooms};
use compare::{ByOffset, Door, Judge, Library};

/// Puts a damaged call to the library: the answer is the refusal, and the rooms are as before.
fn expect(refusal: i64, lent: &LentLines, name: &str) {
    let mut rooms = BuildRooms::new(&mut Random::new(refusal as u64), lengths(lent));
    let answer = Library.build(&lent.call, &mut rooms);
    assert_eq!(answer, -refusal, "{name}");
    rooms.untouched().unwrap_or_else(|fault| panic!("{name}: {fault}"));
    expect_by_offset(refusal, lent, name);
}

/// Puts it to the library with an offset in the limit's place: 22 is in place of the limit's part
/// of 6.
fn expect_by_offset(refusal: i64, lent: &LentLines, name: &str) {
    let mut lent = lent.clone();
    lent.call.limit = bent(lent.call.limit);
    let refusal = if refusal == 6 && lent.call.switch == 1 { 22 } else { refusal };
    let mut rooms = BuildRooms::new(&mut Random::new(refusal as u64), lengths(&lent));
    let answer = ByOffset.build(&lent.call, &mut rooms);
    assert_eq!(answer, -refusal, "by an offset, {name}");
    rooms.untouched().unwrap_or_else(|fault| panic!("by an offset, {name}: {fault}"));
}

#[test]
fn undamaged_calls_are_accepted() {
    for (name, mut call) in accepted() {
        let compared = compare_build(&Library, Judge::Model, &call, 1);
        assert_eq!(compared, Ok(()), "{name}");
        call.limit = bent(call.limit);
        let wanted = Judge::Model.build(&call);
        assert_eq!(hold_build(&ByOffset, &call, &wanted, 1), Ok(()), "by an offset, {name}");
    }
}

#[test]
fn each_damage_at_every_edge() {
    for (base, call) in accepted() {
        for damage in damages() {
            let (refusal, lent, name) = damaged(&call, &[&damage]);
            expect(refusal, &lent, &format!("{base}: {name}"));
        }
    }
}

#[test]
fn two_damages_at_once() {
    let all = damages();
    for (base, call) in &accepted()[1..3] {
        for (k, one) in all.iter().enumerate() {
            for other in all[k + 1..].iter().filter(|other| other.refusal != one.refusal) {
                let (refusal, lent, name) = damaged(call, &[one, other]);
                expect(refusal, &lent, &format!("{base}: {name}"));
            }
        }
    }
}

#[test]
fn many_damages_at_once() {
    let all = damages();
    let bases = accepted();
    let mut random = Random::new(5);
    for _ in 0..1_000 {
        let mut some = Vec::new();
        for refusal in IN_ORDER {
            let of: Vec<_> = all.iter().filter(|damage| damage.refusal == refusal).collect();
            if random.one_in(2) {
                some.push(random.pick(&of));
            }
        }
        let (base, call) = &bases[random.below(SMALL)];
        if !some.is_empty() {
            let (refusal, lent, name) = damaged(call, &some);
            expect(refusal, &lent, &format!("{base}: {name}"));
        }
    }
}

#[test]
fn a_room_may_be_longer_and_an_empty_call_needs_boxes_alone() {
    let empty = BuildCall::default();
    // No lines need 64 numbers of boxes all the same, and write none.
    let mut rooms = BuildRooms::new(&mut Random::new(1), [0, 0, 0, 0, 0, 64, 0, 0]);
    assert_eq!(Library.build(&empty, &mut rooms), 0);
    let mut rooms = BuildRooms::new(&mut Random::new(1), [0, 0, 0, 0, 0, 63, 0, 0]);
    assert_eq!(Library.build(&empty, &mut rooms), -7);
    let mut rooms = BuildRooms::new(&mut Random::new(1), [3, 3, 3, 3, 3, 67, 3, 3]);
    assert_eq!(Library.build(&empty, &mut rooms), 0);
    assert_eq!(rooms.untouched(), Ok(()));
    let passing = BuildCall { counts: vec![0], groups: vec![0], kinds: vec![0], ..empty };
    let mut rooms = BuildRooms::new(&mut Random::new(1), [6, 1, 1, 1, 0, 72, 0, 192]);
    assert_eq!(Library.build(&passing, &mut rooms), 1);
}

#[test]
fn every_refusal_of_the_empty_call() {
    let refused = |call: BuildCall| {
        let mut rooms = BuildRooms::new(&mut Random::new(2), [0, 0, 0, 0, 0, 64, 0, 0]);
        Library.build(&call, &mut rooms)
    };
    let empty = BuildCall::default;
    assert_eq!(refused(BuildCall { wkb_type: 0, groups: vec![0], ..empty() }), -12);
    assert_eq!(refused(BuildCall { wkb_type: 3002, ..empty() }), 0);
    assert_eq!(refused(BuildCall { groups: vec![0], ..empty() }), -2);
    assert_eq!(refused(BuildCall { kinds: vec![2], ..empty() }), -2);
    assert_eq!(refused(BuildCall { coordinates: vec![0], ..empty() }), -4);
    assert_eq!(refused(BuildCall { coordinates: vec![0; 200_000], ..empty() }), -4);
    assert_eq!(refused(BuildCall { switch: 2, ..empty() }), -6);
    assert_eq!(refused(BuildCall { switch: 1, limit: u64::MAX, ..empty() }), -6);
    assert_eq!(refused(BuildCall { switch: 0, limit: u64::MAX, ..empty() }), 0);
    for origin in [[0, u64::MAX], [u64::MAX, 0]] {
        assert_eq!(refused(BuildCall { origin, ..empty() }), -17);
        assert_eq!(refused(BuildCall { origin, tolerance: 1f64.to_bits(), ..empty() }), -17);
        assert_eq!(refused(BuildCall { origin, switch: 2, ..empty() }), -6);
    }
}

#[test]
fn every_number_that_is_no_type() {
    let (name, call) = accepted().remove(0);
    for wkb_type in NO_TYPES {
        let call = BuildCall { wkb_type, ..call.clone() };
        assert_eq!(compare_build(&Library, Judge::Model, &call, 1), Ok(()), "{name} {wkb_type}");
    }
}

#[test]
fn extras_may_be_any_double() {
    for (name, call) in &accepted()[..SMALL] {
        let stride = call.stride();
        for lost in NO_PLACES {
            let mut call = call.clone();
            for numbers in call.coordinates.chunks_mut(stride) {
                numbers[2..].fill(lost);
            }
            assert_eq!(compare_build(&Library, Judge::Model, &call, lost), Ok(()), "{name}");
        }
    }
}

#[test]
fn every_finite_origin_is_taken() {
    let mut random = Random::new(13);
    let mut call = accepted().remove(0).1;
    for k in 0..2_000u64 {
        call.tolerance = random.pick(&[0f64, 1.0, -1.0, f64::NAN, 1e-300]).to_bits();
        call.origin = [if k < 64 { 1 << k } else { random.bits() }, random.bits()];
        assert_eq!(compare_build(&Library, Judge::Model, &call, k), Ok(()), "{call}");
    }
}

#[test]
fn no_tolerance_is_refused() {
    let mut random = Random::new(9);
    let mut call = accepted().remove(0).1;
    for k in 0..2_000u64 {
        call.tolerance = if k < 64 { 1 << k } else { random.bits() };
        assert_eq!(compare_build(&Library, Judge::Model, &call, k), Ok(()));
    }
}
