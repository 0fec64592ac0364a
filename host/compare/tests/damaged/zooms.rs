//! Damaged first and finishing calls: the first refusal that applies, from every state and beside every other, with
//! nothing written.

use crate::building_damages::{self, accepted, SMALL};
use crate::{damaged, short_rooms, Damage, Lent};
use answers::model::parting::left;
use answers::random::Random;
use answers::{BuildCall, FinishCall, Pieces, PIECE};
use compare::zooms::{FinishRooms, FirstRooms};
use compare::{Door, Library};

type FirstDamage = Damage<BuildCall, 6>;
type FinishDamage = Damage<FinishCall, 7>;

/// The damages of building, each as one of a call with other rooms, as far as the refusal is one of these.
fn of_building<C: 'static, const ROOMS: usize>(
    refusals: &'static [i64],
    lines: fn(&mut C) -> &mut BuildCall,
) -> Vec<Damage<C, ROOMS>> {
    let all = building_damages::damages().into_iter();
    let some = all.filter(|damage| refusals.contains(&damage.refusal));
    some.map(|building| {
        let (refusal, name) = (building.refusal, building.name.clone());
        crate::damage(refusal, &name, move |call: &mut C| {
            let mut lent = Lent { call: lines(call).clone(), short: [None; 8] };
            building.apply_to(&mut lent);
            *lines(call) = lent.call;
        })
    })
    .collect()
}

/// The refusals of the first call in the order of checking, and of the second.
const FIRST: &[i64] = &[12, 1, 2, 3, 4, 5, 20, 21, 15, 6, 7];
const SECOND: &[i64] = &[12, 1, 2, 3, 4, 5, 20, 21, 15, 6, 17, 19, 7];

fn first_damages() -> Vec<FirstDamage> {
    let mut all = of_building(&FIRST[..10], |call| call);
    all.extend(short_rooms(["pieces", "members", "marks", "listing", "merged", "workspace"]));
    all
}

fn damage(name: &str, apply: impl Fn(&mut FinishCall) + 'static) -> FinishDamage {
    crate::damage(19, name, apply)
}

/// Damages of pieces; calls that are accepted have one at least.
fn of_pieces() -> Vec<FinishDamage> {
    vec![
        damage("one piece more", |call| {
            call.pieces.records.truncate(PIECE * call.pieces.k as usize);
            call.pieces.k += 1;
        }),
        damage("as many pieces as there can be", |call| call.pieces.k = u64::MAX),
        damage("pieces whose fivefold adds up but for 2^64", |call| {
            call.pieces.k = call.pieces.k.wrapping_add(0x3333_3333_3333_3333);
        }),
        damage("the last piece not counted", |call| call.pieces.k -= 1),
        damage("no records", |call| call.pieces.records.clear()),
        damage("no members", |call| call.pieces.members.clear()),
        damage("no marks", |call| call.pieces.marks.clear()),
        damage("no listing", |call| call.pieces.listing.clear()),
        damage("a first member that is the greatest", |call| call.pieces.records[0] = u32::MAX),
        damage("a number of members that is the greatest", |call| {
            call.pieces.records[1] = u32::MAX
        }),
        damage("source 2", |call| call.pieces.records[2] = 2),
        damage("a first coordinate that is the greatest", |call| call.pieces.records[3] = u32::MAX),
        damage("a number of coordinates that is the greatest", |call| {
            call.pieces.records[4] = u32::MAX;
        }),
        damage("a piece of no line", |call| call.pieces.records[1] = 0),
        damage("a piece of no coordinate", |call| call.pieces.records[4] = 0),
        damage("a member that is no line", |call| call.pieces.members[0] = u32::MAX),
        damage("a listed line that is none", |call| call.pieces.listing[0] = u32::MAX),
        damage("a mark of 2", |call| call.pieces.marks[0] = 2),
        damage("every mark 255", |call| call.pieces.marks.fill(255)),
    ]
}

fn finish_damages() -> Vec<FinishDamage> {
    let mut all = of_building(&SECOND[..11], |call: &mut FinishCall| &mut call.lines);
    all.extend(of_pieces());
    let rooms = ["table", "members", "marks", "listing", "merged", "boxes", "workspace"];
    all.extend(short_rooms(rooms));
    all
}

/// Calls that the second accepts, each at an edge of the refusals, with the pieces that the first leaves. One
/// without any is left out.
fn finishes() -> Vec<(&'static str, FinishCall)> {
    let of = |(name, lines): (&'static str, BuildCall)| {
        (name, FinishCall { pieces: left(&lines), lines })
    };
    let all = accepted().into_iter().map(of);
    all.filter(|(_, call)| call.pieces.k > 0).collect()
}

fn expect_first(refusal: i64, lent: &Lent<BuildCall, 6>, name: &str) {
    let lengths = match lent.call.lines() {
        0..=4_096 => lent.left(FirstRooms::lengths(&lent.call)),
        _ => [500; 6],
    };
    let mut rooms = FirstRooms::new(&mut Random::new(refusal as u64), lengths);
    assert_eq!(Library.first(&lent.call, &mut rooms), -refusal, "{name}");
    assert_eq!(rooms.untouched(), Ok(()), "{name}");
}

fn expect_finish(refusal: i64, lent: &Lent<FinishCall, 7>, name: &str) {
    let lengths = match lent.call.lines.lines() {
        0..=4_096 => lent.left(FinishRooms::lengths(&lent.call.lines)),
        _ => [500; 7],
    };
    let mut rooms = FinishRooms::new(&mut Random::new(refusal as u64), lengths);
    assert_eq!(Library.finish(&lent.call, &mut rooms), -refusal, "{name}");
    assert_eq!(rooms.untouched(), Ok(()), "{name}");
}

#[test]
fn each_damage_at_every_edge() {
    for (base, call) in accepted() {
        for damage in first_damages() {
            let (refusal, lent, name) = damaged(&call, &[&damage]);
            expect_first(refusal, &lent, &format!("{base}: {name}"));
        }
    }
    for (base, call) in finishes() {
        for damage in finish_damages() {
            let (refusal, lent, name) = damaged(&call, &[&damage]);
            expect_finish(refusal, &lent, &format!("{base}: {name}"));
        }
    }
}

#[test]
fn two_damages_at_once() {
    let (first, finish) = (first_damages(), finish_damages());
    for (base, call) in &accepted()[1..2] {
        for (k, one) in first.iter().enumerate() {
            for other in first[k + 1..].iter().filter(|other| other.refusal != one.refusal) {
                let (refusal, lent, name) = damaged(call, &[one, other]);
                expect_first(refusal, &lent, &format!("{base}: {name}"));
            }
        }
    }
    for (base, call) in &finishes()[..1] {
        for (k, one) in finish.iter().enumerate() {
            for other in finish[k + 1..].iter().filter(|other| other.refusal != one.refusal) {
                let (refusal, lent, name) = damaged(call, &[one, other]);
                expect_finish(refusal, &lent, &format!("{base}: {name}"));
            }
        }
    }
}

#[test]
fn many_damages_at_once() {
    let (all, bases) = (finish_damages(), finishes());
    let mut random = Random::new(9);
    for _ in 0..1_000 {
        let mut some = Vec::new();
        for refusal in SECOND {
            let of: Vec<_> = all.iter().filter(|damage| damage.refusal == *refusal).collect();
            if random.one_in(2) {
                some.push(random.pick(&of));
            }
        }
        let (base, call) = &bases[random.below(SMALL.min(bases.len()))];
        if !some.is_empty() {
            let (refusal, lent, name) = damaged(call, &some);
            expect_finish(refusal, &lent, &format!("{base}: {name}"));
        }
    }
}

#[test]
fn calls_without_lines_and_without_pieces() {
    let empty = BuildCall::default();
    let mut rooms = FirstRooms::new(&mut Random::new(1), [0; 6]);
    assert_eq!(Library.first(&empty, &mut rooms), 0);
    // An origin that is no place is none of the first call's, and one of the second's.
    let adrift = BuildCall { origin: [u64::MAX; 2], ..empty };
    assert_eq!(Library.first(&adrift, &mut rooms), 0);
    let finish = |lines: &BuildCall, pieces: &Pieces, boxes: usize| {
        let lengths = [0, 0, 0, 0, 0, boxes, 0];
        let mut rooms = FinishRooms::new(&mut Random::new(1), lengths);
        let call = FinishCall { lines: lines.clone(), pieces: pieces.clone() };
        Library.finish(&call, &mut rooms)
    };
    let (none, one) = (Pieces::default(), Pieces { k: 1, ..Pieces::default() });
    let lines = BuildCall { origin: [0; 2], ..adrift.clone() };
    assert_eq!(finish(&lines, &none, 64), 0);
    assert_eq!(finish(&lines, &none, 63), -7);
    assert_eq!(finish(&lines, &one, 63), -19);
    assert_eq!(finish(&adrift, &one, 63), -17);
    assert_eq!(finish(&BuildCall { switch: 2, ..adrift }, &one, 63), -6);
}
