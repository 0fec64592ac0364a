//! Damaged deliveries of chains: the first refusal that applies, from every state and beside every other,
//! with nothing written.

use crate::building_damages::{self, accepted, SMALL};
use crate::{damaged, short_rooms, Damage, Lent};
use answers::model::built;
use answers::random::Random;
use answers::styles::deliveries::{as_built, laid_out};
use answers::{BuildCall, CheckCall, RECORD};
use compare::checks::compare_check;
use compare::room::{Dirt, Room};
use compare::{Door, Library};

type LentChains = Lent<CheckCall, 1>;
type ChainDamage = Damage<CheckCall, 1>;

/// The refusals in the order of checking. 6 is none of them: no switch and no limit are lent.
const IN_ORDER: [i64; 13] = [12, 1, 2, 3, 4, 5, 20, 21, 15, 17, 7, 23, 24];

/// The chains of a call, close together and in their order.
fn chains_of(lines: &BuildCall) -> CheckCall {
    let chains = as_built(lines, &built(lines));
    let mut random = Random::new(0);
    loop {
        let call = laid_out(&mut random, lines.clone(), &chains);
        if compare_check(&Library, &call, 1) == Ok(answers::model::acceptable::Verdict::Accepted) {
            return call;
        }
    }
}

/// Calls that are accepted, each at an edge of the refusals.
fn bases() -> Vec<(&'static str, CheckCall)> {
    let of = |(name, lines): (&'static str, BuildCall)| (name, chains_of(&lines));
    accepted().into_iter().map(of).collect()
}

fn put(lent: &LentChains, seed: u64) -> (i64, Result<(), String>) {
    let lines = lent.call.lines.lines();
    let length = if lines > 4_096 { 500 } else { lent.left([192 * lines])[0] };
    let mut workspace = Room::new(Dirt::some(&mut Random::new(seed)), length);
    let answer = Library.check(&lent.call, &mut workspace);
    (answer, workspace.untouched("workspace"))
}

fn expect(refusal: i64, lent: &LentChains, name: &str) {
    let (answer, room) = put(lent, refusal as u64);
    assert_eq!(answer, -refusal, "{name}");
    assert_eq!(room, Ok(()), "{name}");
}

fn damage(refusal: i64, name: &str, apply: impl Fn(&mut CheckCall) + 'static) -> ChainDamage {
    crate::damage(refusal, name, apply)
}

/// Damages of records: what they name is not there.
fn of_records() -> Vec<ChainDamage> {
    let number = |k: usize, number: u32| {
        move |call: &mut CheckCall| {
            let first = call.table.len().min(k);
            call.table.iter_mut().skip(first).take(1).for_each(|it| *it = number);
        }
    };
    vec![
        damage(23, "one more chain", |call| {
            call.table.truncate(RECORD * call.k as usize);
            call.k += 1;
        }),
        damage(23, "as many chains as there can be", |call| call.k = u64::MAX),
        damage(23, "chains whose sixfold adds up but for 2^64", |call| {
            call.table.truncate(RECORD * call.k as usize);
            call.k += (1 << 63) / 3 * 2 + 1;
        }),
        damage(23, "a record short by one", |call| {
            call.table.truncate(RECORD * call.k as usize - 1);
        }),
        damage(23, "no table", |call| call.table.clear()),
        damage(23, "source 2", number(2, 2)),
        damage(23, "the greatest source", number(2, u32::MAX)),
        damage(23, "the greatest first coordinate", number(3, u32::MAX)),
        damage(23, "the greatest number of coordinates", number(4, u32::MAX)),
        damage(23, "the greatest first line", number(0, u32::MAX)),
        damage(23, "the greatest number of lines", number(1, u32::MAX)),
        damage(23, "a first line beyond the listing, of no lines", |call| {
            let beyond = call.listing.len() as u32 + 1;
            call.table.splice(0..0, [beyond, 0, 1, 0, 0, 0]);
            call.k += 1;
        }),
        damage(23, "no listing", |call| call.listing.clear()),
        damage(23, "the last line listed not below n", |call| {
            let n = call.lines.lines() as u32;
            call.listing.iter_mut().for_each(|line| *line = (*line).max(n - 1) + 1);
        }),
        damage(23, "lines listed as the greatest number", |call| call.listing.fill(u32::MAX)),
    ]
}

/// Damages of what chains are.
fn of_chains() -> Vec<ChainDamage> {
    vec![
        damage(24, "the last chain not counted", |call| call.k -= 1),
        damage(24, "the first chain twice", |call| {
            let record = call.table[..RECORD].to_vec();
            call.table.splice(0..0, record);
            call.k += 1;
        }),
        damage(24, "a chain of no lines with a coordinate", |call| {
            call.merged.extend(vec![0; call.lines.stride()]);
            let last = (call.merged.len() / call.lines.stride()) as u32 - 1;
            call.table.splice(0..0, [0, 0, 1, last, 1, 0]);
            call.k += 1;
        }),
        damage(24, "the first chain without its coordinates", |call| call.table[4] = 0),
    ]
}

/// Every damage: those of lines, of the corner and of the room as in building, then those of records and
/// of chains.
fn damages() -> Vec<ChainDamage> {
    let mut all: Vec<ChainDamage> = Vec::new();
    for of_lines in building_damages::of_lines() {
        let (refusal, name) = (of_lines.refusal, of_lines.name.clone());
        all.push(damage(refusal, &name, move |call| {
            let mut lent = Lent { call: call.lines.clone(), short: [None; 8] };
            of_lines.apply_to(&mut lent);
            call.lines = lent.call;
        }));
    }
    all.extend(short_rooms(["workspace"]));
    all.extend(of_records());
    all.extend(of_chains());
    all
}

#[test]
fn undamaged_deliveries_are_accepted() {
    for (name, call) in bases() {
        let lent = Lent { call, short: [None] };
        assert_eq!(put(&lent, 3).0, 0, "{name}");
        // Without any chain every line is left out, and no record is looked at.
        let none = CheckCall { k: 0, table: vec![], ..lent.call };
        expect(24, &Lent { call: none, short: [None] }, name);
    }
}

#[test]
fn each_damage_at_every_edge() {
    for (base, call) in bases() {
        for damage in damages() {
            let (refusal, lent, name) = damaged(&call, &[&damage]);
            expect(refusal, &lent, &format!("{base}: {name}"));
        }
    }
}

#[test]
fn two_damages_at_once() {
    let all = damages();
    for (base, call) in &bases()[1..3] {
        for (k, one) in all.iter().enumerate() {
            for other in all[k + 1..].iter().filter(|other| other.refusal != one.refusal) {
                let (refusal, lent, name) = damaged(call, &[one, other]);
                expect(refusal, &lent, &format!("{base}: {name}"));
            }
        }
    }
}

#[test]
fn many_damages_at_once() {
    let (all, bases) = (damages(), bases());
    let mut random = Random::new(12);
    for _ in 0..1_000 {
        let mut some = Vec::new();
        for refusal in IN_ORDER {
            let of: Vec<_> = all.iter().filter(|damage| damage.refusal == refusal).collect();
            if random.one_in(2) {
                some.push(random.pick(&of));
            }
        }
        let (base, call) = &bases[random.below(SMALL)];
        if !some.is_empty() {
            let (refusal, lent, name) = damaged(call, &some);
            expect(refusal, &lent, &format!("{base}: {name}"));
        }
    }
}

#[test]
fn the_empty_delivery() {
    let empty = CheckCall::default();
    let ask = |call: &CheckCall| put(&Lent { call: call.clone(), short: [None] }, 5).0;
    assert_eq!(ask(&empty), 0);
    // Chains of no lines may be any number, and what lies behind them is not looked at.
    let nothing = CheckCall { k: 2, table: vec![0, 0, 1, 0, 0, 7, 0, 0, 0, 0, 0, 9, 1], ..empty };
    assert_eq!(ask(&nothing), 0);
    assert_eq!(ask(&CheckCall { k: 3, ..nothing.clone() }), -23);
    assert_eq!(ask(&CheckCall { table: vec![1; 12], ..nothing }), -23);
}
