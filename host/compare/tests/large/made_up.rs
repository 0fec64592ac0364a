//! Made-up calls, put as deliveries whose calls hold much or hardly anything.

use answers::random::Random;
use answers::styles::origins;
use answers::BuildCall;
use compare::calls::{numbered, Call, Numbered};
use compare::large::compare_delivery;
use compare::Judge;
use lovasuku_chains::large::Rooms;

/// Puts each of the building calls of a run in so many ways, and counts them.
fn compared(seed: u64, calls: u64, ways: u64) -> usize {
    let (judge, sentence) = Judge::find();
    println!("{sentence}");
    let mut rooms = Rooms::default();
    let mut compared = 0;
    for number in 0..calls {
        let Numbered { style, call, .. } = numbered(seed, number);
        let call = match call {
            Call::Build(call) if is_delivery(&call) => call,
            _ => continue,
        };
        for k in 0..ways {
            if let Err(fault) = compare_delivery(&mut rooms, judge, &call, number * ways + k) {
                panic!("call {number} of seed {seed}, {style}: {fault}\n{}", shown(&call));
            }
            compared += 1;
        }
    }
    compared
}

/// A type that is none has no lines, and many ends at one node take the model long.
fn is_delivery(call: &BuildCall) -> bool {
    answers::stride_of(call.wkb_type).is_some() && call.lines() < 600
}

fn shown(call: &BuildCall) -> String {
    let text = call.to_string();
    match text.len() < 6_000 {
        true => text,
        false => format!("{} lines", call.lines()),
    }
}

#[test]
fn made_up_calls_have_the_chains_of_the_judge() {
    let compared = compared(1, 6_000, 4);
    assert!(compared > 8_000, "{compared}");
    println!("{compared} deliveries compared");
}

/// A hundred times as many: `cargo test --release -p compare --test large -- --ignored`.
#[test]
#[ignore]
fn many_made_up_calls_have_the_chains_of_the_judge() {
    let compared = compared(2, 600_000, 4);
    println!("{compared} deliveries compared");
}

#[test]
fn cells_from_an_origin() {
    let (judge, _) = Judge::find();
    let mut random = Random::new(9);
    let mut rooms = Rooms::default();
    for seed in 0..300 {
        let lines = 1 + random.below(60);
        let call = origins::tiles(&mut random, lines);
        compare_delivery(&mut rooms, judge, &call, seed).unwrap();
    }
}
