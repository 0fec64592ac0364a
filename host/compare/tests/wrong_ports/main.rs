//! Deliberately wrong ports are caught, and what they get wrong is shown on a small call.

mod answers_of;
mod boxes_of;
mod building;
mod checks;
mod districts;
mod doors;
mod extras;
mod listings;
mod origins;
mod pairing;
mod pieces_of;
mod rooms;
mod verdicts_of;
mod windows;
mod zooms;

use answers::{BuildCall, PairingCall, WhyCall};
use compare::calls::Call;
use compare::run::{run, Difference, Plan};
use compare::{Door, Judge, Library};
use doors::{OtherLimit, Pretended, WithOffsets};

fn first_difference(door: &dyn Door) -> Difference {
    let plan = Plan { first: 0, calls: 8_000, seed: 11, jobs: 2 };
    let (_, difference) = run(door, Judge::Model, plan, &|_| ());
    difference.expect("the wrong port is caught")
}

/// The small building call on which a wrong port is caught, and the sentence about it.
fn caught_building(door: Pretended) -> (BuildCall, String) {
    match first_difference(&door) {
        Difference { call: Call::Build(call), sentence, .. } => (call, sentence),
        other => panic!("caught on another call: {other}"),
    }
}

/// The small pairing call on which a wrong port is caught, and the sentence about it.
fn caught_pairing(door: Pretended) -> (PairingCall, String) {
    match first_difference(&door) {
        Difference { call: Call::Pairs(call), sentence, .. } => (call, sentence),
        other => panic!("caught on another call: {other}"),
    }
}

/// The small question on which a wrong port is caught, and the sentence about it.
fn caught_asking(door: Pretended) -> (WhyCall, String) {
    match first_difference(&door) {
        Difference { call: Call::Why(call), sentence, .. } => (call, sentence),
        other => panic!("caught on another call: {other}"),
    }
}

#[track_caller]
fn assert_small(call: &BuildCall, lines: usize, points: usize) {
    let numbers = call.stride() * points;
    assert!(call.lines() <= lines && call.coordinates.len() <= numbers, "not small:\n{call}");
}

#[test]
fn the_right_port_passes() {
    let plan = Plan { first: 0, calls: 500, seed: 3, jobs: 2 };
    for judge in [Judge::Model, Judge::find().0] {
        let (tally, difference) = run(&Pretended::default(), judge, plan, &|_| ());
        assert!(difference.is_none(), "{}", difference.unwrap());
        assert_eq!(tally.calls(), 500);
    }
}

#[test]
fn the_library_passes() {
    let plan = Plan { first: 0, calls: 500, seed: 4, jobs: 2 };
    let (_, difference) = run(&Library, Judge::find().0, plan, &|_| ());
    assert!(difference.is_none(), "{}", difference.unwrap());
}

#[test]
fn everything_refused() {
    let wrong = Pretended { refusal: Some(7), ..Pretended::default() };
    let sentence = first_difference(&wrong).sentence;
    assert!(sentence.contains("the answer is -7, not 0"), "{sentence}");
}

#[test]
fn a_difference_is_printed_as_bits() {
    let wrong = Pretended { build: answers_of::unturned, ..Pretended::default() };
    let text = first_difference(&wrong).to_string();
    assert!(text.contains("made small: marks["), "{text}");
    assert!(text.contains("3ff0000000000000 (1.0)"), "{text}");
}

/// The limit of an offset without its sign, and the limit of the least offset for all.
#[test]
fn other_limits_of_offsets() {
    for other in [|limit: f64| -limit, |_| -1.0] {
        let port = WithOffsets(Pretended::default(), OtherLimit(other));
        let Difference { sentence, .. } = first_difference(&port);
        assert!(sentence.starts_with("with an offset in the limit's place: "), "{sentence}");
    }
    let right = WithOffsets(Pretended::default(), OtherLimit(|limit| limit));
    let plan = Plan { first: 0, calls: 500, seed: 11, jobs: 2 };
    assert!(run(&right, Judge::Model, plan, &|_| ()).1.is_none());
}
