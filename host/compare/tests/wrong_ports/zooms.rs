//! Ports that build in two calls wrongly.

use crate::doors::Pretended;
use crate::{caught_building, pieces_of};
use answers::{BuildCall, Built, FinishCall, Pieces};
use compare::calls::{numbered, Call, Numbered};
use compare::run::{run, Difference, Plan};
use compare::zooms::compare_finish;
use compare::Judge;

const SEED: u64 = 11;

/// The small pieces on which a wrong port is caught, and the sentence about it. Pieces alone are tried, of which
/// there are few among all calls.
fn caught(wrong: &Pretended) -> (FinishCall, String) {
    let differs = |first: &u64| match numbered(SEED, *first) {
        Numbered { call: Call::Finish(call), rooms, .. } => {
            compare_finish(wrong, &call, rooms).is_err()
        }
        _ => false,
    };
    let first = (0..80_000).find(differs).expect("the wrong port is caught");
    let plan = Plan { first, calls: 1, seed: SEED, jobs: 1 };
    match run(wrong, Judge::Model, plan, &|_| ()).1 {
        Some(Difference { call: Call::Finish(call), sentence, .. }) => (call, sentence),
        other => panic!("caught on another call: {other:?}"),
    }
}

/// Tests that a port which finishes so is caught on so many lines at most, by a sentence that begins so.
#[track_caller]
fn assert_finished_wrongly(
    finish: fn(&FinishCall, bool) -> Result<Built, i64>,
    lines: usize,
    sentence: &str,
) {
    let (call, told) = caught(&Pretended { finish, ..Pretended::default() });
    assert!(call.lines.lines() <= lines, "not small:\n{call}");
    assert!(told.starts_with(sentence), "{told}");
}

/// Tests that a port which leaves such pieces is caught, on a building call.
#[track_caller]
fn assert_left_wrongly(first: fn(&BuildCall) -> Result<Pieces, i64>) {
    let (call, sentence) = caught_building(Pretended { first, ..Pretended::default() });
    assert!(call.lines() <= 2, "not small:\n{call}");
    assert!(sentence.contains("the first"), "{sentence}");
}

#[test]
fn clauses_of_19_let_through() {
    for finish in pieces_of::LETTING {
        assert_finished_wrongly(finish, 4, "the answer is 0, not refusal 19");
    }
    let let_through = pieces_of::mark_let_through;
    assert_finished_wrongly(let_through, 2, "the answer is 0, not refusal 19");
}

#[test]
fn refusals_in_another_order() {
    assert_finished_wrongly(pieces_of::room_first, 2, "the answer is -7, not refusal 19");
    assert_finished_wrongly(pieces_of::pieces_first, 1, "the answer is -19, not refusal 17");
}

#[test]
fn pieces_not_taken_as_they_are_lent() {
    assert_finished_wrongly(pieces_of::lines_built_anew, 2, "");
    assert_finished_wrongly(pieces_of::round_two_skipped, 2, "");
    assert_finished_wrongly(pieces_of::marks_anew, 2, "marks[");
    assert_finished_wrongly(pieces_of::members_for_the_listing, 2, "listing[");
}

#[test]
fn rooms_that_are_not_as_they_should_be() {
    let dirty = Pretended {
        after_finish: |rooms, call| {
            if call.lines.lines() > 0 {
                rooms.workspace.lent()[0] = 1;
            }
        },
        ..Pretended::default()
    };
    assert!(caught(&dirty).1.starts_with("workspace[0] is "));
}

#[test]
fn other_pieces_left() {
    assert_left_wrongly(pieces_of::records_of_six);
    assert_left_wrongly(pieces_of::passing_pieces);
    assert_left_wrongly(pieces_of::origin_refused);
}
