//! Ports that judge chains made elsewhere wrongly.

use crate::doors::Pretended;
use crate::verdicts_of;
use answers::CheckCall;
use compare::calls::{numbered, Call, Numbered};
use compare::checks::compare_check;
use compare::run::{run, Difference, Plan};
use compare::Judge;

const SEED: u64 = 11;

/// The small delivery on which a wrong port is caught, and the sentence about it. Deliveries alone are
/// tried, of which there are few among all calls.
fn caught(wrong: &Pretended) -> (CheckCall, String) {
    let differs = |first: &u64| match numbered(SEED, *first) {
        Numbered { call: Call::Check(call), rooms, .. } => {
            compare_check(wrong, &call, rooms).is_err()
        }
        _ => false,
    };
    let first = (0..80_000).find(differs).expect("the wrong port is caught");
    let plan = Plan { first, calls: 1, seed: SEED, jobs: 1 };
    match run(wrong, Judge::Model, plan, &|_| ()).1 {
        Some(Difference { call: Call::Check(call), sentence, .. }) => (call, sentence),
        other => panic!("caught on another call: {other:?}"),
    }
}

/// Tests that a port which judges so is caught on so many lines at most.
#[track_caller]
fn assert_judged_wrongly(check: fn(&CheckCall, usize) -> i64, lines: usize) {
    let (call, sentence) = caught(&Pretended { check, ..Pretended::default() });
    assert!(call.lines.lines() <= lines, "not small:\n{call}");
    assert!(sentence.starts_with("the answer is "), "{sentence}");
}

#[test]
fn clauses_not_asked_for() {
    assert_judged_wrongly(verdicts_of::groups_mixed, 2);
    assert_judged_wrongly(verdicts_of::passing_joined, 2);
    assert_judged_wrongly(verdicts_of::lines_not_counted, 1);
    assert_judged_wrongly(verdicts_of::meeting_not_asked, 2);
    assert_judged_wrongly(verdicts_of::coordinates_not_looked_at, 2);
    assert_judged_wrongly(verdicts_of::lone_lines_not_looked_at, 1);
}

#[test]
fn cells_without_their_origin_or_none() {
    assert_judged_wrongly(verdicts_of::without_origin, 2);
    assert_judged_wrongly(verdicts_of::without_cells, 2);
    assert_judged_wrongly(verdicts_of::nan_for_a_tolerance, 2);
}

#[test]
fn a_lone_line_by_value() {
    assert_judged_wrongly(verdicts_of::lone_by_value, 1);
}

#[test]
fn a_listing_read_as_members() {
    assert_judged_wrongly(verdicts_of::sorted_listing, 2);
}

#[test]
fn directions_chosen_greedily() {
    assert_judged_wrongly(verdicts_of::greedily, 3);
}

#[test]
fn records_looked_at_one_by_one() {
    assert_judged_wrongly(verdicts_of::record_by_record, 1);
}

#[test]
fn more_asked_for_than_the_request_does() {
    assert_judged_wrongly(verdicts_of::loop_mark_read, 1);
    assert_judged_wrongly(verdicts_of::no_lines_refused, 1);
    assert_judged_wrongly(verdicts_of::joined_in_source_0_refused, 1);
}

#[test]
fn a_workspace_that_is_not_as_it_should_be() {
    let written = Pretended {
        after_check: |workspace, call, answer| {
            if answer == -24 && call.lines.lines() > 0 {
                workspace.lent()[0] = !workspace.lent()[0];
            }
        },
        ..Pretended::default()
    };
    assert!(caught(&written).1.starts_with("workspace[0] is "));
    let left = Pretended {
        after_check: |workspace, call, answer| {
            if answer == 0 && call.lines.lines() > 0 {
                workspace.lent()[192 * call.lines.lines() - 1] = 1;
            }
        },
        ..Pretended::default()
    };
    assert!(caught(&left).1.starts_with("workspace["));
}
