//! Ports that pair wrongly, or tell wrong reasons.

use crate::answers_of::{self, right_pairs, right_reason};
use crate::doors::Pretended;
use crate::{caught_asking, caught_pairing};
use answers::WhyCall;
use compare::run::{run, Plan};
use compare::Judge;

/// Tests that a port which tells wrong reasons is caught on a question of so many ends at most, by
/// a sentence that ends as given.
#[track_caller]
fn assert_told_wrongly(told: fn(&WhyCall) -> i64, ends: usize, sentence_ends: &str) {
    let (call, sentence) = caught_asking(Pretended { told, ..Pretended::default() });
    assert!(call.pairing.ends() <= ends, "not small:\n{call}");
    assert!(sentence.ends_with(sentence_ends), "{sentence}");
}

#[test]
fn ties_by_partner() {
    let wrong = Pretended { pairs: answers_of::ties_by_partner, ..Pretended::default() };
    let (call, sentence) = caught_pairing(wrong);
    assert!(call.ends() <= 5, "not small:\n{call}");
    assert!(sentence.contains("pairs["), "{sentence}");
}

#[test]
fn no_pairs_at_all() {
    let wrong = Pretended { pairs: |_| vec![], ..Pretended::default() };
    let (call, sentence) = caught_pairing(wrong);
    assert_eq!(call.ends(), 2, "not small:\n{call}");
    assert!(sentence.contains("the answer is 0, not 1 pairs"), "{sentence}");
}

#[test]
fn a_direction_of_zeros_taken_for_absent() {
    let wrong = Pretended { pairs: answers_of::zeros_absent, ..Pretended::default() };
    let (call, _) = caught_pairing(wrong);
    assert_eq!(call.ends(), 2, "not small:\n{call}");
}

#[test]
fn every_reason_is_asked_for() {
    let plan = Plan { first: 0, calls: 2_000, seed: 11, jobs: 2 };
    let (tally, _) = run(&Pretended::default(), Judge::Model, plan, &|_| ());
    let told: Vec<_> = tally.told.keys().copied().collect();
    let all = ["absent direction", "blocked", "no two ends", "not qualifying", "same piece"];
    assert_eq!(told, [&all[..], &["selected"]].concat());
}

#[test]
fn the_last_pair_that_blocks() {
    assert_told_wrongly(answers_of::last_that_blocks, 4, "not 4 (blocked)");
}

#[test]
fn an_absent_direction_before_one_piece() {
    assert_told_wrongly(answers_of::absent_before_same_piece, 2, "is 2, not 1 (same piece)");
}

#[test]
fn the_order_of_the_ends_minded() {
    assert_told_wrongly(answers_of::order_minded, 2, "is 4, not 0 (selected)");
}

#[test]
fn one_end_taken_for_two() {
    assert_told_wrongly(answers_of::one_end_taken_for_two, 1, "is 1, not -26 (no two ends)");
}

#[test]
fn a_question_that_writes_no_pairs() {
    let wrong = Pretended {
        after_why: |rooms, call| {
            if right_reason(call) >= 0 && !right_pairs(&call.pairing).is_empty() {
                rooms.pairs.lent()[0] = u32::MAX;
            }
        },
        ..Pretended::default()
    };
    let (call, sentence) = caught_asking(wrong);
    assert_eq!(call.pairing.ends(), 2, "not small:\n{call}");
    assert_eq!(sentence, "pairs[0] is 0xffffffff, not 0x0");
}

#[test]
fn a_refused_question_that_stores() {
    let wrong = Pretended {
        after_why: |rooms, call| {
            if right_reason(call) < 0 && call.pairing.ends() > 0 {
                rooms.workspace.lent()[0] = 3;
            }
        },
        ..Pretended::default()
    };
    let (call, sentence) = caught_asking(wrong);
    assert_eq!(call.pairing.ends(), 1, "not small:\n{call}");
    assert!(sentence.contains("workspace[0]"), "{sentence}");
}
