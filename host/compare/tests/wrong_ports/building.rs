//! Ports that build wrongly.

use crate::doors::Pretended;
use crate::{answers_of, assert_small, caught_building};
use answers::{BuildCall, Built};

/// Tests that a port which builds wrongly is caught on a call of so many lines and points at most,
/// by a sentence that begins as given.
#[track_caller]
fn assert_caught(build: fn(&BuildCall) -> Built, lines: usize, points: usize, begins: &str) {
    let (call, sentence) = caught_building(Pretended { build, ..Pretended::default() });
    assert_small(&call, lines, points);
    assert!(sentence.starts_with(begins), "{sentence}");
}

#[test]
fn repeats_kept() {
    assert_caught(answers_of::repeats_kept, 2, 4, "table[4] is 0x");
}

#[test]
fn members_reversed() {
    assert_caught(answers_of::members_reversed, 3, 6, "members[");
}

#[test]
fn marks_all_zero() {
    assert_caught(answers_of::unturned, 2, 4, "marks[");
}

#[test]
fn single_lines_alone() {
    assert_caught(answers_of::single_lines, 2, 4, "the answer is 2, not 1 chains");
}

#[test]
fn one_zero_as_key() {
    assert_caught(answers_of::one_zero, 2, 4, "");
}

#[test]
fn loops_by_value() {
    assert_caught(answers_of::loops_by_value, 2, 4, "table[5] is 0x1, not 0x0");
}

#[test]
fn loops_of_two() {
    assert_caught(answers_of::loops_of_two, 1, 2, "table[5] is 0x1, not 0x0");
}

#[test]
fn loops_of_four() {
    assert_caught(answers_of::loops_of_four, 1, 3, "table[5] is 0x0, not 0x1");
}

#[test]
fn loops_of_merged_chains_alone() {
    assert_caught(answers_of::loops_of_merged_alone, 1, 3, "table[5] is 0x0, not 0x1");
}

#[test]
fn loops_by_x_alone() {
    assert_caught(answers_of::loops_by_x, 2, 4, "table[5] is 0x1, not 0x0");
}

#[test]
fn loops_by_extras_too() {
    assert_caught(answers_of::loops_by_extras, 1, 3, "table[5] is 0x0, not 0x1");
}

#[test]
fn records_of_five_numbers() {
    let wrong = Pretended {
        after_build: |rooms, call| {
            let five: Vec<u32> = answers_of::right(call)
                .table
                .iter()
                .flat_map(|record| record[..5].to_vec())
                .collect();
            rooms.table.lent().iter_mut().zip(five).for_each(|(number, five)| *number = five);
        },
        ..Pretended::default()
    };
    let (call, sentence) = caught_building(wrong);
    assert_small(&call, 2, 0);
    assert!(sentence.starts_with("table["), "{sentence}");
}

#[test]
fn round_two_skipped() {
    let wrong = Pretended { build: answers_of::exact_alone, ..Pretended::default() };
    let (call, _) = caught_building(wrong);
    assert_small(&call, 2, 4);
    assert!(f64::from_bits(call.tolerance) > 0.0);
}

/// Tests that a port which lets some coordinates through is caught on one line of one point.
#[track_caller]
fn assert_let_through(nowhere: fn(&BuildCall) -> bool) -> BuildCall {
    let (call, sentence) = caught_building(Pretended { nowhere, ..Pretended::default() });
    assert_small(&call, 1, 1);
    assert_eq!(sentence, "the answer is 1, not refusal 15");
    call
}

/// True where a line that the test asks for has a coordinate of which the other test holds.
fn has(call: &BuildCall, looked_at: fn(&BuildCall, usize) -> bool, lost: fn(f64) -> bool) -> bool {
    let mut lines = call.firsts().into_iter().enumerate();
    lines.any(|(line, first)| {
        let points = call.points(line, first);
        let mut numbers = points.iter().flatten().map(|&bits| f64::from_bits(bits));
        looked_at(call, line) && numbers.any(lost)
    })
}

#[test]
fn infinities_let_through() {
    let call = assert_let_through(|call| has(call, |_, _| true, f64::is_nan));
    assert!(call.coordinates.iter().any(|&bits| f64::from_bits(bits).is_infinite()), "{call}");
}

#[test]
fn nans_let_through() {
    let call = assert_let_through(|call| has(call, |_, _| true, f64::is_infinite));
    assert!(call.coordinates.iter().any(|&bits| f64::from_bits(bits).is_nan()), "{call}");
}

#[test]
fn lines_that_pass_through_not_looked_at() {
    assert_let_through(|call| has(call, |call, line| !call.passes(line), |x| !x.is_finite()));
}

#[test]
fn a_far_place_refused() {
    let nowhere =
        |call: &BuildCall| has(call, |_, _| true, |x| x.is_nan() || x.abs() >= 2f64.powi(1023));
    let (call, sentence) = caught_building(Pretended { nowhere, ..Pretended::default() });
    assert_small(&call, 1, 1);
    assert_eq!(sentence, "the answer is -15, not 1 chains");
}
