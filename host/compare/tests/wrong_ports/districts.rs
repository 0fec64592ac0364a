//! Ports that judge shares wrongly, or let the two districts touch.

use crate::doors::Pretended;
use crate::{assert_small, caught_building};
use answers::model::built_by;
use answers::model::plane::{cell_key, exact_key};
use answers::{BuildCall, Built, Refusal};
use answers::{BORDER, DISTRICT_OVER_COORDINATES, DISTRICT_OVER_LINES};
use answers::{MOST_DISTRICT_LINES, MOST_DISTRICT_POINTS};
use compare::building::compare_build;
use compare::calls::{numbered, Call};
use compare::Judge;

/// Tests that a port which judges shares in another way is caught, by one of the sentences, on a call of
/// those that a run makes. A call over a share is never small.
#[track_caller]
fn assert_caught(over_share: fn(&BuildCall) -> Option<Refusal>, sentences: &[&str]) {
    let wrong = Pretended { over_share, ..Pretended::default() };
    let sentence = (0..2_000).find_map(|number| match numbered(11, number).call {
        Call::Build(call) => compare_build(&wrong, Judge::Model, &call, number).err(),
        _ => None,
    });
    let sentence = sentence.expect("the wrong port is caught");
    assert!(sentences.iter().any(|wanted| sentence.ends_with(wanted)), "{sentence}");
}

/// The refusal by lines and coordinates, each above or not.
fn refusal(lines: bool, points: bool) -> Option<Refusal> {
    match lines {
        true => Some(DISTRICT_OVER_LINES),
        false => points.then_some(DISTRICT_OVER_COORDINATES),
    }
}

/// True where one of two numbers is above the most.
fn either(brought: [usize; 2], most: usize) -> bool {
    brought.iter().any(|&number| number > most)
}

const OVER: [&str; 2] = ["not refusal 20", "not refusal 21"];

#[test]
fn shares_judged_together() {
    let together = |call: &BuildCall| {
        let [lines, points] = [call.lines_brought(), call.points_brought()].map(|[a, b]| a + b);
        refusal(lines > 2 * MOST_DISTRICT_LINES, points > 2 * MOST_DISTRICT_POINTS)
    };
    assert_caught(together, &OVER);
}

#[test]
fn shares_of_the_first_alone() {
    let first = |call: &BuildCall| {
        let [lines, points] = [call.lines_brought()[0], call.points_brought()[0]];
        refusal(lines > MOST_DISTRICT_LINES, points > MOST_DISTRICT_POINTS)
    };
    assert_caught(first, &OVER);
}

#[test]
fn one_line_more_let_through() {
    let more = |call: &BuildCall| {
        let points = either(call.points_brought(), MOST_DISTRICT_POINTS);
        refusal(either(call.lines_brought(), MOST_DISTRICT_LINES + 1), points)
    };
    assert_caught(more, &OVER[..1]);
}

#[test]
fn a_whole_share_refused() {
    let less = |call: &BuildCall| {
        let lines = either(call.lines_brought(), MOST_DISTRICT_LINES - 1);
        refusal(lines, either(call.points_brought(), MOST_DISTRICT_POINTS))
    };
    assert_caught(less, &["chains", "not refusal 21", "not refusal 15", "not refusal 17"]);
}

#[test]
fn coordinates_before_lines() {
    let exchanged = |call: &BuildCall| match either(call.points_brought(), MOST_DISTRICT_POINTS) {
        true => Some(DISTRICT_OVER_COORDINATES),
        false => call.over_share(),
    };
    assert_caught(exchanged, &["the answer is -21, not refusal 20"]);
}

#[test]
fn the_border_one_up() {
    let up = |call: &BuildCall| {
        let groups = call.groups.iter().map(|group| group.saturating_sub(1)).collect();
        BuildCall { groups, ..call.clone() }.over_share()
    };
    assert_caught(up, &["chains", "not refusal 20", "not refusal 21", "not refusal 15"]);
}

/// Takes groups without their top bit, so that the two districts touch.
fn without_the_district(call: &BuildCall) -> Built {
    let tolerance = f64::from_bits(call.tolerance);
    let exact = |group, point| exact_key(group & !BORDER, point);
    built_by(call, &exact, &|group, point| cell_key(group & !BORDER, point, call.origin, tolerance))
}

#[test]
fn groups_compared_without_their_district() {
    let wrong = Pretended { build: without_the_district, ..Pretended::default() };
    let (call, sentence) = caught_building(wrong);
    assert_small(&call, 2, 4);
    assert_eq!(call.lines_brought(), [1, 1]);
    assert_eq!(sentence, "the answer is 1, not 2 chains");
}
