//! Ports that get heights and measures wrong, and types.

use crate::doors::{Pretended, WithOffsets};
use crate::{answers_of, assert_small, caught_building, first_difference};
use answers::{BuildCall, Built};
use compare::calls::Call;
use compare::run::Difference;

/// Tests that a port which gets extras wrong is caught on a call that has some, of so many lines and
/// points at most, by a sentence that begins as given.
#[track_caller]
fn assert_extras_caught(build: fn(&BuildCall) -> Built, lines: usize, points: usize, begins: &str) {
    let (call, sentence) = caught_building(Pretended { build, ..Pretended::default() });
    assert!(call.wkb_type != 2, "{call}");
    assert_small(&call, lines, points);
    assert!(sentence.starts_with(begins), "{sentence}");
}

#[test]
fn the_later_one_s_extras_kept() {
    assert_extras_caught(answers_of::later_extras_kept, 2, 4, "merged[");
}

#[test]
fn extras_compared_as_if_they_were_places() {
    assert_extras_caught(answers_of::extras_compared, 2, 4, "table[4] is 0x");
}

#[test]
fn extras_left_out() {
    assert_extras_caught(answers_of::extras_left_out, 2, 4, "merged[");
}

#[test]
fn extras_at_the_other_end() {
    assert_extras_caught(answers_of::extras_unturned, 2, 4, "merged[");
}

#[test]
fn one_nan_for_all() {
    assert_extras_caught(answers_of::one_nan, 2, 4, "merged[");
}

#[test]
fn a_height_that_is_nan_refused() {
    let nowhere = |call: &BuildCall| {
        call.nowhere() || call.coordinates.iter().any(|&bits| f64::from_bits(bits).is_nan())
    };
    let (call, sentence) = caught_building(Pretended { nowhere, ..Pretended::default() });
    assert!(call.wkb_type != 2, "{call}");
    assert_small(&call, 1, 1);
    assert_eq!(sentence, "the answer is -15, not 1 chains");
}

#[test]
fn only_x_and_every_other_number_looked_at() {
    // As if a coordinate always had two numbers.
    let nowhere = |call: &BuildCall| {
        let places = call.coordinates.chunks(2).take(call.coordinates.len() / call.stride());
        places.flatten().any(|&bits| !f64::from_bits(bits).is_finite())
    };
    let (call, _) = caught_building(Pretended { nowhere, ..Pretended::default() });
    assert!(call.wkb_type != 2, "{call}");
    assert_small(&call, 2, 3);
}

#[test]
fn a_stride_of_two_for_every_type() {
    // The extras are read as the next coordinate's x and y, and the chains are no others in number.
    let build = |call: &BuildCall| {
        let flat = BuildCall { wkb_type: 2, coordinates: call.coordinates.clone(), ..call.clone() };
        let wrong = answers_of::right(&flat);
        Built { merged: wrong.merged, ..answers_of::right(call) }
    };
    let (call, _) = caught_building(Pretended { build, ..Pretended::default() });
    assert!(call.wkb_type != 2, "{call}");
    assert_small(&call, 2, 4);
}

#[test]
fn a_type_that_is_none_taken() {
    let wrong = Pretended { typed: |_| true, ..Pretended::default() };
    let (call, sentence) = caught_building(wrong);
    assert_small(&call, 1, 1);
    assert!(sentence.ends_with("not refusal 12"), "{sentence}");
}

#[test]
fn measures_taken_for_no_type() {
    let wrong = Pretended { typed: |t| [2, 1002, 3002].contains(&t), ..Pretended::default() };
    let (call, sentence) = caught_building(wrong);
    assert_eq!((call.wkb_type, call.lines()), (2002, 0), "{call}");
    assert_eq!(sentence, "the answer is -12, not 0 chains");
}

/// Calls with an offset that leave the extras out, where those with a limit keep them.
#[test]
fn extras_left_out_by_offset() {
    let wrong = Pretended { build: answers_of::extras_left_out, ..Pretended::default() };
    let Difference { call, sentence, .. } =
        first_difference(&WithOffsets(Pretended::default(), wrong));
    assert!(matches!(call, Call::Build(call) if call.wkb_type != 2));
    assert!(sentence.starts_with("with an offset in the limit's place: merged["), "{sentence}");
}
