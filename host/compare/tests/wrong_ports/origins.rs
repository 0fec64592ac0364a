//! Ports that count cells wrongly, or take an origin that is no place.

use crate::doors::Pretended;
use crate::{answers_of, assert_small, caught_building};
use answers::{BuildCall, Built};

/// Tests that a port which counts cells wrongly is caught on two lines and an origin.
#[track_caller]
fn assert_origin_caught(build: fn(&BuildCall) -> Built) -> BuildCall {
    let (call, _) = caught_building(Pretended { build, ..Pretended::default() });
    assert_small(&call, 2, 4);
    assert!(call.origin != [0; 2], "{call}");
    call
}

#[test]
fn an_origin_that_is_ignored() {
    assert_origin_caught(answers_of::origin_ignored);
}

#[test]
fn an_origin_whose_axes_are_exchanged() {
    assert_origin_caught(answers_of::axes_exchanged);
}

#[test]
fn an_origin_that_is_added() {
    assert_origin_caught(answers_of::origin_added);
}

#[test]
fn quotients_before_the_difference() {
    assert_origin_caught(answers_of::quotient_first);
}

#[test]
fn an_origin_in_exact_keys() {
    let call = assert_origin_caught(answers_of::origin_in_exact_keys);
    assert!(f64::from_bits(call.tolerance) <= 0.0, "{call}");
}

/// Tests that a port which takes some origins that are no place is caught on no line.
#[track_caller]
fn assert_taken(adrift: fn(&BuildCall) -> bool) -> [f64; 2] {
    let (call, sentence) = caught_building(Pretended { adrift, ..Pretended::default() });
    assert_small(&call, 0, 0);
    assert_eq!(sentence, "the answer is 0, not refusal 17");
    call.origin.map(f64::from_bits)
}

#[test]
fn an_infinite_origin_taken() {
    let origin = assert_taken(|call| call.origin.map(f64::from_bits).iter().any(|x| x.is_nan()));
    assert!(origin.iter().any(|x| x.is_infinite()) && !origin.iter().any(|x| x.is_nan()));
}

#[test]
fn an_origin_that_is_nan_taken() {
    let origin =
        assert_taken(|call| call.origin.map(f64::from_bits).iter().any(|x| x.is_infinite()));
    assert!(origin.iter().any(|x| x.is_nan()));
}

#[test]
fn an_origin_of_which_one_number_is_looked_at() {
    assert_taken(|call| !f64::from_bits(call.origin[0]).is_finite());
    assert_taken(|call| !f64::from_bits(call.origin[1]).is_finite());
}

#[test]
fn an_origin_that_is_looked_at_only_where_there_are_cells() {
    assert_taken(|call| call.adrift() && f64::from_bits(call.tolerance) > 0.0);
}

#[test]
fn a_far_origin_refused() {
    let adrift = |call: &BuildCall| {
        call.adrift() || call.origin.iter().any(|&bits| f64::from_bits(bits).abs() == f64::MAX)
    };
    let (call, sentence) = caught_building(Pretended { adrift, ..Pretended::default() });
    assert_small(&call, 0, 0);
    assert_eq!(sentence, "the answer is -17, not 0 chains");
}
