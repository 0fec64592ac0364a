//! Ports that lay boxes wrongly, or find other chains in a window.

use crate::boxes_of::{self, right_window as right};
use crate::doors::Pretended;
use crate::{assert_small, caught_building, first_difference};
use answers::model::boxes::meets;
use answers::{BuildCall, Built, WindowCall};
use compare::calls::Call;
use compare::run::Difference;

/// The small question on which a wrong port is caught, and the sentence about it.
fn caught_looking(found: fn(&WindowCall, usize) -> Result<Vec<u32>, i64>) -> (Call, String) {
    let wrong = Pretended { found, ..Pretended::default() };
    let Difference { call, sentence, .. } = first_difference(&wrong);
    (call, sentence)
}

/// Tests that a port which finds other chains is caught.
#[track_caller]
fn assert_looked_wrongly(found: fn(&WindowCall, usize) -> Result<Vec<u32>, i64>) {
    let (call, sentence) = caught_looking(found);
    let small = match &call {
        Call::Window(call) => call.k <= 4,
        Call::Build(call) => call.lines() <= 4,
        _ => false,
    };
    assert!(small, "{call:?}");
    assert!(sentence.contains("found") || sentence.contains("refusal"), "{sentence}");
}

/// The chains whose own box meets the window by another test.
fn by_own_box(call: &WindowCall, meets: fn(&[u64], [f64; 4]) -> bool) -> Vec<u32> {
    let own = call.boxes.chunks(4).take(call.k as usize).enumerate();
    own.filter(|(_, it)| meets(it, call.bounds())).map(|(k, _)| k as u32).collect()
}

#[test]
fn touching_not_counted() {
    assert_looked_wrongly(|call, room| {
        let [least_x, least_y, greatest_x, greatest_y] = call.bounds();
        let inside = |it: &[u64]| {
            let number = |k: usize| f64::from_bits(it[k]);
            number(0) < greatest_x
                && least_x < number(2)
                && number(1) < greatest_y
                && least_y < number(3)
        };
        let found = right(call, room)?;
        Ok(found.into_iter().filter(|&k| inside(&call.boxes[4 * k as usize..])).collect())
    });
}

#[test]
fn own_boxes_alone_looked_at() {
    assert_looked_wrongly(|call, room| right(call, room).map(|_| by_own_box(call, meets)));
}

#[test]
fn a_nan_taken_for_meeting() {
    assert_looked_wrongly(|call, room| {
        right(call, room)?;
        Ok(by_own_box(call, |it, [least_x, least_y, greatest_x, greatest_y]| {
            let number = |k: usize| f64::from_bits(it[k]);
            !(number(0) > greatest_x
                || number(2) < least_x
                || number(1) > greatest_y
                || number(3) < least_y)
        }))
    });
}

#[test]
fn descending_order() {
    assert_looked_wrongly(|call, room| {
        right(call, room).map(|found| found.into_iter().rev().collect())
    });
}

#[test]
fn x_alone_looked_at() {
    assert_looked_wrongly(|call, room| {
        right(call, room)?;
        Ok(by_own_box(call, |it, [least_x, _, greatest_x, _]| {
            let [low, high] = [f64::from_bits(it[0]), f64::from_bits(it[2])];
            low <= high && low <= greatest_x && least_x <= high
        }))
    });
}

#[test]
fn a_window_that_is_none_taken() {
    assert_looked_wrongly(|call, room| match right(call, room) {
        Err(18) => Ok(vec![]),
        other => other,
    });
}

#[test]
fn a_short_room_before_a_bad_window() {
    assert_looked_wrongly(|call, room| match right(call, room) {
        Err(18) if call.boxes.len() < 8 * call.k as usize + 64 => Err(7),
        other => other,
    });
}

/// Tests that a port whose boxes are wrong is caught on so many lines and points at most.
#[track_caller]
fn assert_boxed_wrongly(build: fn(&BuildCall) -> Built, lines: usize, points: usize) {
    let (call, sentence) = caught_building(Pretended { build, ..Pretended::default() });
    assert_small(&call, lines, points);
    assert!(sentence.starts_with("boxes["), "{sentence}");
}

#[test]
fn the_later_zero_s_bits() {
    assert_boxed_wrongly(boxes_of::later_zero, 2, 4);
}

#[test]
fn zeros_for_a_chain_without_coordinates() {
    assert_boxed_wrongly(boxes_of::zeros_for_none, 1, 0);
}

#[test]
fn a_level_s_odd_box_lost() {
    assert_boxed_wrongly(boxes_of::odd_box_lost, 3, 0);
}

#[test]
fn only_the_ends_looked_at() {
    assert_boxed_wrongly(boxes_of::ends_boxed, 1, 3);
}
