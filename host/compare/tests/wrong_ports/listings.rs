//! Ports that tell wrongly which way a line was drawn, or in which order lines are passed.

use crate::doors::Pretended;
use crate::{answers_of, assert_small, caught_building};
use answers::{BuildCall, Built};

/// Tests that a port which tells it wrongly is caught on a call of three lines at most, of which two
/// are joined by a tolerance, by a sentence that begins as given.
#[track_caller]
fn assert_told_wrongly(build: fn(&BuildCall) -> Built, begins: &str) {
    let (call, sentence) = caught_building(Pretended { build, ..Pretended::default() });
    assert_small(&call, 3, 7);
    assert!(f64::from_bits(call.tolerance) > 0.0, "{call}");
    assert!(sentence.starts_with(begins), "{sentence}");
}

#[test]
fn marks_of_round_two_alone() {
    assert_told_wrongly(answers_of::marks_of_round_two, "marks[");
}

#[test]
fn marks_of_round_one_alone() {
    assert_told_wrongly(answers_of::marks_of_round_one, "marks[");
}

#[test]
fn marks_in_the_order_of_the_listing() {
    assert_told_wrongly(answers_of::marks_in_listing_order, "marks[");
}

#[test]
fn members_in_the_place_of_the_listing() {
    assert_told_wrongly(answers_of::members_for_listing, "listing[");
}

#[test]
fn a_listing_from_the_other_end() {
    let wrong = Pretended { build: answers_of::listing_backwards, ..Pretended::default() };
    let (call, sentence) = caught_building(wrong);
    assert_small(&call, 2, 4);
    assert!(sentence.starts_with("listing["), "{sentence}");
}

#[test]
fn a_listing_that_is_not_written() {
    let wrong = Pretended {
        after_build: |rooms, call| {
            if call.lines() > 0 {
                rooms.listing.lent()[0] = u32::MAX;
            }
        },
        ..Pretended::default()
    };
    let (call, sentence) = caught_building(wrong);
    assert_small(&call, 1, 0);
    assert_eq!(sentence, "listing[0] is 0xffffffff, not 0x0");
}
