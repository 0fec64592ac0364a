//! The laws of listings and marks, which every compared call is held to, refuse answers that break
//! them.

use answers::model::built;
use answers::random::Random;
use answers::styles::BUILDING;
use answers::{BuildCall, Built};
use compare::laying::check;

/// Case H: the piece of lines 1 and 2 is turned by round two.
fn case_h() -> (BuildCall, Built) {
    let mut call = BuildCall { tolerance: 1f64.to_bits(), ..BuildCall::default() };
    call.push_plain(&[(0.0, 0.0), (1.25, 0.0)]);
    call.push_plain(&[(4.5, 0.0), (3.5, 0.0)]);
    call.push_plain(&[(3.5, 0.0), (1.75, 0.0)]);
    let built = built(&call);
    (call, built)
}

#[test]
fn case_h_holds_and_nothing_else_does() {
    let (call, right) = case_h();
    assert_eq!((&right.marks[..], &right.listing[..]), (&[0, 1, 1][..], &[0, 2, 1][..]));
    let mut held = 0;
    for marks in 0..8u8 {
        for listing in [[0, 1, 2], [0, 2, 1], [1, 0, 2], [1, 2, 0], [2, 0, 1], [2, 1, 0]] {
            let marks = [0, 1, 2].map(|k| marks >> k & 1).to_vec();
            let wrong = Built { marks, listing: listing.to_vec(), ..right.clone() };
            assert_eq!(check(&call, &wrong).is_ok(), wrong == right, "{wrong:?}");
            held += usize::from(check(&call, &wrong).is_ok());
        }
    }
    assert_eq!(held, 1);
    let twice = Built { listing: vec![0, 2, 2], ..right };
    let sentence = "chain 0: its listing does not have its members, each once";
    assert_eq!(check(&call, &twice), Err(sentence.to_string()));
}

#[test]
fn repeats_are_dropped_by_value() {
    // The two zeros are one place, of which round one keeps the first in its own direction.
    let mut call = BuildCall { tolerance: 1f64.to_bits(), ..BuildCall::default() };
    call.push_plain(&[(5.0, 0.0), (0.25, 0.0)]);
    call.push_plain(&[(-9.0, 0.0), (0.0, 0.0), (-0.0, 0.0)]);
    call.push_plain(&[(-0.0, 0.0), (0.0, 0.0), (0.5, 0.0)]);
    assert_eq!(check(&call, &built(&call)), Ok(()));
}

#[test]
fn every_made_up_call_is_laid() {
    let mut random = Random::new(61);
    let mut turned = 0;
    for (name, make) in BUILDING {
        for size in [2, 3, 5, 9, 40].repeat(60) {
            let mut call = make(&mut random, size);
            if call.nowhere() {
                continue;
            }
            if random.one_in(2) {
                call.tolerance = random.pick(&[0.25f64, 1.0, 8.0]).to_bits();
            }
            let built = built(&call);
            assert_eq!(check(&call, &built), Ok(()), "{name}\n{call}");
            turned += usize::from(built.listing != built.members);
        }
    }
    assert!(turned > 50, "{turned}");
}
