//! Damaged window questions: 18 before 7, every edge of both, and nothing written.

use answers::random::Random;
use answers::WindowCall;
use compare::room::{Dirt, Room};
use compare::windows::compare_window;
use compare::{Door, Library};

/// The answer to a question with room for so many numbers; a refused one leaves the room as it was.
fn asked(call: &WindowCall, room: usize) -> i64 {
    let mut found = Room::new(Dirt::some(&mut Random::new(room as u64)), room);
    let answer = Library.window(call, &mut found);
    if answer < 0 {
        assert_eq!(found.untouched("found"), Ok(()));
    }
    answer
}

/// Boxes of so many chains, all from 0,0 to 1,1, with so many numbers.
fn ones(k: u64, numbers: usize) -> WindowCall {
    let boxes = [0.0f64, 0.0, 1.0, 1.0].repeat(numbers / 4 + 1).into_iter().map(f64::to_bits);
    let window = [0.5f64, 0.5, 9.0, 9.0].map(f64::to_bits);
    WindowCall { boxes: boxes.take(numbers).collect(), k, window }
}

fn with(call: &WindowCall, window: [f64; 4]) -> WindowCall {
    WindowCall { window: window.map(f64::to_bits), ..call.clone() }
}

#[test]
fn rooms_at_their_edges() {
    for k in [0u64, 1, 2, 3, 7, 8, 100, 4_096] {
        let (room, numbers) = (k as usize, 8 * k as usize + 64);
        assert_eq!(asked(&ones(k, numbers), room), k as i64);
        assert_eq!(asked(&ones(k, numbers + 5), room + 5), k as i64);
        assert_eq!(asked(&ones(k, numbers - 1), room), -7);
        assert_eq!(asked(&ones(k, 0), room), -7);
        if k > 0 {
            assert_eq!(asked(&ones(k, numbers), room - 1), -7);
            assert_eq!(asked(&ones(k, numbers), 0), -7);
        }
    }
}

#[test]
fn a_number_of_chains_may_be_any_number() {
    let eighths = (0..8).map(|k| (u64::MAX / 8).wrapping_mul(k).wrapping_add(k));
    let near = eighths.flat_map(|k| [k.wrapping_sub(8), k.wrapping_sub(1), k.wrapping_add(1)]);
    let powers = (8..64).map(|k| 1u64 << k);
    for k in powers.chain(near).chain([u64::MAX, u64::MAX - 7]).filter(|&k| k > 200) {
        assert_eq!(asked(&ones(k, 1_000), 1_000), -7, "{k}");
        assert_eq!(asked(&with(&ones(k, 1_000), [1.0, 0.0, 0.0, 0.0]), 1_000), -18, "{k}");
    }
}

#[test]
fn windows_that_are_none() {
    let nan = f64::NAN;
    let good = ones(2, 80);
    for (k, lost) in [nan, -nan, f64::from_bits(0x7ff0_0000_0000_0001)].into_iter().enumerate() {
        for at in 0..4 {
            let mut window = [0.0, 0.0, 1.0, 1.0];
            window[at] = lost;
            assert_eq!(asked(&with(&good, window), 2), -18, "{k} {at}");
            // 18 comes before 7.
            assert_eq!(asked(&with(&ones(9, 80), window), 0), -18);
        }
    }
    let infinity = f64::INFINITY;
    assert_eq!(asked(&with(&good, [1.0, 0.0, 0.5, 1.0]), 2), -18);
    assert_eq!(asked(&with(&good, [0.0, 5e-324, 1.0, 0.0]), 2), -18);
    assert_eq!(asked(&with(&good, [infinity, 0.0, -infinity, 1.0]), 2), -18);
    // A window of one point, of one infinity, and of everything.
    assert_eq!(asked(&with(&good, [1.0, 1.0, 1.0, 1.0]), 2), 2);
    assert_eq!(asked(&with(&good, [0.0, -0.0, -0.0, 0.0]), 2), 2);
    assert_eq!(asked(&with(&good, [infinity; 4]), 2), 0);
    assert_eq!(asked(&with(&good, [-infinity, -infinity, infinity, infinity]), 2), 2);
}

#[test]
fn any_number_of_chains_of_boxes_of_any_sort() {
    let mut random = Random::new(81);
    for chains in 0..70 {
        for seed in 0..30 {
            let call = answers::styles::windows::boxes(&mut random, chains);
            assert_eq!(compare_window(&Library, &call, seed), Ok(()), "{call}");
        }
    }
}
