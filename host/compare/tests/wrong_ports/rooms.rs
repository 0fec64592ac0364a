//! Ports that leave their rooms otherwise than the rules say.

use crate::doors::Pretended;
use crate::{answers_of, assert_small, caught_building, caught_pairing};
use answers::RECORD;

#[test]
fn workspace_left_dirty() {
    let wrong = Pretended {
        after_build: |rooms, call| {
            if call.lines() > 0 {
                rooms.workspace.lent()[192 * call.lines() - 1] = 3;
            }
        },
        ..Pretended::default()
    };
    let (call, sentence) = caught_building(wrong);
    assert_small(&call, 1, 0);
    assert_eq!(sentence, "workspace[191] is 0x3, not 0x0");
}

#[test]
fn spare_left_a_negative_zero() {
    let wrong = Pretended {
        after_build: |rooms, call| {
            if !call.coordinates.is_empty() {
                rooms.spare.lent()[0] = -0.0;
            }
        },
        ..Pretended::default()
    };
    let (call, sentence) = caught_building(wrong);
    assert_small(&call, 1, 1);
    assert_eq!(sentence, "spare[0] is 0x8000000000000000, not 0x0");
}

#[test]
fn written_beyond_the_answer() {
    let wrong = Pretended {
        after_build: |rooms, call| {
            let chains = answers_of::right(call).table.len();
            if let Some(number) = rooms.table.lent().get_mut(RECORD * chains) {
                *number = 12_345;
            }
        },
        ..Pretended::default()
    };
    let (call, sentence) = caught_building(wrong);
    assert_small(&call, 2, 4);
    assert!(sentence.ends_with("as before the call"), "{sentence}");
}

#[test]
fn written_beyond_the_lent_room() {
    let wrong = Pretended {
        after_build: |rooms, _| {
            let members = rooms.members.lent().len();
            rooms.members.with_guards()[8 + members] = 12_345;
        },
        ..Pretended::default()
    };
    let (call, sentence) = caught_building(wrong);
    assert_small(&call, 0, 0);
    assert!(sentence.contains("which was not lent"), "{sentence}");
}

#[test]
fn written_before_the_lent_room() {
    let wrong = Pretended {
        after_pairs: |rooms, _| rooms.pairs.with_guards()[7] = 12_345,
        ..Pretended::default()
    };
    let (call, sentence) = caught_pairing(wrong);
    assert_eq!(call.ends(), 0);
    assert!(sentence.contains("pairs[-1], which was not lent,"), "{sentence}");
}

#[test]
fn pairing_workspace_left_dirty() {
    let wrong = Pretended {
        after_pairs: |rooms, call| {
            if call.ends() > 31 {
                rooms.workspace.lent()[64 * call.ends() - 1] = 1;
            }
        },
        ..Pretended::default()
    };
    let (call, _) = caught_pairing(wrong);
    assert_eq!(call.ends(), 32, "not small:\n{call}");
}
