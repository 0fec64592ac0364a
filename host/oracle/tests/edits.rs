//! The edits of the original, tried on small texts.

#[path = "../edits.rs"]
mod edits;

use edits::{edited, EDITS};

#[test]
fn each_edit_is_made_where_it_fits_once() {
    let text = format!("a {} b {} c {} d", EDITS[0].from, EDITS[1].from, EDITS[2].from);
    let wanted = format!("a dot b crate::settings::is_on() c {} d", EDITS[2].to);
    assert_eq!(edited(&text), Ok(wanted));
}

#[test]
fn an_edit_that_does_not_fit_once_is_named() {
    for (k, edit) in EDITS.iter().enumerate() {
        let others: Vec<&str> = EDITS.iter().map(|edit| edit.from).collect();
        let others = [&others[..k], &others[k + 1..]].concat().join(" ");
        for (times, text) in [(0, others.clone()), (2, format!("{others} {0} {0}", edit.from))] {
            let name = edit.name;
            let fault = format!("the edit \"{name}\" fits {times} times in the original, not once");
            assert_eq!(edited(&text), Err(fault));
        }
    }
}
