//! The three edits that make the Rust original the oracle.

/// A text that stands exactly once in the original, and what takes its place.
pub struct Edit {
    pub name: &'static str,
    pub from: &'static str,
    pub to: &'static str,
}

/// The edits of the rules.
pub const EDITS: [Edit; 3] = [
    Edit {
        name: "the measure is the clamped dot product",
        from: concat!("180.0 - dot.acos()", ".to_degrees()"),
        to: "dot",
    },
    Edit {
        name: "junctions are paired by the switch",
        from: "junction_angle_deg > 0.0",
        to: "crate::settings::is_on()",
    },
    Edit {
        name: "cells are counted from the origin",
        from: concat!("(c.x / tol).floor() as i64,\n        ", "(c.y / tol).floor() as i64"),
        to: "((c.x - crate::settings::origin()[0]) / tol).floor() as i64, \
             ((c.y - crate::settings::origin()[1]) / tol).floor() as i64",
    },
];

/// The text with every edit made, or the sentence about the first that does not fit exactly once.
pub fn edited(text: &str) -> Result<String, String> {
    let mut text = text.to_string();
    for edit in &EDITS {
        let fits = text.matches(edit.from).count();
        if fits != 1 {
            let name = edit.name;
            return Err(format!("the edit \"{name}\" fits {fits} times in the original, not once"));
        }
        text = text.replacen(edit.from, edit.to, 1);
    }
    Ok(text)
}
