//! The chains of the page, what joined their lines, and the gaps that stayed open.

use super::bytes::{zigzag, Bytes};
use crate::joining::{Chain, Gap, Why};
use lovasuku_chains::explain::{Explained, Meeting, Round};
use serde_json::{json, Value};

/// The chains: the lines of each in the order of travel, which way each was drawn, what each joint was
/// made by, which are loops, and which are rings, by what their last line is joined with their first.
pub fn chains(chains: &[Chain], explained: &Explained) -> Value {
    let [mut paths, mut joints] = [Bytes::default(), Bytes::default()];
    let [mut loops, mut rings] = [Bytes::default(), Bytes::default()];
    let (mut last_line, mut last_loop, mut last_ring) = (0, 0, 0);
    for (position, chain) in chains.iter().enumerate() {
        paths.number(chain.path.len() as u64);
        for step in chain.path {
            let line = i64::from(step.line);
            paths.number(zigzag(line - last_line) << 1 | u64::from(step.turned));
            last_line = line;
        }
        for &joint in explained.joints(position) {
            joints.number(kind(explained, joint));
        }
        if chain.is_loop {
            loops.number((position - last_loop) as u64);
            last_loop = position;
        }
        if let Some(closing) = explained.closing(position) {
            rings.number((position - last_ring) as u64);
            rings.number(kind(explained, closing));
            last_ring = position;
        }
    }
    json!({
        "paths": paths.text(),
        "joints": joints.text(),
        "loops": loops.text(),
        "rings": rings.text(),
    })
}

/// What a joint was made by: 0 two ends alone in round one, 1 in round two; of three or more, 2 and 3.
fn kind(explained: &Explained, joint: Meeting) -> u64 {
    match explained.nodes().get(joint.node) {
        Some(node) => u64::from(node.round == Round::Cells) + 2 * u64::from(node.ends.len() > 2),
        None => 0,
    }
}

/// The gaps below the tolerance that stayed open: their chains, their lines and why, and their ends.
pub fn gaps(gaps: &[Gap]) -> Value {
    let (mut numbers, mut ends) = (Bytes::default(), Bytes::default());
    for gap in gaps {
        gap.chains.iter().for_each(|&chain| numbers.number(chain as u64));
        gap.lines.iter().for_each(|&line| numbers.number(u64::from(line)));
        numbers.number(match gap.why {
            Why::Cells => 0,
            Why::Junction => 1,
            Why::Ring => 2,
        });
        gap.ends.iter().flatten().for_each(|&x| ends.double(x));
    }
    json!({ "numbers": numbers.text(), "ends": ends.text() })
}
