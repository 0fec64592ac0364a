//! Chains made elsewhere, put to the library and held to the model; and what the safe crate finds wrong
//! with them, held to the verdict.

use crate::lent::{floats, lines};
use crate::room::{more, Dirt, Room};
use crate::Door;
use answers::model::acceptable::{judged, Verdict};
use answers::random::Random;
use answers::{CheckCall, Refusal, BAD_RECORD, RECORD};
use lovasuku_chains::size::LINE_WORKSPACE;
use lovasuku_chains::{find, Delivered, Finding, Settings, Unacceptable};

/// Puts the delivery to the door, in a workspace that the seed determines, and holds it to the model. The
/// error is a sentence about the first difference.
pub fn compare_check(door: &dyn Door, call: &CheckCall, seed: u64) -> Result<Verdict, String> {
    let mut random = Random::new(seed);
    let needed = LINE_WORKSPACE * call.lines.lines();
    let length = match random.one_in(16) {
        true => needed.saturating_sub(1),
        false => needed + more(&mut random),
    };
    let mut workspace = Room::new(Dirt::some(&mut random), length);
    let answer = door.check(call, &mut workspace);
    let verdict = judged(call, length);
    match verdict.refusal() {
        Ok(()) if answer == 0 => workspace.cleared("workspace", needed),
        Ok(()) => Err(format!("the answer is {answer}, not 0")),
        Err(Refusal(number)) if answer == -i64::from(number) => workspace.untouched("workspace"),
        Err(Refusal(_)) => {
            let number = verdict.refusal().map_or_else(|refusal| refusal.0, |()| 0);
            Err(format!("the answer is {answer}, not refusal {number} ({})", verdict.name()))
        }
    }?;
    told(call, verdict)?;
    Ok(verdict)
}

/// Holds what the safe crate finds wrong to the verdict.
fn told(call: &CheckCall, verdict: Verdict) -> Result<(), String> {
    let whole = usize::try_from(call.k).ok().and_then(|k| k.checked_mul(RECORD));
    let table = match whole.and_then(|numbers| call.table.get(..numbers)) {
        Some(table) => table,
        // What is not lent cannot be looked at.
        None => return Ok(()),
    };
    let (coordinates, merged) = (floats(&call.lines.coordinates), floats(&call.merged));
    let chains = Delivered { table, listing: &call.listing, merged: &merged };
    let settings = Settings {
        tolerance: f64::from_bits(call.lines.tolerance),
        origin: call.lines.origin.map(f64::from_bits),
        limit: None,
    };
    let found = match verdict {
        Verdict::Refused(refusal) if refusal != BAD_RECORD => return Ok(()),
        _ => find(lines(&call.lines, &coordinates), chains, settings),
    };
    match (verdict, found) {
        (Verdict::Accepted, None) | (Verdict::Refused(_), Some(_)) => Ok(()),
        (Verdict::Not(_), Some(Finding { why, .. })) if why != Unacceptable::Record => Ok(()),
        (verdict, found) => {
            let found = found.map_or("nothing".to_string(), |found| found.to_string());
            Err(format!("found is {found}, where the verdict is {}", verdict.name()))
        }
    }
}
