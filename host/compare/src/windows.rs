//! A window question, put to the library: over boxes that come from anywhere, held to the model, and
//! over those that building left, held to a plain test of every chain's coordinates.

use crate::room::{more, Dirt, Room};
use crate::Door;
use answers::model::boxes::in_window;
use answers::random::Random;
use answers::styles::windows::over;
use answers::{BuildCall, Built, Refusal, WindowCall};

/// How many windows are laid over the chains of each building call.
const LAID: usize = 3;

/// Puts the question to the door, in a room that the seed determines, and holds it to the model. The
/// error is a sentence about the first difference.
pub fn compare_window(door: &dyn Door, call: &WindowCall, seed: u64) -> Result<(), String> {
    let mut random = Random::new(seed);
    // A room of more numbers than there are boxes is not made, since the question is refused then.
    let k = usize::try_from(call.k).unwrap_or(usize::MAX).min(call.boxes.len());
    let length = match random.one_in(16) {
        true => k.saturating_sub(1),
        false => k + more(&mut random),
    };
    let mut found = Room::new(Dirt::some(&mut random), length);
    let answer = door.window(call, &mut found);
    hold(&found, answer, &in_window(call, length))
}

fn hold(found: &Room<u32>, answer: i64, wanted: &Result<Vec<u32>, Refusal>) -> Result<(), String> {
    match wanted {
        Ok(chains) if answer == chains.len() as i64 => found.begins_with("found", chains),
        Ok(chains) => Err(format!("the answer is {answer}, not {} chains found", chains.len())),
        Err(Refusal(number)) if answer == -i64::from(*number) => found.untouched("found"),
        Err(Refusal(number)) => Err(format!("the answer is {answer}, not refusal {number}")),
    }
}

/// Lays windows over the chains of an accepted building call, and holds each question to a plain test
/// of every chain's coordinates.
pub fn check(door: &dyn Door, call: &BuildCall, built: &Built, seed: u64) -> Result<(), String> {
    let mut random = Random::new(seed);
    let mut boxes = built.boxes.clone();
    boxes.resize(8 * built.table.len() + 64, u64::MAX);
    let mut asked = WindowCall { boxes, k: built.table.len() as u64, window: [0; 4] };
    for _ in 0..LAID {
        asked.window = over(&mut random, call);
        let mut found = Room::new(Dirt::some(&mut random), built.table.len());
        let answer = door.window(&asked, &mut found);
        hold(&found, answer, &Ok(plainly(call, built, asked.bounds())))
            .map_err(|difference| format!("in the window {:?} {difference}", asked.bounds()))?;
    }
    Ok(())
}

/// The chains whose coordinates' extent overlaps or touches a window.
pub fn plainly(call: &BuildCall, built: &Built, window: [f64; 4]) -> Vec<u32> {
    let [least_x, least_y, greatest_x, greatest_y] = window;
    let meets = |k: &u32| {
        let record = built.table[*k as usize];
        let from = if record[2] == 0 { &call.coordinates } else { &built.merged };
        let run = from.chunks(call.stride()).skip(record[3] as usize).take(record[4] as usize);
        let points: Vec<[f64; 2]> = run.map(|p| [0, 1].map(|k| f64::from_bits(p[k]))).collect();
        let within = |k: usize, from: f64, to: f64| {
            points.iter().any(|p| p[k] <= to) && points.iter().any(|p| p[k] >= from)
        };
        within(0, least_x, greatest_x) && within(1, least_y, greatest_y)
    };
    (0..built.table.len() as u32).filter(meets).collect()
}
