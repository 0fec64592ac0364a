//! A question about two ends, put to the library and held to the judge's answer.

use crate::pairing::PairRooms;
use crate::{Door, Judge};
use answers::model::reasons::{told, Told};
use answers::random::Random;
use answers::{Route, WhyCall};

/// Puts the question to the door, in rooms that the seed determines, and holds it to what the
/// judge's pairs tell. The error is a sentence about the first difference.
pub fn compare_why(
    door: &dyn Door,
    judge: Judge,
    call: &WhyCall,
    seed: u64,
) -> Result<Told, String> {
    let selections = judge.pairs(&call.pairing);
    let pairs = selections.by(Route::Plain).expect("the plain route refuses nothing here");
    let wanted = told(call, pairs);
    let mut rooms = PairRooms::for_call(&mut Random::new(seed), &call.pairing);
    let answer = door.why(call, &mut rooms);
    if answer != wanted.answer() {
        let (name, number) = (wanted.name(), wanted.answer());
        return Err(format!("the answer is {answer}, not {number} ({name})"));
    }
    match wanted {
        Told::NoTwoEnds => rooms.untouched(),
        _ => rooms.hold(&call.pairing, pairs),
    }?;
    Ok(wanted)
}
