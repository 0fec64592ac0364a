//! What the edited original asks for in the middle of a call: the switch of junction pairing, and the
//! origin that cells are counted from.

use answers::BuildCall;
use std::cell::Cell;

/// The switch, and x and y of the origin.
type Settings = (bool, [f64; 2]);

/// What stands there between calls.
const NONE: Settings = (false, [0.0; 2]);

thread_local! {
    static SETTINGS: Cell<Settings> = const { Cell::new(NONE) };
}

/// True where junctions are paired.
pub fn is_on() -> bool {
    SETTINGS.with(Cell::get).0
}

/// x and y of the origin.
pub fn origin() -> [f64; 2] {
    SETTINGS.with(Cell::get).1
}

/// Runs something under the settings of a call, and leaves the switch off and the origin at 0,0.
pub fn under<T>(call: &BuildCall, run: impl FnOnce() -> T) -> T {
    let settings = (call.switch == 1, call.origin.map(f64::from_bits));
    SETTINGS.with(|cell| cell.set(settings));
    let answer = run();
    SETTINGS.with(|cell| cell.set(NONE));
    answer
}
