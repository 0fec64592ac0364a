//! The recorded answers of the Rust original, replayed through the door in dirty rooms.

use answers::format::Recorded;
use answers::replay::{each, load, FILES};
use answers::Route;
use compare::building::hold_build;
use compare::pairing::hold_pairs;
use compare::Library;

/// Puts every call of a file to the library. Gives their number, or the first difference.
fn replayed(name: &str) -> Result<usize, String> {
    let mut seed = 0;
    let mut seed = || {
        seed += 1;
        seed
    };
    match load(name)? {
        Recorded::Building(entries) => each(&entries, |(call, answer)| {
            hold_build(&Library, call, answer, seed())
                .map_err(|difference| format!("{difference}\n{call}"))
        }),
        Recorded::Pairing(entries) => each(&entries, |(call, pairs)| {
            let accepting = Route::for_call(call);
            let wanted = |route| accepting.contains(&route).then_some(&pairs[..]);
            hold_pairs(&Library, call, wanted, seed())
                .map_err(|difference| format!("{difference}\n{call}"))
        }),
    }
}

#[test]
fn every_recorded_answer_comes_back() {
    let mut total = 0;
    for name in FILES {
        let calls = replayed(name).unwrap_or_else(|fault| panic!("{name}: {fault}"));
        println!("{name}: {calls} calls replayed");
        total += calls;
    }
    assert!(total > 10_000, "only {total} calls are recorded");
}
