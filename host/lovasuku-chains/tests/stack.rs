//! The stack that calls take: a thread that has 64 KiB, for itself as well, is enough for each of them.

use lovasuku_chains::{FirstBuf, LinesBuf, Rooms, Settings};
use std::thread::Builder;

/// A crossing, and a road with a gap.
fn roads() -> LinesBuf {
    let mut roads = LinesBuf::default();
    for end in [[1.0, 0.0], [0.0, 1.0], [-1.0, 0.0], [0.0, -1.0]] {
        roads.push([[0.0, 0.0], end], 0);
    }
    roads.push([[1.1, 0.0], [9.0, 0.5]], 0);
    roads
}

/// One call of each kind, one after another. The calls' tables are of one size, whatever is lent.
fn call_each() -> (usize, usize) {
    let settings = Settings { limit: Some(-0.5), ..Settings::default() }.with_tolerance(0.3);
    let (mut rooms, mut other, mut pieces) = (Rooms::new(), Rooms::new(), FirstBuf::new());
    let roads = roads();
    let built = rooms.build(roads.lines(), settings).unwrap();
    let all = built.len();
    assert!(!built.boxes().is_empty());
    other.check(roads.lines(), built.delivered(), settings).unwrap();
    let first = other.first(roads.lines(), settings, &mut pieces).unwrap();
    (all, other.finish(first, settings).unwrap().len())
}

#[test]
fn a_thread_of_64_kib_is_enough() {
    let thread = Builder::new().stack_size(64 * 1024).spawn(call_each).unwrap();
    assert_eq!(thread.join().unwrap(), (2, 2));
}
