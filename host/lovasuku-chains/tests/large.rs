//! Deliveries by the safe calls: what is refused, what is told, and what is asked of the memory.

use lovasuku_chains::large::{Capacity, Cores, Fault, Joined, Rooms, Way};
use lovasuku_chains::{Dimension, Lines, LinesBuf, Refusal, Settings, Window, WindowBuf};
use std::alloc::{GlobalAlloc, Layout, System};
use std::sync::atomic::{AtomicUsize, Ordering::Relaxed};
use std::sync::Mutex;

/// The system's allocator, which counts what all threads ask of it, and how much is held.
struct Counting;

static ASKED: AtomicUsize = AtomicUsize::new(0);
static HELD: AtomicUsize = AtomicUsize::new(0);

/// Tests are run one after another, since what they ask for is counted together.
static TURN: Mutex<()> = Mutex::new(());

#[allow(unsafe_code)]
unsafe impl GlobalAlloc for Counting {
    unsafe fn alloc(&self, layout: Layout) -> *mut u8 {
        ASKED.fetch_add(1, Relaxed);
        HELD.fetch_add(layout.size(), Relaxed);
        System.alloc(layout)
    }

    unsafe fn dealloc(&self, memory: *mut u8, layout: Layout) {
        HELD.fetch_sub(layout.size(), Relaxed);
        System.dealloc(memory, layout);
    }
}

#[global_allocator]
static COUNTING: Counting = Counting;

/// Streets one block long between the corners of a square of so many, every third cut in two.
fn town(side: u32) -> LinesBuf {
    let mut lines = LinesBuf::default();
    for corner in 0..side * side {
        let [x, y] = [corner % side, corner / side].map(f64::from);
        for to in [[x + 1.0, y], [x, y + 1.0]] {
            let middle = [(x + to[0]) / 2.0, (y + to[1]) / 2.0];
            match corner % 3 {
                0 => [[[x, y], middle], [to, middle]].map(|line| lines.push(line, 0)),
                _ => [lines.push([[x, y], to], 0), ()],
            };
        }
    }
    lines
}

fn settings() -> [Settings; 4] {
    let exact = Settings::default();
    [
        exact,
        exact.with_limit(-0.5),
        exact.with_tolerance(0.75),
        exact.with_tolerance(0.6).with_limit(0.0),
    ]
}

#[test]
fn building_in_grown_rooms_allocates_nothing() {
    let _turn = TURN.lock();
    let (large, small) = (town(60), town(9));
    let mut rooms = Rooms::default();
    let mut chains = 0;
    let mut build = |lines: &LinesBuf, cores: Cores| {
        for settings in settings() {
            for neighbours in [false, true] {
                let way = Way { cores, neighbours, boxes: true, ..Way::default() };
                let joined = rooms.build_by(lines.lines(), settings, way).unwrap();
                chains += joined.chains().len();
            }
        }
    };
    let mut asked = |lines: &LinesBuf, cores: Cores, times: usize| {
        let before = ASKED.load(Relaxed);
        (0..times).for_each(|_| build(lines, cores));
        ASKED.load(Relaxed) - before
    };
    assert!(asked(&large, Cores::One, 1) > 0);
    assert_eq!(asked(&large, Cores::One, 3), 0);
    assert_eq!(asked(&small, Cores::One, 3), 0);
    // Each core has rooms of its own, which grow as it comes to build the larger batches.
    asked(&large, Cores::All, 20);
    // Rayon's queue asks for a block now and then.
    assert!(asked(&large, Cores::All, 20) <= 20);
    assert!(chains > 10_000);
}

#[test]
fn rooms_hold_no_more_than_they_say() {
    let _turn = TURN.lock();
    let lines = town(200);
    let (n, numbers) = (lines.len(), lines.lines().coordinates.len());
    for settings in settings() {
        for (boxes, neighbours, batch) in [(false, false, 512), (true, true, 512), (true, true, 1)]
        {
            let before = HELD.load(Relaxed);
            let mut rooms = Rooms::default();
            let cores = Cores::One;
            let way = Way { boxes, neighbours, batch, cores, ..Way::default() };
            rooms.build_by(lines.lines(), settings, way).unwrap();
            let held = HELD.load(Relaxed) - before;
            let most = Rooms::most_bytes(n, numbers, 1);
            // Without a second round much less is held.
            assert!(held <= most && 5 * held > most, "{held} bytes of {most} ({way:?})");
        }
    }
}

#[test]
fn what_is_refused_of_a_call_is_refused_of_a_delivery() {
    let _turn = TURN.lock();
    let mut rooms = Rooms::default();
    let good = Lines {
        dimension: Dimension::Xy,
        coordinates: &[0.0, 0.0, 1.0, 0.0],
        counts: &[2],
        groups: &[0],
        kinds: &[0],
    };
    let nan = [0.0, f64::NAN, 1.0, 0.0];
    let lost = Lines { coordinates: &nan, ..good };
    let (usual, wide) = (Settings::default(), Settings::default().with_limit(1.5));
    let adrift = usual.with_origin([0.0, f64::INFINITY]);
    let worst = wide.with_origin([f64::NAN; 2]);
    let cases = [
        (Lines { groups: &[], kinds: &[2], ..lost }, worst, Refusal::TablesDiffer),
        (Lines { kinds: &[], ..lost }, worst, Refusal::TablesDiffer),
        (Lines { kinds: &[2], counts: &[3], ..lost }, worst, Refusal::MarkAboveOne),
        (Lines { counts: &[3], ..lost }, worst, Refusal::CountsDoNotAddUp),
        (Lines { coordinates: &nan[1..], ..good }, worst, Refusal::CountsDoNotAddUp),
        (lost, worst, Refusal::NoPlace),
        (Lines { kinds: &[1], ..lost }, usual, Refusal::NoPlace),
        (good, worst, Refusal::BadLimit),
        (good, usual.with_limit(f64::NAN), Refusal::BadLimit),
        (good, adrift, Refusal::BadOrigin),
    ];
    for (k, (lines, settings, refusal)) in cases.into_iter().enumerate() {
        let fault = rooms.build(lines, settings).err();
        assert_eq!(fault, Some(Fault::Refused(refusal)), "case {k}");
        let one = lovasuku_chains::Rooms::default().build(lines, settings).err();
        assert_eq!(one, Some(refusal), "case {k} by one call");
    }
    assert_eq!(rooms.build(good, wide.with_limit(1.0)).unwrap().chains().len(), 1);
    // Extras may be any number.
    let high = Lines {
        dimension: Dimension::Xyz,
        coordinates: &[0.0, 0.0, f64::NAN, 1.0, 0.0, 7.0],
        ..good
    };
    assert_eq!(rooms.build(high, usual).unwrap().chains().len(), 1);
}

#[test]
fn no_lines_and_lines_that_pass_through() {
    let _turn = TURN.lock();
    let mut rooms = Rooms::default();
    let none = LinesBuf::default();
    assert!(rooms.build(none.lines(), Settings::default()).unwrap().chains().is_empty());
    let mut lines = LinesBuf::default();
    lines.push_passing([[0.0, 0.0], [1.0, 0.0], [0.0, 0.0]], 0);
    lines.push([[5.0, 5.0]], 0);
    lines.push([[0.0, 0.0], [1.0, 0.0]], 0);
    lines.push([[0.0; 2]; 0], 0);
    for settings in settings() {
        let joined = rooms.build(lines.lines(), settings).unwrap();
        assert_eq!(joined.chains().members(), [2, 0, 1, 3]);
        assert!(joined
            .chains()
            .iter()
            .map(|chain| chain.is_loop())
            .eq([false, true, false, false]));
    }
}

#[test]
fn every_line_is_told_once_a_round() {
    let _turn = TURN.lock();
    let lines = town(40);
    let mut rooms = Rooms::default();
    for (settings, rounds) in settings().into_iter().zip([1, 1, 2, 2]) {
        for neighbours in [false, true] {
            let told = AtomicUsize::new(0);
            let tell = |lines: usize| {
                told.fetch_add(lines, Relaxed);
            };
            let way = Way { neighbours, tell: &tell, ..Way::default() };
            let calls = |joined: Joined| joined.calls();
            assert!(rooms.build_by(lines.lines(), settings, way).map(calls).unwrap() > 0);
            assert_eq!(told.load(Relaxed), rounds * lines.len());
        }
    }
}

#[test]
fn windows_over_all_chains() {
    let _turn = TURN.lock();
    let lines = town(60);
    let mut rooms = Rooms::default();
    let way = Way { boxes: true, ..Way::default() };
    let joined = rooms.build_by(lines.lines(), Settings::default(), way).unwrap();
    let window = Window { least: [10.25, 10.25], greatest: [10.75, 11.0] };
    let mut found = WindowBuf::default();
    let inside = joined.chains().window(window, &mut found).unwrap();
    let plainly = joined.chains().iter().filter(|chain| {
        let least = |k: usize| chain.points().fold(f64::INFINITY, |sum, p| sum.min(p[k]));
        let greatest = |k: usize| chain.points().fold(f64::NEG_INFINITY, |sum, p| sum.max(p[k]));
        window.meets([least(0), least(1)], [greatest(0), greatest(1)])
    });
    let counts = (inside.len(), plainly.count());
    assert!(counts.0 == counts.1 && counts.0 > 0, "{counts:?}");
    // Without boxes there is nothing to ask.
    let joined = rooms.build(lines.lines(), Settings::default()).unwrap();
    let refused = joined.chains().window(window, &mut found).err();
    assert_eq!(refused, Some(Refusal::RoomTooShort));
}

#[test]
fn chains_of_as_many_lines_as_a_call_holds() {
    let _turn = TURN.lock();
    let mut rooms = Rooms::default();
    for (count, laid) in [(2_048, 0), (2_049, 1)] {
        let mut road = LinesBuf::default();
        for k in 0..count {
            road.push([[f64::from(k), 0.0], [f64::from(k + 1), 0.0]], 7);
        }
        let joined = rooms.build(road.lines(), Settings::default()).unwrap();
        assert_eq!((joined.chains().len(), joined.laid().len()), (1, laid));
        assert_eq!(joined.calls(), 1 - laid);
        let capacity = Capacity { points: 2 * count as usize - 1, ..Capacity::default() };
        let way = Way { capacity, ..Way::default() };
        let joined = rooms.build_by(road.lines(), Settings::default(), way).unwrap();
        assert_eq!((joined.laid(), joined.calls()), (&[0][..], 0));
    }
}
