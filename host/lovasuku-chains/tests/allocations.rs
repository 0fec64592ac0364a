//! Once the rooms have grown, building, checking, pairing, asking, reading and writing allocate nothing.

use lovasuku_chains::{
    chain_coordinates, read_wkb, read_wkb_offsets, ByteOrder, DeliveredBuf, Dimension, Ends,
    FirstBuf, LinesBuf, Rooms, Route, Settings, Window, WindowBuf, WkbBuf, WkbRooms,
};
use std::alloc::{GlobalAlloc, Layout, System};
use std::cell::Cell;

/// The system's allocator, which counts what this thread asks of it.
struct Counting;

thread_local! {
    static ASKED: Cell<usize> = const { Cell::new(0) };
}

#[allow(unsafe_code)]
unsafe impl GlobalAlloc for Counting {
    unsafe fn alloc(&self, layout: Layout) -> *mut u8 {
        let _ = ASKED.try_with(|asked| asked.set(asked.get() + 1));
        System.alloc(layout)
    }

    unsafe fn dealloc(&self, memory: *mut u8, layout: Layout) {
        System.dealloc(memory, layout);
    }
}

#[global_allocator]
static COUNTING: Counting = Counting;

/// How often the work asks for memory.
fn asked(mut work: impl FnMut()) -> usize {
    let before = ASKED.with(Cell::get);
    work();
    ASKED.with(Cell::get) - before
}

/// A zigzag road in so many lines, drawn either way by turns.
fn road(lines: usize) -> LinesBuf {
    let mut road = LinesBuf::default();
    for k in 0..lines {
        let (here, there) = ([k as f64, (k % 2) as f64], [k as f64 + 1.0, ((k + 1) % 2) as f64]);
        road.push(if k % 3 == 0 { [there, here] } else { [here, there] }, 0);
    }
    road
}

#[test]
fn building_in_grown_rooms_allocates_nothing() {
    let (large, small) = (road(300), road(7));
    let settings = Settings::default().with_tolerance(0.5).with_limit(0.25);
    let mut rooms = Rooms::new();
    let mut total = 0;
    let mut build = |lines: &LinesBuf| {
        let chains = rooms.build(lines.lines(), settings).expect("the call is accepted");
        let table = chains.table();
        for (k, chain) in chains.iter().enumerate() {
            let named = chain_coordinates(
                Dimension::Xy,
                lines.lines().coordinates,
                chains.merged(),
                table,
                k as u64,
            );
            assert_eq!(named, Ok(chain.coordinates()));
            total += chain.members().len() + chain.points().len();
        }
    };
    assert!(asked(|| build(&large)) > 0);
    assert_eq!(asked(|| build(&large)), 0);
    assert_eq!(asked(|| build(&small)), 0);
    assert_eq!(asked(|| (0..20).for_each(|_| build(&large))), 0);
    assert_eq!(total, 22 * (300 + 301) + 7 + 8);
}

#[test]
fn many_zooms_in_grown_buffers_allocate_nothing() {
    let (large, small) = (road(300), road(7));
    let settings = Settings::default().with_limit(0.25);
    let (mut rooms, mut buffers) = (Rooms::new(), FirstBuf::new());
    let mut zoom = |lines: &LinesBuf| {
        let first = rooms.first(lines.lines(), settings, &mut buffers).expect("it is accepted");
        for tolerance in [0.0, 0.5, 2.0] {
            let chains = rooms.finish(first, settings.with_tolerance(tolerance));
            assert_eq!(chains.expect("it is accepted").members().len(), lines.len());
        }
    };
    assert!(asked(|| zoom(&large)) > 0);
    assert_eq!(asked(|| zoom(&small)), 0);
    assert_eq!(asked(|| zoom(&large)), 0);
}

#[test]
fn a_window_with_a_grown_buffer_allocates_nothing() {
    let (large, small) = (road(300), road(7));
    let (mut rooms, mut found) = (Rooms::new(), WindowBuf::new());
    let mut look = |lines: &LinesBuf| {
        let chains = rooms.build(lines.lines(), Settings::default()).expect("the call is accepted");
        let window = Window { least: [3.0, 0.0], greatest: [5.0, 1.0] };
        let inside = chains.window(window, &mut found).expect("the window is one");
        assert_eq!(inside.map(|(_, chain)| chain.members().len()).sum::<usize>(), lines.len());
    };
    assert!(asked(|| look(&large)) > 0);
    assert_eq!(asked(|| look(&small)), 0);
    assert_eq!(asked(|| look(&large)), 0);
}

#[test]
fn checking_in_grown_rooms_allocates_nothing() {
    let (large, small) = (road(300), road(7));
    let (mut rooms, mut built, mut chains) = (Rooms::new(), Rooms::new(), DeliveredBuf::default());
    let mut check = |lines: &LinesBuf, rooms: &mut Rooms| {
        let made = built.build(lines.lines(), Settings::default()).expect("the call is accepted");
        chains.clear();
        for chain in made {
            chains.push_numbers(chain.listing().iter().copied(), chain.coordinates());
        }
        asked(|| {
            let settings = Settings::default();
            assert_eq!(rooms.check(lines.lines(), chains.delivered(), settings), Ok(()));
        })
    };
    assert!(check(&large, &mut rooms) > 0);
    assert_eq!((check(&small, &mut rooms), check(&large, &mut rooms)), (0, 0));
}

#[test]
fn rooms_made_for_a_size_never_grow_within_it() {
    let lines = road(100);
    let mut rooms = Rooms::for_building(100, 200);
    let build = || {
        assert!(rooms.build(lines.lines(), Settings::default()).is_ok());
    };
    assert_eq!(asked(build), 0);
}

#[test]
fn pairing_in_grown_rooms_allocates_nothing() {
    let d = 64;
    let present = vec![1; d];
    let directions: Vec<f64> = (0..2 * d).map(|k| (k % 5) as f64 - 2.0).collect();
    let pieces: Vec<u32> = (0..d as u32).map(|end| end / 2).collect();
    let ends = Ends { present: &present, directions: &directions, pieces: &pieces };
    let mut rooms = Rooms::for_pairing(d);
    for route in [Route::Plain, Route::Indexed, Route::Chosen] {
        let pair = || {
            assert!(matches!(rooms.pairs(route, ends, 0.5), Ok([_, ..])));
        };
        assert_eq!(asked(pair), 0);
    }
    let why = || {
        assert!(rooms.why(ends, 0.5, [0, 63]).is_ok());
    };
    assert_eq!(asked(why), 0);
}

#[test]
fn reading_records_in_grown_rooms_allocates_nothing() {
    let mut record = vec![1, 2, 0, 0, 0, 2, 0, 0, 0];
    record.extend([0.0f64, 1.0, 2.0, 3.0].iter().flat_map(|x| x.to_le_bytes()));
    let (run, lengths) = (record.repeat(50), vec![41; 50]);
    let mut rooms = WkbRooms::new();
    let mut read = |records: usize| {
        let lines = read_wkb(&run[..41 * records], &lengths[..records], &mut rooms);
        assert_eq!(lines.map(|lines| lines.plain().len()), Ok(records));
    };
    assert!(asked(|| read(50)) > 0);
    assert_eq!(asked(|| (0..=50).for_each(&mut read)), 0);
    let offsets: Vec<i32> = (0..=50).map(|k| 41 * k).collect();
    let mut read = |records: usize| {
        let lines = read_wkb_offsets(&run, &offsets[50 - records..], &mut rooms);
        assert_eq!(lines.map(|lines| lines.plain().len()), Ok(records));
    };
    assert!(asked(|| read(50)) > 0);
    assert_eq!(asked(|| (0..=50).for_each(&mut read)), 0);
}

#[test]
fn writing_records_into_a_grown_buffer_allocates_nothing() {
    let (large, small) = (road(300), road(7));
    let (mut rooms, mut buffer) = (Rooms::new(), WkbBuf::new());
    let mut write = |lines: &LinesBuf| {
        let chains = rooms.build(lines.lines(), Settings::default()).expect("the call is accepted");
        let records =
            chains.write_wkb(ByteOrder::Little, &mut buffer).expect("the chains are there");
        assert_eq!(records.iter().count(), chains.len());
    };
    assert!(asked(|| write(&large)) > 0);
    assert_eq!(asked(|| write(&small)), 0);
    assert_eq!(asked(|| write(&large)), 0);
}

#[test]
fn a_refused_call_allocates_nothing() {
    let coordinates = vec![0.0; 200_000];
    let mut rooms = Rooms::for_building(1, 65_536);
    let lines = lovasuku_chains::Lines {
        dimension: Dimension::Xy,
        coordinates: &coordinates,
        counts: &[100_000],
        groups: &[0],
        kinds: &[0],
    };
    let build = || {
        assert_eq!(rooms.build(lines, Settings::default()).err().map(|r| r.number()), Some(5));
    };
    assert_eq!(asked(build), 0);
}
