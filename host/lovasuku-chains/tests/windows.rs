//! Windows over the chains of a call, against a look at every chain's points.

use lovasuku_chains::{
    window_question, Chains, LinesBuf, Refusal, Rooms, Settings, Window, WindowBuf,
};

/// Streets of a city: rows of lines that are joined, and as many lines by themselves.
fn city(side: usize) -> LinesBuf {
    let mut lines = LinesBuf::default();
    for (row, column) in (0..side).flat_map(|row| (0..side).map(move |column| (row, column))) {
        let [x, y] = [column as f64 * 10.0, row as f64 * 10.0];
        let way = [[x, y], [x + 3.0, y + 1.0], [x + 10.0, y]];
        lines.push(
            if column % 3 == 0 { [way[2], way[1], way[0]] } else { way },
            (column / 4) as u32,
        );
        lines.push([[x + 5.0, y + 4.0], [x + 6.0, y + 8.0]], 9);
    }
    lines.push_passing([[0.0; 2]; 0], 0);
    lines
}

/// The chains that have a point at or below each bound and one at or above.
fn plainly(chains: &Chains, window: Window) -> Vec<u32> {
    let meets = |k: &usize| {
        let chain = chains.get(*k).expect("a chain");
        let along = |axis: usize| {
            let mut points = chain.points().map(|point| point[axis]);
            let low = points.clone().fold(f64::INFINITY, f64::min);
            let high = points.by_ref().fold(f64::NEG_INFINITY, f64::max);
            low <= window.greatest[axis] && window.least[axis] <= high
        };
        along(0) && along(1)
    };
    (0..chains.len()).filter(meets).map(|k| k as u32).collect()
}

#[test]
fn every_window_over_a_city() {
    let lines = city(12);
    let (mut rooms, mut found) = (Rooms::default(), WindowBuf::new());
    let chains = rooms.build(lines.lines(), Settings::default()).unwrap();
    assert!(chains.len() > 150);
    let bounds = [-5.0, 0.0, 3.0, 10.0, 44.5, 45.0, 80.0, 121.0, f64::INFINITY];
    let mut sizes = Vec::new();
    for west in bounds {
        for east in bounds.into_iter().filter(|&east| west <= east) {
            for [south, north] in [[-1.0, 5.0], [30.0, 31.5], [0.0, 200.0]] {
                let window = Window { least: [west, south], greatest: [east, north] };
                let inside = chains.window(window, &mut found).unwrap();
                assert_eq!(inside.positions(), plainly(&chains, window), "{window:?}");
                sizes.push(inside.len());
                for (position, chain) in inside {
                    assert_eq!(chains.get(position), Some(chain));
                }
            }
        }
    }
    assert!(sizes.contains(&0) && sizes.iter().any(|&size| size + 1 == chains.len()), "{sizes:?}");
}

#[test]
fn a_chain_without_coordinates_meets_no_window() {
    let mut lines = LinesBuf::default();
    lines.push([[0.0; 2]; 0], 0);
    lines.push([[1.0, 1.0]], 0);
    let (mut rooms, mut found) = (Rooms::default(), WindowBuf::new());
    let chains = rooms.build(lines.lines(), Settings::default()).unwrap();
    let all = Window { least: [f64::NEG_INFINITY; 2], greatest: [f64::INFINITY; 2] };
    assert_eq!(chains.window(all, &mut found).unwrap().positions(), [1]);
    assert_eq!(chains.boxes()[..4], [f64::INFINITY, f64::INFINITY, -f64::INFINITY, -f64::INFINITY]);
    assert_eq!(chains.boxes()[4..8], [1.0; 4]);
    // One box for both.
    assert_eq!(chains.boxes()[8..12], [1.0; 4]);
}

#[test]
fn the_first_chains_alone() {
    let lines = city(5);
    let (mut rooms, mut found) = (Rooms::default(), WindowBuf::new());
    let chains = rooms.build(lines.lines(), Settings::default()).unwrap();
    let window = Window { least: [0.0, 0.0], greatest: [60.0, 60.0] };
    let all = chains.window(window, &mut found).unwrap().positions().to_vec();
    for k in 0..chains.len() {
        let some: Vec<u32> = all.iter().copied().filter(|&chain| (chain as usize) < k).collect();
        assert_eq!(chains.first(k).window(window, &mut found).unwrap().positions(), some);
    }
}

#[test]
fn windows_that_are_none_are_refused() {
    let lines = city(2);
    let (mut rooms, mut found) = (Rooms::default(), WindowBuf::new());
    let chains = rooms.build(lines.lines(), Settings::default()).unwrap();
    for window in [
        Window { least: [1.0, 0.0], greatest: [0.0, 1.0] },
        Window { least: [0.0, f64::NAN], greatest: [1.0, 1.0] },
    ] {
        assert_eq!(chains.window(window, &mut found).err(), Some(Refusal::BadWindow));
    }
    let corners = Window::between([7.0, -2.0], [1.0, 3.0]);
    assert!(chains.window(corners, &mut found).is_ok());
    // Nothing is built, and nothing lies in a window.
    let none = LinesBuf::default();
    let chains = rooms.build(none.lines(), Settings::default()).unwrap();
    assert_eq!(chains.window(corners, &mut found).unwrap().len(), 0);
}

#[test]
fn boxes_that_were_kept_answer_as_the_chains_do() {
    let lines = city(6);
    let (mut rooms, mut found) = (Rooms::default(), WindowBuf::new());
    let chains = rooms.build(lines.lines(), Settings::default()).unwrap();
    let window = Window { least: [12.0, 8.0], greatest: [31.0, 22.0] };
    let inside = chains.window(window, &mut found).unwrap().positions().to_vec();
    let (kept, k) = (chains.boxes().to_vec(), chains.len());
    drop(rooms);
    assert_eq!(window_question(&kept, k, window, &mut found), Ok(&inside[..]));
    let short = window_question(&kept[1..], k, window, &mut found);
    assert_eq!(short, Err(Refusal::RoomTooShort));
    let many = window_question(&kept, usize::MAX, window, &mut found);
    assert_eq!(many, Err(Refusal::RoomTooShort));
}
