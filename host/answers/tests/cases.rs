//! The cases of the rules, by letter, put to the model.

use answers::model::plane::{cell, direction};
use answers::model::Model;
use answers::{BuildCall, Built, Pair, PairingCall, Port, Route};
use answers::{
    BAD_ORIGIN, BORDER, DISTRICT_OVER_COORDINATES, DISTRICT_OVER_LINES, NO_PLACE, NO_TYPE, TYPES,
};

type Line = [(f64, f64)];

/// The answer to plain lines of one group.
fn build(lines: &[&Line], tolerance: f64, limit: Option<f64>) -> Built {
    let mut call = BuildCall {
        tolerance: tolerance.to_bits(),
        switch: u8::from(limit.is_some()),
        limit: limit.unwrap_or(f64::NAN).to_bits(),
        ..BuildCall::default()
    };
    lines.iter().for_each(|line| call.push_plain(line));
    Model.build(&call).expect("every coordinate is a place")
}

/// Bits of coordinates.
fn bits(line: &Line) -> Vec<u64> {
    line.iter().flat_map(|&(x, y)| [x.to_bits(), y.to_bits()]).collect()
}

/// The pairs of present ends.
fn pairs(ends: &[(f64, f64)], pieces: &[u32], limit: f64) -> Vec<Pair> {
    let mut call = PairingCall { limit: limit.to_bits(), ..PairingCall::default() };
    for (&(x, y), &piece) in ends.iter().zip(pieces) {
        call.push(true, [x.to_bits(), y.to_bits()], piece);
    }
    Model.pairs(Route::Plain, &call).expect("the model refuses no pairing")
}

#[test]
fn a_no_lines() {
    assert_eq!(build(&[], 0.0, None), Built::default());
}

#[test]
fn b_two_lines_meet_within_a_group() {
    let lines: [&Line; 2] = [&[(0.0, 0.0), (1.0, 0.0)], &[(1.0, 0.0), (2.0, 0.0)]];
    let built = build(&lines, 0.0, None);
    assert_eq!(built.table, [[0, 2, 1, 0, 3, 0]]);
    assert_eq!((built.members, built.marks), (vec![0, 1], vec![0, 0]));
    assert_eq!(built.merged, bits(&[(0.0, 0.0), (1.0, 0.0), (2.0, 0.0)]));
    let mut call = BuildCall::default();
    lines.iter().for_each(|line| call.push_plain(line));
    call.groups[1] = 1;
    let built = Model.build(&call).expect("every coordinate is a place");
    assert_eq!(built.table, [[0, 1, 0, 0, 2, 0], [1, 1, 0, 2, 2, 0]]);
}

#[test]
fn c_the_head_is_found_going_back() {
    let built = build(&[&[(1.0, 0.0), (0.0, 0.0)], &[(1.0, 0.0), (2.0, 0.0)]], 0.0, None);
    assert_eq!((built.members, built.marks), (vec![1, 0], vec![1, 0]));
    assert_eq!(built.merged, bits(&[(2.0, 0.0), (1.0, 0.0), (0.0, 0.0)]));
}

#[test]
fn d_rings_of_one_and_of_two() {
    let built = build(&[&[(0.0, 0.0), (1.0, 0.0), (0.0, 1.0), (0.0, 0.0)]], 0.0, None);
    assert_eq!(built.table, [[0, 1, 0, 0, 4, 1]]);
    let lines: [&Line; 2] = [&[(0.0, 0.0), (1.0, 0.0)], &[(1.0, 0.0), (1.0, 1.0), (0.0, 0.0)]];
    assert_eq!(build(&lines, 0.0, None).table, [[0, 2, 1, 0, 4, 1]]);
}

#[test]
fn loops_have_three_points_and_close_bit_for_bit() {
    let looped = |line: &Line| build(&[line], 0.0, None).table[0][5];
    assert_eq!([&[][..], &[(1.0, 1.0)], &[(1.0, 1.0); 2]].map(looped), [0; 3]);
    assert_eq!([&[(1.0, 1.0); 3][..], &[(0.0, 1.0), (7.0, 7.0), (0.0, 1.0)]].map(looped), [1; 2]);
    let zeros = [(0.0, 1.0), (7.0, 7.0), (-0.0, 1.0)];
    assert_eq!([looped(&zeros), looped(&[zeros[2], zeros[1], zeros[2]])], [0, 1]);
    // Extras decide nothing.
    let mut call = of_type(1002);
    call.push_numbers(&words([0.0, 0.0, 1.0, 1.0, 0.0, 2.0, 0.0, 0.0, f64::NAN]), 0, 1);
    call.push_numbers(&words([0.0, 0.0, 1.0, 1.0, 0.0, 2.0, 0.0, 1.0, 1.0]), 0, 1);
    let built = Model.build(&call).expect("every coordinate is a place");
    assert_eq!([built.table[0][5], built.table[1][5]], [1, 0]);
}

#[test]
fn e_a_junction_with_and_without_the_switch() {
    let lines: [&Line; 3] =
        [&[(-1.0, 0.0), (0.0, 0.0)], &[(0.0, 0.0), (1.0, 0.0)], &[(0.0, 0.0), (0.0, 1.0)]];
    let built = build(&lines, 0.0, Some(-0.5));
    assert_eq!(built.table, [[0, 2, 1, 0, 3, 0], [2, 1, 0, 4, 2, 0]]);
    assert_eq!(built.members, [0, 1, 2]);
    assert_eq!(build(&lines, 0.0, None).table.len(), 3);
}

#[test]
fn f_two_zeros_are_two_keys_and_one_coordinate() {
    let built = build(&[&[(0.0, 0.0), (-0.0, 0.0)], &[(-0.0, 0.0), (0.0, 0.0)]], 0.0, None);
    assert_eq!(built.table, [[0, 2, 1, 0, 1, 0]]);
}

#[test]
fn g_cells_join_within_and_not_across() {
    let first: &Line = &[(0.25, 0.0), (1.25, 0.0)];
    let within = build(&[first, &[(1.75, 0.0), (3.5, 0.0)]], 1.0, None);
    assert_eq!(within.table, [[0, 2, 1, 0, 4, 0]]);
    let across = build(&[first, &[(2.0, 0.0), (3.5, 0.0)]], 1.0, None);
    assert_eq!(across.table.len(), 2);
}

#[test]
fn h_a_piece_walked_backwards_keeps_its_members_in_order() {
    let lines: [&Line; 3] =
        [&[(0.0, 0.0), (1.25, 0.0)], &[(4.5, 0.0), (3.5, 0.0)], &[(3.5, 0.0), (1.75, 0.0)]];
    let built = build(&lines, 1.0, None);
    assert_eq!((built.members, built.marks), (vec![0, 1, 2], vec![0, 1, 1]));
    assert_eq!(built.listing, [0, 2, 1]);
    let run = [(0.0, 0.0), (1.25, 0.0), (1.75, 0.0), (3.5, 0.0), (4.5, 0.0)];
    assert_eq!(built.merged, bits(&run));
}

#[test]
fn a_mark_counts_the_rounds_in_which_a_line_was_turned() {
    let first: &Line = &[(0.0, 0.0), (1.25, 0.0)];
    let both = |lines: [&Line; 2]| {
        let built = build(&[first, lines[0], lines[1]], 1.0, None);
        (built.members, built.marks, built.listing)
    };
    // Turned by round one alone, and by both.
    let once = both([&[(1.75, 0.0), (3.5, 0.0)], &[(4.5, 0.0), (3.5, 0.0)]]);
    assert_eq!(once, (vec![0, 1, 2], vec![0, 0, 1], vec![0, 1, 2]));
    let twice = both([&[(4.5, 0.0), (3.5, 0.0)], &[(1.75, 0.0), (3.5, 0.0)]]);
    assert_eq!(twice, (vec![0, 1, 2], vec![0, 1, 0], vec![0, 2, 1]));
    // A piece that round two leaves alone keeps its marks.
    let alone = build(&[first, &[(2.0, 0.0), (1.25, 0.0)]], 0.1, None);
    assert_eq!((alone.marks, alone.listing), (vec![0, 1], vec![0, 1]));
}

#[test]
fn i_repeats_stay_in_a_lone_line() {
    let line: &Line = &[(0.0, 0.0), (0.0, 0.0), (1.0, 0.0)];
    assert_eq!(build(&[line], 0.0, None).table, [[0, 1, 0, 0, 3, 0]]);
    assert_eq!(build(&[line, &[(1.0, 0.0), (2.0, 0.0)]], 0.0, None).table, [[0, 2, 1, 0, 3, 0]]);
}

#[test]
fn j_k_l_pairs() {
    let (east, west, north) = ((1.0, 0.0), (-1.0, 0.0), (0.0, 1.0));
    let four = [0, 1, 2, 3];
    assert_eq!(pairs(&[east, west, west, east], &four, -1.0), [[0, 1], [2, 3]]);
    assert_eq!(pairs(&[east, west, east], &[7, 7, 8], -1.0), [[1, 2]]);
    assert_eq!(pairs(&[east, west, north, east], &four, -1.0), [[0, 1]]);
    assert_eq!(pairs(&[east, west, north, east], &four, 0.0), [[0, 1], [2, 3]]);
}

#[test]
fn m_directions_at_the_edges_of_the_format() {
    let toward = |power: i32| {
        let x = f64::from_bits(((1023 + power) as u64) << 52);
        direction(&[[0, 0], [x.to_bits(), 0]], 0)
    };
    assert_eq!((toward(-537), toward(-538)), (Some((1.0, 0.0)), None));
    assert_eq!((toward(511), toward(512)), (Some((1.0, 0.0)), Some((0.0, 0.0))));
}

#[test]
fn a_coordinate_that_is_no_place_is_refused() {
    let plain = [[0, 0], [1.0f64.to_bits(), 0]];
    for lost in [f64::NAN, f64::INFINITY, f64::NEG_INFINITY].map(f64::to_bits) {
        for (line, kind) in [([[0, 0], [0, lost]], 0), ([[lost, 0], [0, 0]], 1)] {
            let mut call = BuildCall::default();
            call.push(&plain, 0, 0);
            call.push(&line, 0, kind);
            assert_eq!(Model.build(&call), Err(NO_PLACE));
            call.coordinates.truncate(6);
            call.counts[1] = 1;
            assert_eq!(Model.build(&call).is_err(), kind == 1);
        }
    }
}

#[test]
fn differences_of_places_overflow() {
    let greatest = 2f64.powi(1023).to_bits();
    let line = [[greatest, 0], [greatest | 1 << 63, 0]];
    let (x, y) = direction(&line, 0).expect("a direction");
    assert!(x.is_nan() && y == 0.0);
    // It never qualifies: of three lines that meet the other two are joined, whose directions are
    // (0, 0), since the squares of their differences overflow too.
    let mut call = BuildCall { switch: 1, limit: 1f64.to_bits(), ..BuildCall::default() };
    call.push(&line, 0, 0);
    let near = 2f64.powi(1022).to_bits();
    call.push(&[[greatest, 0], [near, 0]], 0, 0);
    call.push(&[[greatest, 0], [greatest, near]], 0, 0);
    let built = Model.build(&call).expect("every coordinate is a place");
    assert_eq!(built.table, [[0, 1, 0, 0, 2, 0], [1, 2, 1, 0, 3, 0]]);
    assert_eq!(built.members, [0, 2, 1]);
}

#[test]
fn n_cells_below_and_at_zero() {
    for zero in [0.0, -0.0] {
        assert_eq!((cell(-0.25, zero, 1.0), cell(-0.0, zero, 1.0)), (-1, 0));
    }
}

#[test]
fn cells_from_an_origin() {
    assert_eq!((cell(2.0, 0.25, 1.0), cell(2.25, 0.25, 1.0)), (1, 2));
    assert_eq!((cell(0.0, 0.25, 1.0), cell(0.25, 0.25, 1.0)), (-1, 0));
    // The difference is rounded, and then the quotient: a difference of two quotients is another.
    assert_eq!((cell(0.1, 0.4, 0.3), (0.1f64 / 0.3 - 0.4 / 0.3).floor()), (-2, -1.0));
    assert_eq!((cell(0.3, 0.5, 0.2), (0.3f64 / 0.2 - 0.5 / 0.2).floor()), (-1, -2.0));
    // It may overflow: infinite by a number is at the end of the range, and by itself NaN.
    let far = [f64::MAX, f64::MIN];
    assert_eq!(cell(far[0], far[1], 1.0), i64::MAX);
    assert_eq!(cell(far[1], far[0], 1.0), i64::MIN);
    assert_eq!(cell(far[0], far[1], f64::INFINITY), 0);
}

#[test]
fn an_origin_that_is_no_place_is_refused() {
    for lost in [f64::NAN, f64::INFINITY, f64::NEG_INFINITY].map(f64::to_bits) {
        for origin in [[lost, 0], [0, lost]] {
            let mut call = BuildCall { origin, ..BuildCall::default() };
            assert_eq!(Model.build(&call), Err(BAD_ORIGIN));
            call.push(&[[0, lost]], 0, 0);
            assert_eq!(Model.build(&call), Err(NO_PLACE));
        }
    }
}

#[test]
fn a_district_over_its_share_is_refused() {
    for group in [0, BORDER - 1, BORDER, u32::MAX] {
        let mut call = BuildCall { origin: [u64::MAX; 2], ..BuildCall::default() };
        call.push(&[[u64::MAX; 2]; 32_768], group, 1);
        (1..2_048).for_each(|_| call.push(&[], group, 0));
        assert_eq!(Model.build(&call), Err(NO_PLACE));
        let mut points = call.clone();
        (points.counts[1], points.coordinates) = (1, vec![u64::MAX; 2 * 32_769]);
        assert_eq!(Model.build(&points), Err(DISTRICT_OVER_COORDINATES));
        call.push(&[], group ^ BORDER, 0);
        assert_eq!(Model.build(&call), Err(NO_PLACE));
        points.push(&[], group, 0);
        assert_eq!(Model.build(&points), Err(DISTRICT_OVER_LINES));
    }
}

#[test]
fn lines_of_two_districts_never_meet() {
    let mut call = BuildCall { tolerance: 1f64.to_bits(), ..BuildCall::default() };
    let lines: [&Line; 2] = [&[(0.0, 0.0), (1.0, 0.0)], &[(1.0, 0.0), (2.0, 0.0)]];
    lines.iter().for_each(|line| call.push_plain(line));
    assert_eq!(Model.build(&call).map(|built| built.table.len()), Ok(1));
    call.groups[1] = BORDER;
    assert_eq!(Model.build(&call).map(|built| built.table.len()), Ok(2));
}

/// A call of a type without lines.
fn of_type(wkb_type: u32) -> BuildCall {
    BuildCall { wkb_type, ..BuildCall::default() }
}

/// The bits of numbers.
fn words<const N: usize>(numbers: [f64; N]) -> [u64; N] {
    numbers.map(f64::to_bits)
}

#[test]
fn of_repeats_the_earlier_one_keeps_its_extras() {
    let mut call = of_type(1002);
    call.push_numbers(&words([0.0, 0.0, 1.0, 1.0, 0.0, 2.0, 1.0, 0.0, 3.0]), 0, 0);
    call.push_numbers(&words([1.0, 0.0, 4.0, 2.0, 0.0, 5.0]), 0, 0);
    let built = Model.build(&call).expect("every coordinate is a place");
    assert_eq!(built.table, [[0, 2, 1, 0, 3, 0]]);
    assert_eq!(built.merged, words([0.0, 0.0, 1.0, 1.0, 0.0, 2.0, 2.0, 0.0, 5.0]));
}

#[test]
fn the_earlier_one_is_that_of_each_round_s_own_laying() {
    // Round one lays line 1 and then line 2, turned, and keeps line 1's height at 3.5. Round two
    // walks that piece backwards: laid afresh, it would be line 2's.
    let mut call = BuildCall { tolerance: 1f64.to_bits(), ..of_type(1002) };
    call.push_numbers(&words([0.0, 0.0, 1.0, 1.25, 0.0, 2.0]), 0, 0);
    call.push_numbers(&words([4.5, 0.0, 3.0, 3.5, 0.0, 4.0]), 0, 0);
    call.push_numbers(&words([3.5, 0.0, 5.0, 1.75, 0.0, 6.0]), 0, 0);
    let built = Model.build(&call).expect("every coordinate is a place");
    assert_eq!((built.members, built.marks), (vec![0, 1, 2], vec![0, 1, 1]));
    let heights: Vec<f64> = built.merged.chunks(3).map(|p| f64::from_bits(p[2])).collect();
    assert_eq!(heights, [1.0, 2.0, 6.0, 4.0, 3.0]);
}

#[test]
fn extras_may_be_anything_and_a_type_is_one_of_four() {
    let lost = [f64::NAN, f64::NEG_INFINITY];
    for wkb_type in TYPES {
        let mut call = of_type(wkb_type);
        let stride = call.stride();
        let line: Vec<u64> = [0.0, 1.0]
            .iter()
            .flat_map(|&x| words([x, 0.0, lost[0], lost[1]])[..stride].to_vec())
            .collect();
        call.push_numbers(&line, 0, 0);
        assert!(Model.build(&call).is_ok());
        call.coordinates[stride] = lost[0].to_bits();
        assert_eq!(Model.build(&call), Err(NO_PLACE));
    }
    for wkb_type in [0, 1, 3, 1001, 1003, 2003, 4002, 0x8000_0002, u32::MAX] {
        assert_eq!(Model.build(&of_type(wkb_type)), Err(NO_TYPE));
    }
}

#[test]
fn without_extras_everything_else_is_the_same() {
    let mut call = of_type(3002);
    call.push_numbers(&words([0.0, 0.0, 1.0, 2.0, 1.0, 0.0, 3.0, 4.0]), 0, 0);
    call.push_numbers(&words([2.0, 0.0, 5.0, 6.0, 1.0, -0.0, 7.0, 8.0, 1.0, 0.0, 9.0, 9.5]), 0, 0);
    let built = Model.build(&call).expect("every coordinate is a place");
    assert_eq!(Model.build(&call.flat()), Ok(built.flat(4)));
    assert_eq!(built.merged.len(), 12);
}
