//! What the safe calls promise beside the rules: borrowed coordinates, bits kept, rooms lent again,
//! every refusal by its name.

use lovasuku_chains::large::{join, Fault, Line, Way};
use lovasuku_chains::size::{
    BORDER, MOST_DISTRICT_LINES, MOST_DISTRICT_POINTS, MOST_ENDS, MOST_LINES, MOST_POINTS,
};
use lovasuku_chains::{
    build_chains, chain_coordinates, chain_question, door, Chains, Dimension, Ends, LineInput,
    Lines, LinesBuf, OwnedChain, Reason, Refusal, Rooms, Route, Settings,
};

/// A line that joins the next but one, and between them one that passes through.
fn three_lines() -> LinesBuf {
    let mut lines = LinesBuf::default();
    lines.push([[0.0, 0.0], [1.0, 0.0]], 0);
    lines.push_passing([[1.0, 0.0], [1.0, 9.0], [5.0, 9.0]], 0);
    lines.push([[1.0, 0.0], [2.0, 0.0]], 0);
    lines
}

/// A plain line of x and y.
fn one_line<'a>(coordinates: &'a [f64], counts: &'a [u32]) -> Lines<'a> {
    Lines { dimension: Dimension::Xy, coordinates, counts, groups: &[0], kinds: &[0] }
}

/// True where a slice is a part of another, not a copy.
fn within(part: &[f64], whole: &[f64]) -> bool {
    let whole = whole.as_ptr_range();
    let part = part.as_ptr_range();
    whole.start <= part.start && part.end <= whole.end
}

#[test]
fn coordinates_are_borrowed_from_the_lines_or_the_rooms() {
    let lines = three_lines();
    let mut rooms = Rooms::default();
    let chains = rooms.build(lines.lines(), Settings::default()).unwrap();
    let [joined, passed] = [chains.get(0).unwrap(), chains.get(1).unwrap()];
    assert_eq!((joined.members(), passed.members()), (&[0, 2][..], &[1][..]));
    assert!(joined.is_merged() && within(joined.coordinates(), chains.merged()));
    assert!(!passed.is_merged() && within(passed.coordinates(), lines.lines().coordinates));
    assert_eq!(passed.coordinates(), &lines.lines().coordinates[4..10]);
    assert_eq!(chains.merged().len(), 6);
    assert_eq!((chains.iter().len(), chains.get(2)), (2, None));
    assert_eq!(chains.get(usize::MAX), None);
}

#[test]
fn every_bit_of_a_coordinate_comes_back() {
    let least = f64::from_bits(1);
    let mut lines = LinesBuf::default();
    lines.push([[5.0, least], [f64::MAX, -0.0]], 0);
    lines.push([[f64::MAX, -0.0], [6.0, -least], [f64::MIN, 7.1]], 0);
    let mut rooms = Rooms::default();
    let chains = rooms.build(lines.lines(), Settings::default()).unwrap();
    let bits: Vec<u64> = chains.merged().iter().map(|x| x.to_bits()).collect();
    let laid = [5.0, least, f64::MAX, -0.0, 6.0, -least, f64::MIN, 7.1];
    assert_eq!(bits, laid.map(f64::to_bits));
}

#[test]
fn a_coordinate_that_is_no_place_is_refused() {
    let mut rooms = Rooms::default();
    for lost in [f64::NAN, -f64::NAN, f64::INFINITY, f64::NEG_INFINITY] {
        for point in [[lost, 0.0], [0.0, lost]] {
            let mut plain = LinesBuf::default();
            plain.push([[0.0, 0.0], point, [1.0, 0.0]], 0);
            let mut passing = LinesBuf::default();
            passing.push([[0.0, 0.0], [1.0, 0.0]], 0);
            passing.push_passing([[0.0, 0.0], point], 0);
            let mut single = LinesBuf::default();
            single.push([point], 0);
            for lines in [plain, passing, single] {
                let settings = Settings::default();
                let refused = |settings| rooms.build(lines.lines(), settings).err();
                let answers = [settings, settings.with_limit(2.0)].map(refused);
                assert_eq!(answers, [Some(Refusal::NoPlace); 2]);
            }
            let lines = [[[5.0, 5.0], [6.0, 5.0]], [[0.0, 0.0], point]];
            let lines = [0, 1].map(|k| Line { points: Some(&lines[k]), extras: &[], group: 0 });
            let settings = Settings::default().with_tolerance(1.0);
            let joined = join(Dimension::Xy, &lines, (settings, None), Way::default());
            assert_eq!(joined, Err(Fault::Refused(Refusal::NoPlace)));
        }
    }
}

#[test]
fn a_difference_that_overflows_continues_nothing() {
    let far = 2f64.powi(1023);
    let mut lines = LinesBuf::default();
    lines.push([[far, 0.0], [-far, 0.0]], 0);
    lines.push([[far, 0.0], [far, far]], 0);
    lines.push([[far, 0.0], [far, -far]], 0);
    let mut rooms = Rooms::default();
    let wide = Settings::default().with_limit(1.0);
    let members = |chains: Chains| -> Vec<Vec<u32>> {
        chains.iter().map(|chain| chain.members().to_vec()).collect()
    };
    // The first line's direction has a NaN; those of the others are (0, 0), whose measure is 0.
    let chains = rooms.build(lines.lines(), wide).unwrap();
    assert_eq!(members(chains), [vec![0], vec![2, 1]]);
    let chains = rooms.build(lines.lines(), wide.with_limit(-0.5)).unwrap();
    assert_eq!(members(chains), [vec![0], vec![1], vec![2]]);
}

#[test]
fn rooms_lent_again_give_the_same() {
    let lines = three_lines();
    let mut used = Rooms::default();
    let owned = |rooms: &mut Rooms, lines: &LinesBuf| -> Vec<OwnedChain> {
        let chains = rooms.build(lines.lines(), Settings::default()).unwrap();
        chains.into_iter().map(OwnedChain::from).collect()
    };
    let first = owned(&mut used, &lines);
    let mut many = LinesBuf::default();
    (0..500).for_each(|k| many.push([[f64::from(k), 0.0], [f64::from(k + 1), 0.0]], 0));
    assert_eq!(owned(&mut used, &many).len(), 1);
    assert_eq!(owned(&mut used, &lines), first);
    many.clear();
    assert!(many.is_empty() && owned(&mut used, &many).is_empty());
}

/// The last group of the first district and the first of the second, in turn.
fn either_district(line: usize) -> u32 {
    [BORDER - 1, BORDER][line % 2]
}

#[test]
fn the_largest_call_is_accepted_and_one_more_is_not() {
    let counts = vec![16; MOST_LINES];
    let groups: Vec<u32> = (0..=MOST_LINES).map(either_district).collect();
    let kinds = vec![0; MOST_LINES + 1];
    let coordinates: Vec<f64> = (0..2 * MOST_POINTS).map(|k| k as f64).collect();
    let lines = Lines {
        dimension: Dimension::Xy,
        coordinates: &coordinates,
        counts: &counts,
        groups: &groups[1..],
        kinds: &kinds[1..],
    };
    let mut rooms = Rooms::default();
    assert_eq!(rooms.build(lines, Settings::default()).unwrap().len(), MOST_LINES);
    let counts = vec![0; MOST_LINES + 1];
    let more = Lines { coordinates: &[], counts: &counts, groups: &groups, kinds: &kinds, ..lines };
    assert_eq!(rooms.build(more, Settings::default()).err(), Some(Refusal::TooMany));
    let coordinates = vec![0.0; 2 * MOST_POINTS + 2];
    let counts = [MOST_POINTS as u32 + 1];
    let long =
        Lines { coordinates: &coordinates, counts: &counts, groups: &[0], kinds: &[0], ..lines };
    assert_eq!(rooms.build(long, Settings::default()).err(), Some(Refusal::TooManyCoordinates));
}

#[test]
fn a_district_has_its_share_and_no_more() {
    let mut rooms = Rooms::default();
    let mut answer =
        |lines: Lines| rooms.build(lines, Settings::default()).map(|built| built.len());
    let kinds = vec![1; MOST_LINES];
    let counts = vec![0; MOST_LINES];
    for group in [0, BORDER - 1, BORDER, u32::MAX] {
        let groups = vec![group; MOST_LINES];
        let empty = |n: usize| Lines {
            counts: &counts[..n],
            groups: &groups[..n],
            kinds: &kinds[..n],
            ..Lines::default()
        };
        assert_eq!(answer(empty(MOST_DISTRICT_LINES)), Ok(MOST_DISTRICT_LINES));
        let over = Err(Refusal::DistrictOverLines);
        assert_eq!([MOST_DISTRICT_LINES + 1, MOST_LINES].map(|n| answer(empty(n))), [over, over]);
        let coordinates = vec![0.0; 2 * MOST_POINTS];
        let long = |points: usize| (&coordinates[..2 * points], [points as u32]);
        let (most, counts) = long(MOST_DISTRICT_POINTS);
        let line = Lines { groups: &[group], ..one_line(most, &counts) };
        assert_eq!(answer(line), Ok(1));
        for points in [MOST_DISTRICT_POINTS + 1, MOST_POINTS] {
            let (more, counts) = long(points);
            let line = Lines { groups: &[group], ..one_line(more, &counts) };
            assert_eq!(answer(line), Err(Refusal::DistrictOverCoordinates));
        }
    }
}

#[test]
fn building_names_its_refusals() {
    let good = one_line(&[0.0; 4], &[2]);
    let plain = Settings::default();
    let mut rooms = Rooms::default();
    let mut refused = |lines, settings| rooms.build(lines, settings).err();
    assert_eq!(refused(good, plain), None);
    assert_eq!(refused(Lines { groups: &[], ..good }, plain), Some(Refusal::TablesDiffer));
    assert_eq!(refused(Lines { kinds: &[0, 0], ..good }, plain), Some(Refusal::TablesDiffer));
    assert_eq!(refused(Lines { kinds: &[2], ..good }, plain), Some(Refusal::MarkAboveOne));
    assert_eq!(refused(Lines { counts: &[1], ..good }, plain), Some(Refusal::CountsDoNotAddUp));
    assert_eq!(
        refused(Lines { coordinates: &[0.0; 5], ..good }, plain),
        Some(Refusal::CountsDoNotAddUp)
    );
    assert_eq!(refused(good, plain.with_limit(1.5)), Some(Refusal::BadLimit));
    assert_eq!(refused(good, plain.with_tolerance(f64::NAN)), None);
    for lost in [f64::NAN, f64::INFINITY, f64::NEG_INFINITY] {
        for origin in [[lost, 0.0], [0.0, lost]] {
            // Whatever the tolerance is, for no lines too, and after the limit.
            let away = plain.with_origin(origin);
            assert_eq!(refused(good, away), Some(Refusal::BadOrigin));
            assert_eq!(refused(good, away.with_tolerance(1.0)), Some(Refusal::BadOrigin));
            assert_eq!(refused(Lines::default(), away), Some(Refusal::BadOrigin));
            assert_eq!(refused(good, away.with_limit(1.5)), Some(Refusal::BadLimit));
        }
    }
    assert_eq!(refused(good, plain.with_origin([f64::MAX, f64::MIN])), None);
}

#[test]
fn the_first_refusal_that_applies_is_given() {
    let wrong = one_line(&[0.0; 140_001], &[2]);
    let wide = Settings::default().with_limit(2.0);
    let mut rooms = Rooms::default();
    let mut refused = |lines| rooms.build(lines, wide).err().map(Refusal::number);
    assert_eq!(refused(Lines { kinds: &[2, 2], ..wrong }), Some(2));
    assert_eq!(refused(Lines { kinds: &[2], ..wrong }), Some(3));
    assert_eq!(refused(wrong), Some(4));
    let long = Lines { coordinates: &wrong.coordinates[1..], counts: &[70_000], ..wrong };
    assert_eq!(refused(long), Some(5));
    let mut lost = [0.0; 140_000];
    lost[3] = f64::NAN;
    assert_eq!(refused(Lines { coordinates: &lost, counts: &[70_000], ..wrong }), Some(5));
    let share = Lines { coordinates: &lost[..80_000], counts: &[40_000], ..wrong };
    assert_eq!(refused(share), Some(21));
    let counts: Vec<u32> = (0..2_049).map(|line| if line == 0 { 40_000 } else { 0 }).collect();
    let (groups, kinds) = ([9; 2_049], [0; 2_049]);
    assert_eq!(
        refused(Lines { counts: &counts, groups: &groups, kinds: &kinds, ..share }),
        Some(20)
    );
    assert_eq!(refused(Lines { coordinates: &lost[..4], ..wrong }), Some(15));
    assert_eq!(refused(Lines { coordinates: &[0.0; 4], ..wrong }), Some(6));
}

#[test]
fn pairing_names_its_refusals() {
    let good = Ends { present: &[1, 1], directions: &[1.0, 0.0, -1.0, 0.0], pieces: &[0, 1] };
    let mut rooms = Rooms::default();
    let mut refused = |route, ends, limit| rooms.pairs(route, ends, limit).err();
    let many = vec![0; MOST_ENDS + 1];
    for route in [Route::Plain, Route::Indexed, Route::Chosen] {
        assert_eq!(refused(route, good, 0.0), None);
        assert_eq!(refused(route, Ends { pieces: &many, ..good }, 0.0), Some(Refusal::TooMany));
        assert_eq!(
            refused(route, Ends { present: &[1], ..good }, 0.0),
            Some(Refusal::TablesDiffer)
        );
        assert_eq!(
            refused(route, Ends { directions: &[1.0; 3], ..good }, 0.0),
            Some(Refusal::TablesDiffer)
        );
        assert_eq!(
            refused(route, Ends { present: &[1, 2], ..good }, 0.0),
            Some(Refusal::MarkAboveOne)
        );
        assert_eq!(refused(route, good, f64::NAN), Some(Refusal::BadLimit));
        let often = Ends { present: &[0; 3], directions: &[0.0; 6], pieces: &[5; 3] };
        assert_eq!(refused(route, often, 0.0), Some(Refusal::PieceTooOften));
        let wild = Ends { directions: &[1.0, f64::INFINITY, -1.0, 0.0], ..good };
        let alone = (route == Route::Indexed).then_some(Refusal::NotFinite);
        assert_eq!(refused(route, wild, 0.0), alone);
    }
}

#[test]
fn the_chain_question_is_about_the_named_slice() {
    let (input, merged) = ([0.0; 6], [1.0; 4]);
    let table = [
        [0, 1, 0, 1, 2, 0],
        [1, 2, 1, 0, 2, u32::MAX],
        [3, 1, 2, 0, 0, 0],
        [4, 1, 1, u32::MAX, u32::MAX, 0],
    ]
    .concat();
    let question =
        |k| chain_question(Dimension::Xy, &input, &merged, &table, k).map_err(Refusal::number);
    assert_eq!([0, 1, 2, 3, 4].map(question), [Ok(()), Ok(()), Err(10), Err(10), Err(10)]);
    assert_eq!(question(u64::MAX / 6), Err(10));
    assert_eq!(question(u64::MAX), Err(10));
    assert_eq!(chain_coordinates(Dimension::Xy, &input, &merged, &table, 0), Ok(&[0.0; 4][..]));
    assert_eq!(chain_coordinates(Dimension::Xy, &input, &merged, &table, 1), Ok(&[1.0; 4][..]));
    assert_eq!(
        chain_coordinates(Dimension::Xy, &input, &merged, &table, 4),
        Err(Refusal::NoSuchChain)
    );
}

/// Two ends of piece 7 that point apart, an absent end of piece 8, and two that point as the first
/// two do.
fn bends() -> Ends<'static> {
    Ends {
        present: &[1, 1, 0, 1, 1],
        directions: &[1.0, 0.0, -1.0, 0.0, f64::NAN, 0.0, 1.0, 0.0, -1.0, 0.0],
        pieces: &[7, 7, 8, 8, 9],
    }
}

#[test]
fn every_reason_by_its_name_in_either_order_of_the_ends() {
    let blocked = |place, pair| Reason::Blocked { place, pair };
    let mut rooms = Rooms::default();
    for (ends, reason) in [
        ([0, 4], Reason::Selected),
        ([1, 3], Reason::Selected),
        ([0, 1], Reason::SamePiece),
        ([2, 3], Reason::SamePiece),
        ([0, 2], Reason::AbsentDirection),
        ([0, 3], Reason::NotQualifying),
        ([3, 4], blocked(0, [0, 4])),
    ] {
        let [i, j] = ends;
        assert_eq!(rooms.why(bends(), -1.0, [i, j]), Ok(reason), "{i} {j}");
        assert_eq!(rooms.why(bends(), -1.0, [j, i]), Ok(reason), "{j} {i}");
    }
    // Under a wider limit ends 0 and 3 qualify, and the later of two pairs has end 3.
    assert_eq!(rooms.why(bends(), 1.0, [3, 0]), Ok(blocked(0, [0, 4])));
    assert_eq!(rooms.pairs(Route::Chosen, bends(), 1.0), Ok(&[[0, 4], [1, 3]][..]));
}

#[test]
fn a_blocking_pair_is_the_one_that_pairing_lists() {
    let present = [1; 12];
    let directions: Vec<f64> = (0..24).map(|k| f64::from(k * 7 % 11) - 5.0).collect();
    let pieces: Vec<u32> = (0..12).collect();
    let ends = Ends { present: &present, directions: &directions, pieces: &pieces };
    let mut rooms = Rooms::default();
    let pairs = rooms.pairs(Route::Plain, ends, 1.0).unwrap().to_vec();
    let mut places = Vec::new();
    for (i, j) in (0..12).flat_map(|i| (0..i).map(move |j| (i, j))) {
        if let Reason::Blocked { place, pair } = rooms.why(ends, 1.0, [i, j]).unwrap() {
            assert_eq!(pairs[place], pair);
            assert!(pair.contains(&i) || pair.contains(&j));
            places.push(place);
        }
    }
    assert!(places.contains(&0) && places.contains(&(pairs.len() - 2)), "{places:?}");
}

#[test]
fn why_names_its_refusals() {
    let good = bends();
    let mut rooms = Rooms::default();
    let mut refused = |ends, limit, of| rooms.why(ends, limit, of).err();
    for of in [[0, 5], [5, 0], [u32::MAX, 0], [3, 3]] {
        assert_eq!(refused(good, 0.0, of), Some(Refusal::NoTwoEnds));
        assert_eq!(refused(Ends { present: &[1], ..good }, 0.0, of), Some(Refusal::TablesDiffer));
        assert_eq!(refused(good, f64::NAN, of), Some(Refusal::BadLimit));
        let often = Ends { pieces: &[7, 7, 7, 8, 8], ..good };
        assert_eq!(refused(often, 0.0, of), Some(Refusal::PieceTooOften));
    }
    assert_eq!(refused(good, 0.0, [0, 4]), None);
}

#[test]
fn answers_below_zero_are_refusals() {
    assert_eq!(door::result(0), Ok(0));
    assert_eq!(door::result(i64::MAX), Ok(i64::MAX as u64));
    assert_eq!(door::result(-7), Err(Refusal::RoomTooShort));
    assert_eq!(door::result(-30), Err(Refusal::Unknown(30)));
    assert!(door::result(i64::MIN).is_err());
}

#[test]
fn the_adapter_reads_angles_as_the_rust_does() {
    let cross = [(-1.0, 0.0), (1.0, 0.0), (0.0, 1.0), (0.0, -1.0)];
    let chains = |degrees: f64| {
        let line = |end| LineInput { points: Some([(0.0, 0.0), end]), group: 0 };
        build_chains(cross.map(line), 0.0, degrees).unwrap().len()
    };
    assert_eq!([-5.0, 0.0, f64::NAN].map(chains), [4, 4, 4]);
    assert_eq!([1.0, 90.0, 180.0, 500.0].map(chains), [2, 2, 2, 2]);
}
