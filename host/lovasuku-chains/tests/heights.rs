//! Heights and measures by the safe calls: they ride along, decide nothing, and keep every bit.

use lovasuku_chains::large::{join, Capacity, Chain, Line, Way};
use lovasuku_chains::size::BORDER;
use lovasuku_chains::{
    chain_coordinates, chain_question, read_wkb, ByteOrder, Dimension, LinesBuf, Refusal, Rooms,
    Settings, WkbBuf, WkbRooms,
};

/// Two lines that meet in 1,0 and one that passes through, with extras that name line and place.
fn lines(dimension: Dimension) -> LinesBuf {
    let mut lines = LinesBuf::of(dimension);
    lines.push([[0.0, 0.0, 10.0, 11.0], [1.0, 0.0, 12.0, 13.0]], 0);
    lines.push([[2.0, 0.0, 20.0, 21.0], [1.0, 0.0, 22.0, 23.0]], 0);
    lines.push_passing([[1.0, 0.0, f64::NAN, f64::NEG_INFINITY], [5.0, 0.0, 32.0, 33.0]], 0);
    lines
}

#[test]
fn extras_ride_along_in_every_dimension() {
    let mut rooms = Rooms::default();
    for dimension in Dimension::ALL {
        let (lines, stride) = (lines(dimension), dimension.stride());
        assert_eq!(lines.lines().coordinates.len(), 6 * stride);
        let chains = rooms.build(lines.lines(), Settings::default()).unwrap();
        assert_eq!(chains.table(), [0, 2, 1, 0, 3, 0, 2, 1, 0, 4, 2, 0]);
        let [joined, passed] = [chains.get(0).unwrap(), chains.get(1).unwrap()];
        assert!(joined.points().eq([[0.0, 0.0], [1.0, 0.0], [2.0, 0.0]]));
        assert!(joined.points().rev().eq([[2.0, 0.0], [1.0, 0.0], [0.0, 0.0]]));
        let whole = [[0.0, 0.0, 10.0, 11.0], [1.0, 0.0, 12.0, 13.0], [2.0, 0.0, 20.0, 21.0]];
        assert!(joined.positions().eq(whole.iter().map(|numbers| &numbers[..stride])));
        assert_eq!((joined.dimension(), joined.coordinates().len()), (dimension, 3 * stride));
        // A lone line is the caller's own, its NaN too.
        assert_eq!(passed.coordinates().as_ptr(), lines.lines().coordinates[4 * stride..].as_ptr());
        for (k, chain) in chains.iter().enumerate() {
            let (input, merged, table) =
                (lines.lines().coordinates, chains.merged(), chains.table());
            let named = chain_coordinates(dimension, input, merged, table, k as u64).unwrap();
            assert_eq!(named.as_ptr_range(), chain.coordinates().as_ptr_range());
        }
        assert_eq!(format!("{:?}", passed.points()), "[[1.0, 0.0], [5.0, 0.0]]");
    }
}

#[test]
fn numbers_that_are_not_there_are_nan_and_others_are_left_out() {
    let mut lines = LinesBuf::of(Dimension::Xyz);
    lines.push([[1.0, 2.0]], 0);
    lines.push([[3.0, 4.0, 5.0, 6.0]], 0);
    let numbers = lines.lines().coordinates;
    assert!(numbers[2].is_nan() && numbers[..2] == [1.0, 2.0] && numbers[3..] == [3.0, 4.0, 5.0]);
    assert_eq!(lines.lines().counts, [1, 1]);
    let mut rooms = Rooms::default();
    assert!(rooms.build(lines.lines(), Settings::default()).is_ok());
    // A coordinate without y is no place.
    lines.push([[1.0]], 0);
    assert_eq!(rooms.build(lines.lines(), Settings::default()).err(), Some(Refusal::NoPlace));
    lines.clear();
    assert_eq!((lines.lines().dimension, lines.len()), (Dimension::Xyz, 0));
}

#[test]
fn refusals_count_the_numbers_of_the_dimension() {
    let lines = lines(Dimension::Xyz);
    let mut rooms = Rooms::default();
    for (dimension, refusal) in [
        (Dimension::Xy, Some(Refusal::CountsDoNotAddUp)),
        (Dimension::Xyz, None),
        (Dimension::Xym, None),
        (Dimension::Xyzm, Some(Refusal::CountsDoNotAddUp)),
    ] {
        let lent = lovasuku_chains::Lines { dimension, ..lines.lines() };
        assert_eq!(rooms.build(lent, Settings::default()).err(), refusal);
    }
    let coordinates = vec![0.0; 3 * 65_537];
    let long = lovasuku_chains::Lines {
        dimension: Dimension::Xym,
        coordinates: &coordinates,
        counts: &[65_537],
        groups: &[0],
        kinds: &[0],
    };
    let refused = rooms.build(long, Settings::default()).err();
    assert_eq!(refused, Some(Refusal::TooManyCoordinates));
    let most = lovasuku_chains::Lines {
        coordinates: &coordinates[3..],
        counts: &[32_768, 32_768],
        groups: &[0, BORDER],
        kinds: &[0, 0],
        ..long
    };
    assert!(rooms.build(most, Settings::default()).is_ok());
    let shared = lovasuku_chains::Lines { groups: &[0, 0], ..most };
    let refused = rooms.build(shared, Settings::default()).err();
    assert_eq!(refused, Some(Refusal::DistrictOverCoordinates));
    let (merged, table) = ([0.0; 6], [0, 2, 1, 0, 2, 0]);
    for dimension in Dimension::ALL {
        let fits = dimension.stride() < 4;
        assert_eq!(chain_question(dimension, &[], &merged, &table, 0).is_ok(), fits);
    }
}

#[test]
fn records_of_every_dimension_there_and_back() {
    let (mut rooms, mut buffer, mut store) =
        (Rooms::default(), WkbBuf::default(), WkbRooms::default());
    let bits = |numbers: &[f64]| -> Vec<u64> { numbers.iter().map(|x| x.to_bits()).collect() };
    for dimension in Dimension::ALL {
        let lines = lines(dimension);
        let chains = rooms.build(lines.lines(), Settings::default()).unwrap();
        for order in [ByteOrder::Big, ByteOrder::Little] {
            let records = chains.write_wkb(order, &mut buffer).unwrap();
            let lengths = [3, 2].map(|points| (9 + 8 * dimension.stride() * points) as u64);
            assert_eq!(records.lengths(), lengths);
            let number = match order {
                ByteOrder::Big => u32::from_be_bytes,
                ByteOrder::Little => u32::from_le_bytes,
            };
            for record in records {
                let four = [record[1], record[2], record[3], record[4]];
                assert_eq!(number(four), dimension.wkb_type());
            }
            let back = read_wkb(records.run(), records.lengths(), &mut store).unwrap();
            assert_eq!((back.dimension(), back.counts()), (dimension, &[3, 2][..]));
            let written: Vec<f64> =
                chains.iter().flat_map(|chain| chain.coordinates().to_vec()).collect();
            assert_eq!(bits(back.coordinates()), bits(&written));
            assert!(back.points().zip(&chains).all(|(points, chain)| points.eq(chain.points())));
            let mut again = Rooms::default();
            assert_eq!(again.build(back.plain(), Settings::default()).unwrap().len(), 2);
        }
    }
}

#[test]
fn one_run_has_one_type() {
    let empty = |wkb_type: u32| {
        let mut record = vec![1];
        record.extend(wkb_type.to_le_bytes());
        record.extend([0; 4]);
        record
    };
    let mut store = WkbRooms::default();
    let mut read = |types: &[u32]| {
        let run: Vec<u8> = types.iter().flat_map(|&wkb_type| empty(wkb_type)).collect();
        read_wkb(&run, &vec![9; types.len()], &mut store).map(|lines| lines.dimension())
    };
    assert_eq!(read(&[]), Ok(Dimension::Xy));
    assert_eq!(read(&[2002, 2002]), Ok(Dimension::Xym));
    assert_eq!(read(&[3002]), Ok(Dimension::Xyzm));
    assert_eq!(read(&[1002, 2002]), Err(Refusal::MixedTypes));
    assert_eq!(read(&[2, 1002, 5]), Err(Refusal::MixedTypes));
    assert_eq!(read(&[2, 5, 1002]), Err(Refusal::BadType));
    assert_eq!(read(&[0x8000_0002]), Err(Refusal::BadType));
    assert_eq!(Refusal::MixedTypes.number(), 25);
}

#[test]
fn large_inputs_carry_extras_through_batches() {
    let points = [[[0.0, 0.0], [1.0, 0.0]], [[2.0, 0.0], [1.0, 0.0]], [[9.0, 0.0], [8.0, 0.0]]];
    let extras = [[1.0, 2.0, 3.0, 4.0], [5.0, 6.0, 7.0, 8.0], [9.0; 4]];
    for dimension in Dimension::ALL {
        let width = dimension.extras();
        let lines: Vec<Line> = points
            .iter()
            .zip(&extras)
            .map(|(points, extras)| Line {
                points: Some(points),
                extras: &extras[..2 * width],
                group: 0,
            })
            .collect();
        let calls = [(2_048, 32_768), (2, 4), (1, 4), (2, 3)];
        for capacity in calls.map(|(lines, points)| Capacity { lines, points }) {
            let way = Way { capacity, ..Way::default() };
            let told = join(dimension, &lines, (Settings::default(), None), way).unwrap();
            assert_eq!(told.laid().is_empty(), capacity.lines > 1 && capacity.points > 3);
            let chains: Vec<Chain> = told.chains().collect();
            assert_eq!(chains.len(), 2);
            let wanted: &[f64] = match width {
                0 => &[],
                1 => &[1.0, 2.0, 5.0],
                _ => &[1.0, 2.0, 3.0, 4.0, 5.0, 6.0],
            };
            assert_eq!((chains[0].extras, chains[1].extras.is_empty()), (wanted, true));
        }
    }
    // Extras that are not there are NaN.
    let lines =
        [0, 1].map(|k| Line { points: Some(&points[k]), extras: &extras[0][..k], group: 0 });
    let settings = Settings::default();
    let told = join(Dimension::Xyz, &lines, (settings, None), Way::default()).unwrap();
    let chain = told.chains().next().unwrap();
    assert!(chain.extras[..2].iter().all(|extra| extra.is_nan()));
    assert_eq!(chain.extras[2], 1.0);
}
