//! Runs that offsets cut, as Arrow's arrays: read where they lie, by numbers of either width, and
//! refused where the offsets are none. Lines are written as the chains that they are alone.

use lovasuku_chains::{
    read_wkb, read_wkb_offsets, ByteOrder, Dimension, Lines, LinesBuf, Refusal, Rooms, Settings,
    WkbBuf, WkbRooms, PASSING,
};

/// Lines of a dimension, of 0 to 4 coordinates, whose numbers are bits of all kinds.
fn lines(dimension: Dimension) -> LinesBuf {
    let mut lines = LinesBuf::of(dimension);
    for k in 0..5u64 {
        let number = |n: u64| f64::from_bits((k * 7 + n).wrapping_mul(0x9e37_79b9_7f4a_7c15));
        lines.push_passing((0..k).map(|n| [number(n), number(n + 1), -0.0, f64::NAN]), 0);
    }
    lines
}

/// The lines as a run of records, with their lengths.
fn written(lines: Lines, order: ByteOrder) -> (Vec<u8>, Vec<u64>) {
    let mut buffer = WkbBuf::new();
    let records = lines.write_wkb(order, &mut buffer).unwrap();
    (records.run().to_vec(), records.lengths().to_vec())
}

/// Where the records of these lengths begin, and where the last ends.
fn offsets(lengths: &[u64], first: i64) -> Vec<i64> {
    let mut offsets = vec![first];
    offsets.extend(lengths.iter().scan(first, |end, &length| {
        *end += length as i64;
        Some(*end)
    }));
    offsets
}

fn bits(numbers: &[f64]) -> Vec<u64> {
    numbers.iter().map(|x| x.to_bits()).collect()
}

#[test]
fn lines_are_written_and_read_back_bit_for_bit() {
    for dimension in Dimension::ALL {
        for order in [ByteOrder::Little, ByteOrder::Big] {
            let lines = lines(dimension);
            let (run, lengths) = written(lines.lines(), order);
            let mut rooms = WkbRooms::new();
            let read = read_wkb(&run, &lengths, &mut rooms).unwrap();
            assert_eq!((read.dimension(), read.counts()), (dimension, lines.lines().counts));
            assert_eq!(bits(read.coordinates()), bits(lines.lines().coordinates));
        }
    }
}

#[test]
fn lines_are_written_as_the_chains_that_they_are_alone() {
    let mut lines = LinesBuf::of(Dimension::Xym);
    lines.push_passing([[0.0, 0.0, 1.0], [1.0, 0.0, 2.0]], 0);
    lines.push_passing([[1.0, 0.0, f64::NAN]], 3);
    let lines = lines.lines();
    assert_eq!(lines.kinds, [PASSING; 2]);
    let (mut rooms, mut buffer) = (Rooms::new(), WkbBuf::new());
    let chains = rooms.build(lines, Settings::default()).unwrap();
    let records = chains.write_wkb(ByteOrder::Big, &mut buffer).unwrap();
    let (run, lengths) = written(lines, ByteOrder::Big);
    assert_eq!((records.run(), records.lengths()), (&run[..], &lengths[..]));
}

#[test]
fn counts_beyond_the_coordinates_are_refused() {
    let mut buffer = WkbBuf::new();
    for counts in [&[3][..], &[1, 2], &[u32::MAX], &[u32::MAX, u32::MAX]] {
        let lines = Lines { coordinates: &[0.0; 4], counts, ..Lines::default() };
        let refused = lines.write_wkb(ByteOrder::Little, &mut buffer).err();
        assert_eq!(refused, Some(Refusal::NoSuchChain), "{counts:?}");
    }
    let part = Lines { coordinates: &[0.0; 4], counts: &[1], ..Lines::default() };
    assert_eq!(part.write_wkb(ByteOrder::Little, &mut buffer).unwrap().lengths(), [25]);
}

#[test]
fn offsets_of_either_width_cut_a_run() {
    let lines = lines(Dimension::Xyz);
    let (run, lengths) = written(lines.lines(), ByteOrder::Little);
    // Bytes before the first record and behind the last are of other arrays.
    let run = [&[0xaa; 11][..], &run, &[0xbb; 5]].concat();
    let wide = offsets(&lengths, 11);
    let narrow: Vec<i32> = wide.iter().map(|&offset| offset as i32).collect();
    let mut rooms = WkbRooms::new();
    let all = read_wkb_offsets(&run, &wide, &mut rooms).unwrap();
    assert_eq!(bits(all.coordinates()), bits(lines.lines().coordinates));
    let part = read_wkb_offsets(&run, &narrow[2..5], &mut rooms).unwrap();
    assert_eq!(part.counts(), [2, 3]);
    assert_eq!(part.dimension(), Dimension::Xyz);
    assert!(read_wkb_offsets(&run, &narrow[..1], &mut rooms).unwrap().is_empty());
    assert!(read_wkb_offsets::<i64>(&run, &[], &mut rooms).unwrap().is_empty());
}

#[test]
fn offsets_that_are_none_are_refused() {
    let (run, lengths) = written(lines(Dimension::Xy).lines(), ByteOrder::Little);
    let good = offsets(&lengths, 0);
    let mut rooms = WkbRooms::new();
    let mut refused = |offsets: &[i64]| read_wkb_offsets(&run, offsets, &mut rooms).err();
    assert_eq!(refused(&good), None);
    for (at, offset) in [(0, -1), (1, 1 << 40), (2, 0), (5, good[5] + 1), (5, -1), (3, i64::MIN)] {
        let mut bad = good.clone();
        bad[at] = offset;
        assert_eq!(refused(&bad), Some(Refusal::BadLength), "{at} {offset}");
    }
    assert_eq!(refused(&[-1]), Some(Refusal::BadLength));
    assert_eq!(refused(&[run.len() as i64 + 1]), Some(Refusal::BadLength));
    // A cut at another place leaves a record that is none.
    assert_eq!(refused(&[1, good[1]]), Some(Refusal::BadLength));
}
