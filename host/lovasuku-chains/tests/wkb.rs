//! WKB by the safe calls: lines from records and chains as records, every bit kept, rooms lent again,
//! refusals by name.

use lovasuku_chains::{
    read_wkb, ByteOrder, LinesBuf, Refusal, Rooms, Settings, WkbBuf, WkbRooms, PASSING, PLAIN,
};

/// A record of a line, the least byte first or the greatest.
fn record(little: bool, numbers: &[f64]) -> Vec<u8> {
    let points = numbers.len() as u32 / 2;
    let mut record = vec![u8::from(little)];
    match little {
        true => record.extend([2u32.to_le_bytes(), points.to_le_bytes()].concat()),
        false => record.extend([2u32.to_be_bytes(), points.to_be_bytes()].concat()),
    }
    let bytes = |x: &f64| if little { x.to_le_bytes() } else { x.to_be_bytes() };
    record.extend(numbers.iter().flat_map(bytes));
    record
}

/// The records one behind another, and their lengths.
fn run(records: &[Vec<u8>]) -> (Vec<u8>, Vec<u64>) {
    (records.concat(), records.iter().map(|record| record.len() as u64).collect())
}

#[test]
fn lines_of_both_orders_go_straight_into_building() {
    let (run, lengths) = run(&[
        record(true, &[0.0, 0.0, 1.0, 0.0]),
        record(false, &[2.0, 0.0, 1.0, 0.0]),
        record(true, &[1.0, 0.0, 1.0, 5.0]),
    ]);
    let mut store = WkbRooms::new();
    let lines = read_wkb(&run, &lengths, &mut store).unwrap();
    assert_eq!((lines.len(), lines.counts()), (3, &[2, 2, 2][..]));
    assert!(lines.points().nth(1).unwrap().eq([[2.0, 0.0], [1.0, 0.0]]));

    let mut rooms = Rooms::default();
    let settings = Settings::default().with_limit(-0.5);
    let chains = rooms.build(lines.plain(), settings).unwrap();
    assert_eq!(chains.get(0).unwrap().members(), [0, 1]);
    assert_eq!(chains.get(1).unwrap().coordinates(), [1.0, 0.0, 1.0, 5.0]);
    let passing = lines.with(&[0; 3], &[PLAIN, PLAIN, PASSING]);
    assert_eq!(rooms.build(passing, Settings::default()).unwrap().len(), 2);
}

#[test]
fn every_bit_is_kept() {
    let bits = [0x7ff8_0000_0000_0123, 0xfff4_0000_0000_0001, 1 << 63, 1, u64::MAX, 0];
    let numbers = bits.map(f64::from_bits);
    for little in [true, false] {
        let (run, lengths) = run(&[record(little, &numbers)]);
        let mut store = WkbRooms::default();
        let lines = read_wkb(&run, &lengths, &mut store).unwrap();
        let read: Vec<u64> = lines.coordinates().iter().map(|x| x.to_bits()).collect();
        assert_eq!(read, bits);
    }
}

#[test]
fn a_shorter_run_is_read_into_grown_rooms() {
    let mut store = WkbRooms::default();
    let long = run(&vec![record(true, &[7.0; 20]); 9]);
    assert_eq!(read_wkb(&long.0, &long.1, &mut store).unwrap().coordinates().len(), 180);
    let short = run(&[record(false, &[1.0, 2.0]), record(true, &[])]);
    let lines = read_wkb(&short.0, &short.1, &mut store).unwrap();
    assert_eq!((lines.coordinates(), lines.counts()), (&[1.0, 2.0][..], &[1, 0][..]));
    assert_eq!(lines.points().map(|points| points.len()).collect::<Vec<_>>(), [1, 0]);
    let none = read_wkb(&[], &[], &mut store).unwrap();
    assert!(none.is_empty() && none.points().next().is_none());
}

#[test]
fn refusals_by_their_names() {
    let line = record(true, &[1.0, 2.0]);
    let mut store = WkbRooms::default();
    let mut refused = |run: &[u8], lengths: &[u64]| read_wkb(run, lengths, &mut store).err();
    let with = |at: usize, byte: u8| {
        let mut record = line.clone();
        record[at] = byte;
        record
    };
    assert_eq!(refused(&line, &[25]), None);
    assert_eq!(refused(&line, &[24]), Some(Refusal::BadLength));
    assert_eq!(refused(&line, &[u64::MAX, 26]), Some(Refusal::BadLength));
    assert_eq!(refused(&line, &[8, 17]), Some(Refusal::BadLength));
    assert_eq!(refused(&line, &[0; 1_000]), Some(Refusal::BadLength));
    assert_eq!(refused(&with(0, 2), &[25]), Some(Refusal::BadByteOrder));
    assert_eq!(refused(&with(1, 3), &[25]), Some(Refusal::BadType));
    assert_eq!(refused(&with(5, 2), &[25]), Some(Refusal::BadLength));
}

/// Chains of a road of two lines, a lone line and one of a single coordinate.
fn lines() -> LinesBuf {
    let mut lines = LinesBuf::default();
    lines.push([[0.0, 0.0], [1.0, -0.0]], 0);
    lines.push([[2.0, 0.0], [1.0, -0.0]], 0);
    lines.push([[f64::from_bits(1), 3.0], [f64::MIN, 4.0]], 1);
    lines.push([[7.5, -7.5]], 2);
    lines
}

#[test]
fn chains_are_written_and_read_back_in_both_orders() {
    let (lines, mut rooms, mut buffer) = (lines(), Rooms::default(), WkbBuf::new());
    let chains = rooms.build(lines.lines(), Settings::default()).unwrap();
    let bits = |numbers: &[f64]| -> Vec<u64> { numbers.iter().map(|x| x.to_bits()).collect() };
    for order in [ByteOrder::Little, ByteOrder::Big] {
        let records = chains.write_wkb(order, &mut buffer).unwrap();
        assert_eq!((records.len(), records.lengths()), (3, &[57, 41, 25][..]));
        assert_eq!((records.run().len(), chains.wkb_length()), (123, 123));
        for (chain, bytes) in chains.iter().zip(&records) {
            assert_eq!(bytes, record(order == ByteOrder::Little, chain.coordinates()));
        }
        let mut store = WkbRooms::default();
        let back = read_wkb(records.run(), records.lengths(), &mut store).unwrap();
        for (chain, points) in chains.iter().zip(back.points()) {
            assert_eq!(bits(&points.flatten().collect::<Vec<_>>()), bits(chain.coordinates()));
        }
    }
}

#[test]
fn the_first_chains_alone_and_none() {
    let (lines, mut rooms, mut buffer) = (lines(), Rooms::default(), WkbBuf::default());
    let chains = rooms.build(lines.lines(), Settings::default()).unwrap();
    for (k, lengths) in [(0, &[][..]), (1, &[57]), (2, &[57, 41]), (9, &[57, 41, 25])] {
        let records = chains.first(k).write_wkb(ByteOrder::Big, &mut buffer).unwrap();
        assert_eq!((records.lengths(), records.is_empty()), (lengths, k == 0));
        assert_eq!(records.iter().map(<[u8]>::len).sum::<usize>(), records.run().len());
    }
}

#[test]
fn lent_slices_that_are_too_short_are_left_alone() {
    let (lines, mut rooms) = (lines(), Rooms::default());
    let chains = rooms.build(lines.lines(), Settings::default()).unwrap();
    for (bytes, rows, fits) in [(123, 3, true), (130, 5, true), (122, 3, false), (123, 2, false)] {
        let (mut run, mut lengths) = (vec![9; bytes], vec![9; rows]);
        let written = chains.write_wkb_into(ByteOrder::Little, &mut run, &mut lengths);
        match fits {
            true => assert_eq!(written.map(|records| records.len()), Ok(3)),
            false => {
                assert_eq!(written, Err(Refusal::RecordRoomTooShort));
                assert_eq!((run, lengths), (vec![9; bytes], vec![9; rows]));
            }
        }
    }
}
