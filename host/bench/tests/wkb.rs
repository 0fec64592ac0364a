//! The sides of WKB agree: what the library writes GEOS reads, and what GEOS writes the library does.

use answers::wkb::record_of;
use bench::clock::Patience;
use bench::geos::Geos;
use bench::wkb::{geos_reading, geos_writing, reading, writing, Run, ORDERS, RECORDS, TYPES};
use lovasuku_chains::{
    read_wkb, ByteOrder, Dimension, LinesBuf, Rooms, Settings, WkbBuf, WkbRooms,
};
use std::time::Duration;

const ONCE: Patience = Patience { time: Duration::from_millis(1), least: 1, most: 1 };

#[test]
fn every_side_reads_and_writes_every_run() {
    let geos = Geos::find();
    for records in RECORDS {
        for (_, order) in ORDERS {
            for (_, wkb_type) in TYPES {
                let run = Run::of(wkb_type, records, order);
                assert!(reading(&run, ONCE).is_ok() && writing(&run, ONCE).is_ok());
                if let Some(geos) = &geos {
                    assert!(geos_reading(geos, &run, ONCE).is_ok());
                    assert!(geos_writing(geos, &run, ONCE).is_ok());
                }
            }
        }
    }
}

/// A road of three lines, a lone one of the least numbers, and a there-and-back line.
fn lines() -> LinesBuf {
    let mut lines = LinesBuf::default();
    lines.push([[0.0, 0.0], [1.25, -0.0]], 0);
    lines.push([[4.5, 1e-310], [1.25, -0.0]], 0);
    lines.push([[4.5, 1e-310], [f64::MAX, 7.0]], 0);
    lines.push([[f64::from_bits(1), 3.0], [f64::MIN, 4.0]], 1);
    lines.push([[5.0, 5.0], [6.0, 5.0], [5.0, 5.0]], 2);
    lines
}

#[test]
fn geos_reads_the_chains_that_were_written_and_writes_them_alike() {
    let geos = match Geos::find() {
        Some(geos) => geos,
        None => return println!("GEOS is not installed: skipped"),
    };
    let (lines, mut rooms) = (lines(), Rooms::default());
    let chains = rooms.build(lines.lines(), Settings::default()).unwrap();
    let reader = geos.wkb_reader().unwrap();
    for order in [ByteOrder::Big, ByteOrder::Little] {
        let mut buffer = WkbBuf::default();
        let records = chains.write_wkb(order, &mut buffer).unwrap();
        let writer = geos.wkb_writer(order.number(), 2).unwrap();
        for (chain, record) in chains.iter().zip(records) {
            let geometry = reader.read(record).expect("GEOS takes the record");
            let bits: Vec<u64> = chain.coordinates().iter().map(|x| x.to_bits()).collect();
            assert_eq!(geos.coordinates(&geometry, 2), Some(bits));
            assert_eq!(writer.write(&geometry).unwrap().bytes(), record);
        }
        let mut store = WkbRooms::default();
        let back = read_wkb(records.run(), records.lengths(), &mut store).unwrap();
        let bits = |numbers: &[f64]| -> Vec<u64> { numbers.iter().map(|x| x.to_bits()).collect() };
        let written: Vec<f64> =
            chains.iter().flat_map(|chain| chain.coordinates().to_vec()).collect();
        assert_eq!(bits(back.coordinates()), bits(&written));
    }
}

#[test]
fn geos_reads_chains_with_heights_and_writes_them_alike() {
    let geos = match Geos::find() {
        Some(geos) => geos,
        None => return println!("GEOS is not installed: skipped"),
    };
    let mut lines = LinesBuf::of(Dimension::Xyz);
    lines.push([[0.0, 0.0, f64::NAN], [1.25, -0.0, -7.5]], 0);
    lines.push([[4.5, 1e-310, f64::MAX], [1.25, -0.0, 8.0]], 0);
    lines.push([[5.0, 5.0, f64::NEG_INFINITY], [6.0, 5.0, 1e-310]], 1);
    let mut rooms = Rooms::default();
    let chains = rooms.build(lines.lines(), Settings::default()).unwrap();
    assert_eq!(chains.len(), 2);
    let reader = geos.wkb_reader().unwrap();
    for order in [ByteOrder::Big, ByteOrder::Little] {
        let writer = match geos.wkb_writer(order.number(), 3) {
            Some(writer) => writer,
            None => return println!("GEOS {} has no flavour ISO: skipped", geos.version()),
        };
        let mut buffer = WkbBuf::default();
        let records = chains.write_wkb(order, &mut buffer).unwrap();
        let mut store = WkbRooms::default();
        let back = read_wkb(records.run(), records.lengths(), &mut store).unwrap();
        assert_eq!(back.dimension(), Dimension::Xyz);
        for (chain, record) in chains.iter().zip(records) {
            let geometry = reader.read(record).expect("GEOS takes the record");
            let bits: Vec<u64> = chain.coordinates().iter().map(|x| x.to_bits()).collect();
            assert_eq!(geos.coordinates(&geometry, 3), Some(bits));
            assert_eq!(writer.write(&geometry).unwrap().bytes(), record);
        }
    }
}

#[test]
fn geos_does_not_take_a_line_of_one_coordinate() {
    let geos = match Geos::find() {
        Some(geos) => geos,
        None => return println!("GEOS is not installed: skipped"),
    };
    let reader = geos.wkb_reader().unwrap();
    for (wkb_type, numbers) in [(2, 2), (1002, 3), (2002, 3), (3002, 4)] {
        let one = record_of(wkb_type, 1, &vec![0; numbers]);
        let two = record_of(wkb_type, 1, &vec![0; 2 * numbers]);
        assert!(reader.read(&one).is_none() && reader.read(&two).is_some(), "{wkb_type}");
    }
}
