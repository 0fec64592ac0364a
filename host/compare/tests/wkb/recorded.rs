//! Records that GEOS, GDAL and PostGIS wrote, from `data/wkb`.

use crate::{Reading, Writing};
use answers::wkb::{record_of, Chains, Records};
use answers::TYPES;
use std::collections::HashMap;

const RECORDS: &str = include_str!("../../../../data/wkb/records");

/// A record: its maker, what it is of, its byte order, and its bytes.
struct Recorded {
    maker: &'static str,
    name: &'static str,
    order: u8,
    bytes: Vec<u8>,
}

fn bytes(hex: &str) -> Vec<u8> {
    let byte = |at: usize| u8::from_str_radix(&hex[at..at + 2], 16).expect("two digits");
    (0..hex.len()).step_by(2).map(byte).collect()
}

fn recorded() -> Vec<Recorded> {
    let lines = RECORDS.lines().filter(|line| !line.starts_with('#'));
    let of = |line: &'static str| {
        let mut words = line.split('\t');
        let mut word = || words.next().expect("four words");
        let (maker, name, order, hex) = (word(), word(), word(), word());
        Recorded { maker, name, order: u8::from(order == "little"), bytes: bytes(hex) }
    };
    lines.map(of).collect()
}

/// Whether a record of this name is a line of one of the four types.
fn is_line(name: &str) -> bool {
    let others = ["not ISO", "with SRID", "point", "polygon", "lines", "empty, a collection"];
    !others.iter().any(|other| name.starts_with(other))
}

/// The type that a line of this name has.
fn type_of(name: &str) -> u32 {
    let high = [("heights", 1002), ("measures", 2002), ("both", 3002)];
    high.into_iter().find(|(word, _)| name.starts_with(word)).map_or(2, |(_, wkb_type)| wkb_type)
}

#[test]
fn every_maker_in_both_orders() {
    for maker in ["geos", "gdal", "postgis"] {
        for order in [0, 1] {
            let of = |record: &&Recorded| record.maker == maker && record.order == order;
            assert!(recorded().iter().filter(of).count() >= 10, "{maker} {order}");
        }
    }
}

#[test]
fn lines_are_read_and_others_refused() {
    for Recorded { maker, name, order, bytes } in recorded() {
        let read = Reading::of(std::slice::from_ref(&bytes)).agreed();
        match is_line(name) {
            true => {
                let read = read.unwrap_or_else(|refusal| panic!("{maker} {name}: {refusal}"));
                assert_eq!(read.wkb_type, type_of(name), "{maker} {name}");
                let again = record_of(read.wkb_type, order, &read.coordinates);
                assert_eq!(again, bytes, "{maker} {name}");
                assert_eq!(written(&read, order), bytes, "{maker} {name}");
            }
            false => assert_eq!(read, Err(12), "{maker} {name}"),
        }
    }
}

/// What was read, written by the library as one chain.
fn written(read: &Records, order: u8) -> Vec<u8> {
    let chains = Chains {
        wkb_type: read.wkb_type,
        coordinates: read.coordinates.clone(),
        table: vec![0, 1, 0, 0, read.counts[0], 0],
        k: 1,
        order,
        ..Chains::default()
    };
    Writing::of(chains).agreed().expect("a line").0
}

#[test]
fn all_makers_and_orders_of_one_line_read_alike() {
    let mut lines: HashMap<&str, Records> = HashMap::new();
    for Recorded { maker, name, bytes, .. } in recorded() {
        if is_line(name) {
            let read = Reading::of(&[bytes]).agreed().expect("a line");
            assert_eq!(lines.entry(name).or_insert_with(|| read.clone()), &read, "{maker} {name}");
        }
    }
    assert_eq!(lines["three"].counts, [3]);
    let numbers = [0.0, 0.0, 1.0, 0.0, 2.5, -3.25].map(f64::to_bits);
    assert_eq!(lines["three"].coordinates, numbers);
    assert_eq!(lines["nan"].coordinates[0], 0x7ff8_0000_0000_0123);
    assert_eq!((lines["one"].counts[0], lines["empty"].counts[0]), (1, 0));
    let heights = [0.0, 0.0, 5.0, 1.0, 0.0, 6.0].map(f64::to_bits);
    assert_eq!(lines["heights"].coordinates, heights);
    assert_eq!(lines["heights, nan"].coordinates[2], 0x7ff8_0000_0000_0123);
    assert_eq!(lines["measures"].coordinates[5], 250.5f64.to_bits());
    assert_eq!(lines["both"].coordinates[10..], [-0.125, 7.0].map(f64::to_bits));
}

#[test]
fn a_run_of_all_lines_of_each_type() {
    for wkb_type in TYPES {
        let of = |record: &Recorded| is_line(record.name) && type_of(record.name) == wkb_type;
        let lines: Vec<Vec<u8>> = recorded().into_iter().filter(of).map(|r| r.bytes).collect();
        assert!(lines.len() >= 8, "{wkb_type}");
        let read = Reading::of(&lines).agreed().expect("lines");
        assert_eq!((read.counts.len(), read.wkb_type), (lines.len(), wkb_type));
    }
}
