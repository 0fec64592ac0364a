//! Round trips: what was written is read, and what was read is written, over recorded networks.

use crate::{Reading, Writing};
use answers::format::{BuildEntry, Recorded};
use answers::random::Random;
use answers::replay::{load, FILES};
use answers::styles::heights::with_extras;
use answers::wkb::{record_of, Chains};
use answers::{model, BuildCall, Built, Record, TYPES};

/// Every recorded building call that is answered, with its answer. Of four in a row three have
/// extras, of each type by turns, and then the answer is the model's.
fn recorded() -> Vec<(BuildCall, Built)> {
    let building = |name: &&str| match load(name) {
        Ok(Recorded::Building(entries)) => entries,
        _ => Vec::new(),
    };
    let answered = |(call, answer): BuildEntry| Some((call, answer.ok()?));
    let mut random = Random::new(13);
    let typed = |(number, (call, built)): (usize, (BuildCall, Built))| match TYPES[number % 4] {
        2 => (call, built),
        wkb_type => {
            let call = with_extras(&mut random, &call, wkb_type);
            let high = model::built(&call);
            assert_eq!(high.flat(call.stride()), built);
            (call, high)
        }
    };
    FILES.iter().flat_map(building).filter_map(answered).enumerate().map(typed).collect()
}

/// The coordinates of a chain of a recorded answer.
fn coordinates<'a>(call: &'a BuildCall, built: &'a Built, row: &Record) -> &'a [u64] {
    let from = if row[2] == 0 { &call.coordinates } else { &built.merged };
    let stride = call.stride();
    &from[stride * row[3] as usize..][..stride * row[4] as usize]
}

#[test]
fn chains_that_were_written_are_read_bit_for_bit() {
    let mut chains = 0;
    for (number, (call, built)) in recorded().iter().enumerate() {
        let writing = Writing::of(Chains {
            wkb_type: call.wkb_type,
            coordinates: call.coordinates.clone(),
            merged: built.merged.clone(),
            table: built.table.concat(),
            k: built.table.len() as u64,
            order: (number / 4 % 2) as u8,
        });
        let (run, lengths) = writing.agreed().expect("chains of a call");
        let rooms = [(run.len() - 9 * lengths.len()) / 8, lengths.len(), 1];
        let read = Reading { run, lengths, rooms }.agreed().expect("records of chains");
        let lines: Vec<&[u64]> =
            built.table.iter().map(|row| coordinates(call, built, row)).collect();
        assert_eq!(read.coordinates, lines.concat());
        assert_eq!(read.wkb_type, if lines.is_empty() { 2 } else { call.wkb_type });
        assert!(read.counts.iter().eq(built.table.iter().map(|row| &row[4])));
        chains += lines.len();
    }
    assert!(chains > 10_000, "only {chains} chains are recorded");
}

#[test]
fn lines_that_were_read_are_written_as_they_were() {
    let mut lines = 0;
    for (number, (call, _)) in recorded().iter().enumerate() {
        let order = (number / 4 % 2) as u8;
        let points = |(line, first)| record_of(call.wkb_type, order, call.numbers(line, first));
        let records: Vec<Vec<u8>> = call.firsts().into_iter().enumerate().map(points).collect();
        let reading = Reading::of(&records);
        let read = reading.agreed().expect("lines of a call");
        // A table of the lines, one chain a record, all of source 0.
        let firsts =
            read.counts.iter().scan(0, |sum, &count| Some(std::mem::replace(sum, *sum + count)));
        let row = |(k, (first, &count)): (usize, (u32, &u32))| [k as u32, 1, 0, first, count, 0];
        let table: Vec<Record> = firsts.zip(&read.counts).enumerate().map(row).collect();
        let writing = Writing::of(Chains {
            wkb_type: read.wkb_type,
            coordinates: read.coordinates.clone(),
            merged: vec![],
            k: table.len() as u64,
            table: table.concat(),
            order,
        });
        assert_eq!(writing.agreed(), Ok((reading.run, reading.lengths)));
        lines += records.len();
    }
    assert!(lines > 10_000, "only {lines} lines are recorded");
}
