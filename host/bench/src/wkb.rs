//! WKB in and out: the library through the door, plain Rust, GEOS, and a copy, on the same records.

use crate::clock::{best, hidden, timed, Patience};
use crate::geos::Geos;
use crate::plain_wkb;
use crate::times::{measured, Times};
use answers::random::Random;
use answers::wkb::{record_of, Records};
use answers::{stride_of, Record, RECORD};
use lovasuku_chains::door::{self, ReadRooms, WriteRooms};

/// The coordinates of every run.
pub const POINTS: usize = 65_536;

/// The coordinates of the runs by which extras are held to their bytes: so few that a processor's cache
/// has them all with a height and a measure too, since a copy of more takes more than its bytes say.
pub const FEW_POINTS: usize = 16_384;

/// How many records they stand in.
pub const RECORDS: [usize; 2] = [4_096, 16];

/// The types whose records are held to plain Rust: x and y, with a height, and with a measure too.
pub const TYPES: [(&str, u32); 3] = [("", 2), (", Z", 1002), (", ZM", 3002)];

/// The byte orders by their names.
pub const ORDERS: [(&str, u8); 2] = [("little", 1), ("big", 0)];

/// A run of records in a byte order, and what it reads as.
pub struct Run {
    pub order: u8,
    pub bytes: Vec<u8>,
    pub lengths: Vec<u64>,
    pub read: Records,
}

impl Run {
    /// All coordinates of a type in so many records of one length, in a byte order.
    pub fn of(wkb_type: u32, records: usize, order: u8) -> Self {
        Run::of_points(wkb_type, POINTS, records, order)
    }

    /// So many coordinates of a type in so many records of one length, in a byte order.
    pub fn of_points(wkb_type: u32, points: usize, records: usize, order: u8) -> Self {
        let mut random = Random::new(records as u64);
        let numbers = stride_of(wkb_type).unwrap_or(2) * points;
        let coordinates: Vec<u64> =
            (0..numbers).map(|_| (180.0 * random.unit()).to_bits()).collect();
        let line = |line: &[u64]| record_of(wkb_type, order, line);
        let lines: Vec<Vec<u8>> = coordinates.chunks(numbers / records).map(line).collect();
        Run {
            order,
            bytes: lines.concat(),
            lengths: lines.iter().map(|line| line.len() as u64).collect(),
            read: Records {
                wkb_type,
                counts: vec![(points / records) as u32; records],
                coordinates,
            },
        }
    }

    /// The numbers of a coordinate.
    fn stride(&self) -> usize {
        stride_of(self.read.wkb_type).unwrap_or(2)
    }

    /// The records, each by itself.
    pub fn records(&self) -> impl Iterator<Item = &[u8]> {
        self.lengths.iter().scan(&self.bytes[..], next_record)
    }
}

/// The record at the beginning of what is left of a run, which has it no more after that.
fn next_record<'a>(rest: &mut &'a [u8], length: &u64) -> Option<&'a [u8]> {
    let (record, behind) = rest.split_at(*length as usize);
    *rest = behind;
    Some(record)
}

/// The rooms of a call, each as long as the rules ask for.
struct Rooms {
    coordinates: Vec<f64>,
    counts: Vec<u32>,
    wkb_type: [u32; 1],
}

impl Rooms {
    /// Rooms in which no number is one of the run's.
    fn dirty(run: &Run) -> Self {
        let Records { coordinates, counts, .. } = &run.read;
        Rooms {
            coordinates: vec![f64::NAN; coordinates.len()],
            counts: vec![u32::MAX; counts.len()],
            wkb_type: [u32::MAX],
        }
    }

    fn read(&mut self, run: &Run) -> i64 {
        let Rooms { coordinates, counts, wkb_type } = self;
        let rooms = ReadRooms { coordinates, counts, wkb_type };
        door::read_wkb(hidden(&run.bytes), &run.lengths, rooms)
    }

    fn read_plainly(&mut self, run: &Run) -> i64 {
        let Rooms { coordinates, counts, wkb_type } = self;
        let bytes = hidden(&run.bytes);
        match plain_wkb::read(bytes, &run.lengths, coordinates, counts, wkb_type) {
            Ok(records) => records as i64,
            Err(refusal) => -i64::from(refusal),
        }
    }

    /// Tests that an answer and the rooms are what the run reads as.
    fn check(&self, answer: i64, run: &Run, reader: &str) -> Result<(), String> {
        let coordinates = self.coordinates.iter().map(|number| number.to_bits());
        let alike = answer == run.lengths.len() as i64
            && self.counts == run.read.counts
            && self.wkb_type == [run.read.wkb_type]
            && coordinates.eq(run.read.coordinates.iter().copied());
        match alike {
            true => Ok(()),
            false => Err(format!("{reader} reads other lines than were written")),
        }
    }
}

/// The times of the library's reader and of the plain one, taken after both have been seen to read
/// what was written. The error is a sentence about the one that does not.
pub fn reading(run: &Run, patience: Patience) -> Result<Times, String> {
    let (mut ours, mut theirs) = (Rooms::dirty(run), Rooms::dirty(run));
    let answer = ours.read(run);
    ours.check(answer, run, "the library")?;
    let answer = theirs.read_plainly(run);
    theirs.check(answer, run, "the plain reader")?;
    let mut port = || timed(|| ours.read(run));
    let mut rust = || timed(|| theirs.read_plainly(run));
    Ok(measured(&mut [&mut port, &mut rust], patience))
}

/// The nanoseconds of a copy of as many bytes as the coordinates have: the floor.
pub fn copying(run: &Run, patience: Patience) -> f64 {
    let bytes = 8 * run.read.coordinates.len();
    let mut room = vec![0u8; bytes];
    let mut copy = || timed(|| hidden(&mut room).copy_from_slice(&hidden(&run.bytes)[..bytes]));
    best(&mut [&mut copy], patience)[0]
}

/// The nanoseconds of the library's reader on each run, run in turn.
pub fn readings(runs: &[Run], patience: Patience) -> Result<Vec<f64>, String> {
    let mut rooms: Vec<Rooms> = runs.iter().map(Rooms::dirty).collect();
    for (rooms, run) in rooms.iter_mut().zip(runs) {
        let answer = rooms.read(run);
        rooms.check(answer, run, "the library")?;
    }
    Ok(each(rooms.iter_mut().zip(runs).map(|(rooms, run)| move || rooms.read(run)), patience))
}

/// The best nanoseconds of each work, run in turn.
fn each<W: FnMut() -> i64>(works: impl Iterator<Item = W>, patience: Patience) -> Vec<f64> {
    let mut clocks: Vec<_> = works.map(|mut work| move || timed(&mut work)).collect();
    let mut works: Vec<&mut dyn FnMut() -> f64> = Vec::new();
    works.extend(clocks.iter_mut().map(|clock| clock as &mut dyn FnMut() -> f64));
    best(&mut works, patience)
}

/// The nanoseconds of GEOS's WKBReader on the records, one by one, which has to read the same
/// coordinates; nothing of records with measures, which GEOS 3.11 leaves out.
pub fn geos_reading(geos: &Geos, run: &Run, patience: Patience) -> Result<Option<f64>, String> {
    if run.stride() > 3 {
        return Ok(None);
    }
    let reader = geos.wkb_reader().ok_or("GEOS has no reader of WKB")?;
    let all = || run.records().map(|record| reader.read(record)).collect::<Option<Vec<_>>>();
    let lines = all().ok_or("GEOS does not take the records")?;
    let coordinates: Option<Vec<Vec<u64>>> =
        lines.iter().map(|line| geos.coordinates(line, run.stride())).collect();
    if coordinates.map(|lines| lines.concat()).as_ref() != Some(&run.read.coordinates) {
        return Err("GEOS reads other coordinates than were written".to_string());
    }
    let mut read = || timed(all);
    Ok(Some(best(&mut [&mut read], patience)[0]))
}

/// The chains that the records of a run are, each a line of the caller's.
struct Chains {
    wkb_type: u32,
    coordinates: Vec<f64>,
    table: Vec<u32>,
    order: u8,
}

impl Chains {
    fn of(run: &Run) -> Self {
        let firsts = run.read.counts.iter().scan(0, |sum, &count| {
            *sum += count;
            Some(*sum - count)
        });
        let row = |(k, (first, &count)): (usize, (u32, &u32))| [k as u32, 1, 0, first, count, 0];
        let rows: Vec<Record> = firsts.zip(&run.read.counts).enumerate().map(row).collect();
        let coordinates = run.read.coordinates.iter().map(|&bits| f64::from_bits(bits)).collect();
        let wkb_type = run.read.wkb_type;
        Chains { wkb_type, coordinates, table: rows.concat(), order: run.order }
    }

    fn k(&self) -> u64 {
        (self.table.len() / RECORD) as u64
    }
}

/// The rooms of a writing call, each as long as the rules ask for.
struct Bytes {
    run: Vec<u8>,
    lengths: Vec<u64>,
}

impl Bytes {
    /// Rooms in which nothing is the run's.
    fn dirty(run: &Run) -> Self {
        Bytes { run: vec![0xaa; run.bytes.len()], lengths: vec![u64::MAX; run.lengths.len()] }
    }

    fn write(&mut self, chains: &Chains) -> i64 {
        let Bytes { run, lengths } = self;
        let Chains { wkb_type, coordinates, table, order } = hidden(chains);
        let rooms = WriteRooms { run, lengths };
        door::write_wkb(*wkb_type, coordinates, &[], table, chains.k(), *order, rooms)
    }

    fn write_plainly(&mut self, chains: &Chains) -> i64 {
        let Bytes { run, lengths } = self;
        let Chains { wkb_type, coordinates, table, order } = hidden(chains);
        let k = chains.k();
        match plain_wkb::write(*wkb_type, coordinates, &[], table, k, *order, run, lengths) {
            Ok(bytes) => bytes as i64,
            Err(refusal) => -i64::from(refusal),
        }
    }

    /// Tests that an answer and the rooms are the run.
    fn check(&self, answer: i64, run: &Run, writer: &str) -> Result<(), String> {
        let alike = answer == run.bytes.len() as i64
            && self.run == run.bytes
            && self.lengths == run.lengths;
        match alike {
            true => Ok(()),
            false => Err(format!("{writer} writes other records")),
        }
    }
}

/// The times of the library's writer and of the plain one, taken after both have been seen to write
/// the run. The error is a sentence about the one that does not.
pub fn writing(run: &Run, patience: Patience) -> Result<Times, String> {
    let chains = Chains::of(run);
    let (mut ours, mut theirs) = (Bytes::dirty(run), Bytes::dirty(run));
    let answer = ours.write(&chains);
    ours.check(answer, run, "the library")?;
    let answer = theirs.write_plainly(&chains);
    theirs.check(answer, run, "the plain writer")?;
    let mut port = || timed(|| ours.write(&chains));
    let mut rust = || timed(|| theirs.write_plainly(&chains));
    Ok(measured(&mut [&mut port, &mut rust], patience))
}

/// The nanoseconds of the library's writer on each run, run in turn.
pub fn writings(runs: &[Run], patience: Patience) -> Result<Vec<f64>, String> {
    let mut works: Vec<(Bytes, Chains)> =
        runs.iter().map(|run| (Bytes::dirty(run), Chains::of(run))).collect();
    for ((rooms, chains), run) in works.iter_mut().zip(runs) {
        let answer = rooms.write(chains);
        rooms.check(answer, run, "the library")?;
    }
    Ok(each(works.iter_mut().map(|(rooms, chains)| move || rooms.write(chains)), patience))
}

/// The nanoseconds of GEOS's WKBWriter on the lines, one by one, which has to write the same
/// records; nothing of records with measures, which GEOS 3.11 has not, and of heights where it has no
/// flavour of ISO's.
pub fn geos_writing(geos: &Geos, run: &Run, patience: Patience) -> Result<Option<f64>, String> {
    let stride = run.stride();
    if stride > 3 {
        return Ok(None);
    }
    let writer = match geos.wkb_writer(run.order, stride) {
        Some(writer) => writer,
        None if stride > 2 => return Ok(None),
        None => return Err("GEOS has no writer of WKB".to_string()),
    };
    let numbers = stride * POINTS / run.lengths.len();
    let lines = run.read.coordinates.chunks(numbers).map(|line| geos.geometry(line, stride));
    let lines = lines.collect::<Option<Vec<_>>>().ok_or("GEOS does not take the lines")?;
    let all = || lines.iter().map(|line| writer.write(line)).collect::<Option<Vec<_>>>();
    let records = all().ok_or("GEOS does not write the lines")?;
    if !run.records().eq(records.iter().map(|record| record.bytes())) {
        return Err("GEOS writes other records".to_string());
    }
    let mut write = || timed(all);
    Ok(Some(best(&mut [&mut write], patience)[0]))
}
