//! WKB: the library's reader and writer against those of the standard's, on records that others
//! wrote, on damaged calls, on made-up ones, and one after the other.

mod damaged;
mod made_up;
mod recorded;
mod trips;
mod writing;
mod wrong_readers;

use answers::wkb::{self, Records};
use lovasuku_chains::door::{self, ReadRooms, WriteRooms};

/// What stands in a room before a call: no number that a record of these tests has.
const DIRT: u64 = 0xa5a5_5a5a_dead_beef;

/// A reading call: the run, the lengths, and the rooms for numbers, for counts and for the type.
#[derive(Clone, Debug, Default)]
pub struct Reading {
    pub run: Vec<u8>,
    pub lengths: Vec<u64>,
    pub rooms: [usize; 3],
}

impl Reading {
    /// Records one behind another, with rooms that are just long enough.
    pub fn of(records: &[Vec<u8>]) -> Self {
        let run = records.concat();
        let lengths: Vec<u64> = records.iter().map(|record| record.len() as u64).collect();
        let numbers = run.len().saturating_sub(9 * lengths.len()) / 8;
        Reading { rooms: [numbers, lengths.len(), 1], run, lengths }
    }

    /// What the judge says.
    pub fn judged(&self) -> Result<Records, i64> {
        wkb::read(&self.run, &self.lengths, self.rooms)
    }

    /// What the library says. Panics where it stores anything that it must not.
    pub fn read(&self) -> Result<Records, i64> {
        let [numbers, rows, types] = self.rooms;
        let mut coordinates = vec![f64::from_bits(DIRT); numbers];
        let (mut counts, mut wkb_type) = (vec![DIRT as u32; rows], vec![DIRT as u32; types]);
        let rooms = ReadRooms {
            coordinates: &mut coordinates,
            counts: &mut counts,
            wkb_type: &mut wkb_type,
        };
        let answer = door::read_wkb(&self.run, &self.lengths, rooms);
        let coordinates: Vec<u64> = coordinates.iter().map(|number| number.to_bits()).collect();
        let records = match answer {
            0.. => self.lengths.len(),
            _ => 0,
        };
        let written = match answer {
            0.. => (self.run.len() - 9 * records) / 8,
            _ => 0,
        };
        assert!(coordinates[written..].iter().all(|&number| number == DIRT), "{self:?}");
        assert!(counts[records..].iter().all(|&count| count == DIRT as u32), "{self:?}");
        let told = usize::from(answer >= 0);
        assert!(wkb_type[told..].iter().all(|&number| number == DIRT as u32), "{self:?}");
        if answer < 0 {
            return Err(-answer);
        }
        assert_eq!(answer, records as i64, "{self:?}");
        Ok(Records {
            wkb_type: wkb_type[0],
            coordinates: coordinates[..written].to_vec(),
            counts: counts[..records].to_vec(),
        })
    }

    /// What both say, where they say the same.
    pub fn agreed(&self) -> Result<Records, i64> {
        let read = self.read();
        assert_eq!(read, self.judged(), "{self:?}");
        read
    }
}

/// A writing call: the chains, and the rooms for bytes and for lengths.
#[derive(Clone, Debug, Default)]
pub struct Writing {
    pub chains: wkb::Chains,
    pub rooms: [usize; 2],
}

/// Bytes, and the length of each record.
pub type Written = (Vec<u8>, Vec<u64>);

impl Writing {
    /// The chains with rooms that are just long enough, or none where they are refused.
    pub fn of(chains: wkb::Chains) -> Self {
        let needed = wkb::write(&chains, [usize::MAX; 2]);
        let rooms = needed.map_or([0; 2], |(run, lengths)| [run.len(), lengths.len()]);
        Writing { chains, rooms }
    }

    /// What the library says. Panics where it stores anything that it must not.
    pub fn write(&self) -> Result<Written, i64> {
        let [bytes, rows] = self.rooms;
        let wkb::Chains { wkb_type, coordinates, merged, table, k, order } = &self.chains;
        let floats =
            |bits: &[u64]| -> Vec<f64> { bits.iter().map(|&x| f64::from_bits(x)).collect() };
        let (mut run, mut lengths) = (vec![DIRT as u8; bytes], vec![DIRT; rows]);
        let rooms = WriteRooms { run: &mut run, lengths: &mut lengths };
        let (coordinates, merged) = (floats(coordinates), floats(merged));
        let answer = door::write_wkb(*wkb_type, &coordinates, &merged, table, *k, *order, rooms);
        let (written, records) = match answer {
            0.. => (answer as usize, *k as usize),
            _ => (0, 0),
        };
        assert!(run[written..].iter().all(|&byte| byte == DIRT as u8), "{self:?}");
        assert!(lengths[records..].iter().all(|&length| length == DIRT), "{self:?}");
        run.truncate(written);
        lengths.truncate(records);
        match answer {
            0.. => Ok((run, lengths)),
            _ => Err(-answer),
        }
    }

    /// What the library and the judge say, where they say the same.
    pub fn agreed(&self) -> Result<Written, i64> {
        let written = self.write();
        assert_eq!(written, wkb::write(&self.chains, self.rooms), "{self:?}");
        written
    }
}
