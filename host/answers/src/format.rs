//! The recorded files. `data/oracle/README.md` describes their bytes.

use crate::call::{BuildCall, Built, Pair, PairingCall, Record, Refusal, TYPES};
use crate::model::boxes::boxes;
use std::collections::HashMap;

/// A building call with its answer, or with the refusal that turns it away.
pub type BuildEntry = (BuildCall, Result<Built, Refusal>);

/// A pairing call with the pairs that every route selects.
pub type PairingEntry = (PairingCall, Vec<Pair>);

/// What one file holds.
#[derive(Clone, Debug, PartialEq, Eq)]
pub enum Recorded {
    /// Building calls.
    Building(Vec<BuildEntry>),
    /// Pairing calls.
    Pairing(Vec<PairingEntry>),
}

/// The eight bytes with which every file begins.
const MAGIC: &[u8; 8] = b"lovasuku";

/// The bytes of a file. The Rust, whose answers are recorded, knows no extras, so that no type is, and
/// no boxes, which the coordinates tell.
///
/// # Panics
///
/// Panics where a building call is not of type 2.
pub fn write(recorded: &Recorded) -> Vec<u8> {
    let mut body = Writer::default();
    let kind = match recorded {
        Recorded::Building(entries) if entries.iter().all(|(call, _)| call.origin == [0; 2]) => {
            body.list(entries, Writer::build_entry);
            0
        }
        Recorded::Building(entries) => {
            body.list(entries, Writer::origin_entry);
            2
        }
        Recorded::Pairing(entries) => {
            body.list(entries, Writer::pairing_entry);
            1
        }
    };
    let mut head = Writer::default();
    head.bytes.extend(MAGIC);
    head.number(kind);
    head.number(body.words.len() as u64);
    for word in &body.words {
        head.bytes.extend(word.to_le_bytes());
    }
    head.bytes.extend(body.bytes);
    head.bytes
}

/// What the bytes of a file say, or a sentence about the first fault in them.
pub fn read(bytes: &[u8]) -> Result<Recorded, String> {
    let mut reader = Reader { bytes, at: 0, words: Vec::new() };
    if reader.take(MAGIC.len())? != MAGIC {
        return Err("the file does not begin with its eight letters".to_string());
    }
    let kind = reader.number()?;
    reader.words = reader.list(Reader::raw_word)?;
    let recorded = match kind {
        0 => Recorded::Building(reader.list(Reader::build_entry)?),
        1 => Recorded::Pairing(reader.list(Reader::pairing_entry)?),
        2 => Recorded::Building(reader.list(Reader::origin_entry)?),
        _ => return Err(format!("{kind} is no kind of file")),
    };
    match reader.at == bytes.len() {
        true => Ok(recorded),
        false => Err(format!("bytes follow the last call, from byte {}", reader.at)),
    }
}

/// Bytes in the making, with the distinct words in order of first use.
#[derive(Default)]
struct Writer {
    bytes: Vec<u8>,
    words: Vec<u64>,
    places: HashMap<u64, usize>,
}

impl Writer {
    fn number(&mut self, mut number: u64) {
        while number >= 0x80 {
            self.bytes.push(number as u8 | 0x80);
            number >>= 7;
        }
        self.bytes.push(number as u8);
    }

    fn word(&mut self, word: &u64) {
        let unseen = self.words.len();
        let place = *self.places.entry(*word).or_insert(unseen);
        if place == unseen {
            self.words.push(*word);
        }
        self.number(place as u64);
    }

    fn list<T>(&mut self, items: &[T], item: fn(&mut Self, &T)) {
        self.number(items.len() as u64);
        for it in items {
            item(self, it);
        }
    }

    fn small(&mut self, number: &u8) {
        self.number(u64::from(*number));
    }

    fn middle(&mut self, number: &u32) {
        self.number(u64::from(*number));
    }

    fn record(&mut self, record: &Record) {
        record.iter().for_each(|number| self.middle(number));
    }

    fn pair(&mut self, pair: &Pair) {
        pair.iter().for_each(|end| self.middle(end));
    }

    fn origin_entry(&mut self, entry: &BuildEntry) {
        entry.0.origin.iter().for_each(|word| self.word(word));
        self.build_entry(entry);
    }

    fn build_entry(&mut self, (call, answer): &BuildEntry) {
        assert_eq!(call.wkb_type, TYPES[0], "only lines of x and y are recorded");
        self.list(&call.coordinates, Self::word);
        self.list(&call.counts, Self::middle);
        self.list(&call.groups, Self::middle);
        self.list(&call.kinds, Self::small);
        self.word(&call.tolerance);
        self.small(&call.switch);
        self.word(&call.limit);
        match answer {
            Ok(built) => self.built(built),
            Err(Refusal(number)) => self.middle(number),
        }
    }

    fn built(&mut self, built: &Built) {
        self.number(0);
        self.list(&built.table, Self::record);
        self.list(&built.members, Self::middle);
        self.list(&built.marks, Self::small);
        self.list(&built.listing, Self::middle);
        self.list(&built.merged, Self::word);
    }

    fn pairing_entry(&mut self, (call, pairs): &PairingEntry) {
        self.list(&call.present, Self::small);
        self.list(&call.directions, Self::word);
        self.list(&call.pieces, Self::middle);
        self.word(&call.limit);
        self.list(pairs, Self::pair);
    }
}

/// Bytes being read, with the distinct words of the file.
struct Reader<'a> {
    bytes: &'a [u8],
    at: usize,
    words: Vec<u64>,
}

type Read<T> = Result<T, String>;

impl<'a> Reader<'a> {
    fn take(&mut self, length: usize) -> Read<&'a [u8]> {
        let end = self.at + length;
        let part = self.bytes.get(self.at..end).ok_or("the file ends too early")?;
        self.at = end;
        Ok(part)
    }

    fn number(&mut self) -> Read<u64> {
        let mut number = 0;
        for shift in (0..64).step_by(7) {
            let byte = self.take(1)?[0];
            number |= u64::from(byte & 0x7f) << shift;
            if byte < 0x80 {
                return Ok(number);
            }
        }
        Err(format!("a number before byte {} does not end", self.at))
    }

    fn within<T: TryFrom<u64>>(&mut self) -> Read<T> {
        let number = self.number()?;
        T::try_from(number).map_err(|_| format!("{number} before byte {} is too large", self.at))
    }

    fn word(&mut self) -> Read<u64> {
        let place: usize = self.within()?;
        let word = self.words.get(place).copied();
        word.ok_or(format!("no word has the place {place} before byte {}", self.at))
    }

    fn raw_word(&mut self) -> Read<u64> {
        let mut word = [0; 8];
        word.copy_from_slice(self.take(8)?);
        Ok(u64::from_le_bytes(word))
    }

    fn list<T>(&mut self, item: fn(&mut Self) -> Read<T>) -> Read<Vec<T>> {
        let length = self.number()?;
        (0..length).map(|_| item(self)).collect()
    }

    fn numbers<const N: usize>(&mut self) -> Read<[u32; N]> {
        let mut numbers = [0; N];
        for number in &mut numbers {
            *number = self.within()?;
        }
        Ok(numbers)
    }

    fn origin_entry(&mut self) -> Read<BuildEntry> {
        let origin = [self.word()?, self.word()?];
        let (call, answer) = self.build_entry()?;
        Ok((BuildCall { origin, ..call }, answer))
    }

    fn build_entry(&mut self) -> Read<BuildEntry> {
        let call = BuildCall {
            wkb_type: TYPES[0],
            coordinates: self.list(Self::word)?,
            counts: self.list(Self::within)?,
            groups: self.list(Self::within)?,
            kinds: self.list(Self::within)?,
            tolerance: self.word()?,
            origin: [0; 2],
            switch: self.within()?,
            limit: self.word()?,
        };
        match self.within()? {
            0 => {
                let built = self.built()?;
                let boxes = boxes(&call, &built);
                Ok((call, Ok(Built { boxes, ..built })))
            }
            number => Ok((call, Err(Refusal(number)))),
        }
    }

    fn built(&mut self) -> Read<Built> {
        Ok(Built {
            table: self.list(Self::numbers)?,
            members: self.list(Self::within)?,
            marks: self.list(Self::within)?,
            listing: self.list(Self::within)?,
            merged: self.list(Self::word)?,
            boxes: vec![],
        })
    }

    fn pairing_entry(&mut self) -> Read<PairingEntry> {
        let call = PairingCall {
            present: self.list(Self::within)?,
            directions: self.list(Self::word)?,
            pieces: self.list(Self::within)?,
            limit: self.word()?,
        };
        Ok((call, self.list(Self::numbers)?))
    }
}
