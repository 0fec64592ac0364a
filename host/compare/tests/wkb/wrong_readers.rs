//! Deliberately wrong readers are told apart from the right one by made-up runs.

use crate::made_up::made_up;
use crate::Reading;
use answers::random::Random;
use answers::stride_of;
use answers::wkb::Records;

/// What a reader gets wrong.
#[derive(Clone, Copy, Debug, PartialEq, Eq)]
enum Wrong {
    Nothing,
    /// 25 for a type that is none of the four, where it differs from the first record's.
    MixedBeforeType,
    /// 25 after the record's length.
    MixedAfterLength,
    /// 12 for a type that differs from the first record's.
    MixedAsNone,
    /// Any type of the four in any record.
    MixedTaken,
    /// Types of three numbers taken for one another.
    WidthsAlone,
    /// Two numbers for each coordinate, whatever the type.
    StrideOfTwo,
    /// The type of the first record that is not empty.
    TypeOfFirstPoints,
    /// 0 for no records.
    NothingTold,
    /// No room asked for the type of no records.
    RoomForNoneNotAsked,
}

/// A reader that gets something wrong.
fn read(reading: &Reading, wrong: Wrong) -> Result<Records, i64> {
    let sum: u128 = reading.lengths.iter().map(|&length| u128::from(length)).sum();
    if sum != reading.run.len() as u128 {
        return Err(13);
    }
    let (mut rest, mut first, mut told) = (&reading.run[..], None, None);
    let mut records = Records { wkb_type: 2, coordinates: vec![], counts: vec![] };
    for &length in &reading.lengths {
        let (record, behind) = rest.split_at(length as usize);
        rest = behind;
        if record.len() < 9 {
            return Err(13);
        }
        let big = match record[0] {
            0 => true,
            1 => false,
            _ => return Err(11),
        };
        let number = |bytes: &[u8]| {
            let digit = |sum: u64, byte: &u8| sum << 8 | u64::from(*byte);
            match big {
                true => bytes.iter().fold(0, digit),
                false => bytes.iter().rev().fold(0, digit),
            }
        };
        let wkb_type = number(&record[1..5]) as u32;
        let first: u32 = *first.get_or_insert(wkb_type);
        let alike = match wrong {
            Wrong::WidthsAlone => stride_of(first) == stride_of(wkb_type),
            Wrong::MixedTaken => true,
            _ => first == wkb_type,
        };
        let stride = match (stride_of(wkb_type), wrong) {
            (None, Wrong::MixedBeforeType) if !alike => return Err(25),
            (None, _) => return Err(12),
            (Some(_), Wrong::StrideOfTwo) => 2,
            (Some(stride), _) => stride,
        };
        let count = number(&record[5..9]);
        let as_long = record.len() as u64 == 9 + 8 * stride as u64 * count;
        match wrong {
            Wrong::MixedAsNone if !alike => return Err(12),
            Wrong::MixedAfterLength if !as_long => return Err(13),
            _ if !alike => return Err(25),
            _ if !as_long => return Err(13),
            _ => (),
        }
        if wrong != Wrong::TypeOfFirstPoints || count > 0 {
            told.get_or_insert(wkb_type);
        }
        records.counts.push(count as u32);
        records.coordinates.extend(record[9..].chunks(8).map(number));
    }
    let none = if wrong == Wrong::NothingTold { 0 } else { 2 };
    records.wkb_type = told.unwrap_or(none);
    let [numbers, rows, types] = reading.rooms;
    let room = types > 0 || wrong == Wrong::RoomForNoneNotAsked && reading.lengths.is_empty();
    match records.coordinates.len() <= numbers && records.counts.len() <= rows && room {
        true => Ok(records),
        false => Err(14),
    }
}

/// The first made-up run that tells a wrong reader from the right one.
fn caught(wrong: Wrong) -> Option<usize> {
    let mut random = Random::new(25);
    (0..60_000).find(|_| {
        let reading = made_up(&mut random);
        read(&reading, wrong) != reading.judged()
    })
}

#[test]
fn the_right_reader_passes() {
    assert_eq!(caught(Wrong::Nothing), None);
}

#[test]
fn every_wrong_reader_is_caught() {
    for wrong in [
        Wrong::MixedBeforeType,
        Wrong::MixedAfterLength,
        Wrong::MixedAsNone,
        Wrong::MixedTaken,
        Wrong::WidthsAlone,
        Wrong::StrideOfTwo,
        Wrong::TypeOfFirstPoints,
        Wrong::NothingTold,
        Wrong::RoomForNoneNotAsked,
    ] {
        assert!(caught(wrong).is_some(), "{wrong:?} is not caught");
    }
}
