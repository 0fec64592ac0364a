//! Fields as properties: the values of a row as JSON. A field without a value is left out.

use super::gdal::{Unit, Value};
use crate::delivery::MARK;
use std::io::Write;

/// A value of a field, and whether its texts are JSON.
pub type Property<'b> = (Value<'b>, bool);

/// Writes the values of a row, with a mark between each two.
pub fn row<'b>(out: &mut Vec<u8>, values: impl Iterator<Item = Property<'b>>) {
    for (k, (value, json)) in values.enumerate() {
        if k > 0 {
            out.push(MARK as u8);
        }
        if is_told(&value) {
            write(out, &value, json);
        }
    }
}

/// False where JSON has nothing to tell: no value, and numbers that are none.
fn is_told(value: &Value) -> bool {
    match value {
        Value::Null => false,
        Value::Single(x) => x.is_finite(),
        Value::Real(x) => x.is_finite(),
        _ => true,
    }
}

/// Writes a value.
fn write(out: &mut Vec<u8>, value: &Value, json: bool) {
    // A list of bytes takes all that is written to it.
    match value {
        Value::Boolean(truth) => json_of(out, truth),
        Value::Whole(number) => write!(out, "{number}").unwrap_or_default(),
        Value::Natural(number) => write!(out, "{number}").unwrap_or_default(),
        Value::Single(x) => json_of(out, x),
        Value::Real(x) => json_of(out, x),
        Value::Text(bytes) if json && is_json(bytes) => out.extend(*bytes),
        Value::Text(bytes) => json_of(out, &String::from_utf8_lossy(bytes)),
        Value::Bytes(bytes) => json_of(out, &hexadecimal(bytes)),
        Value::Date(days) => json_of(out, &date(i64::from(*days))),
        Value::Time(time, unit) => json_of(out, &time_of_day(*time, *unit)),
        Value::Moment(moment, unit, zone) => json_of(out, &moment_of(*moment, *unit, zone)),
        Value::Told(words) => json_of(out, words),
        Value::Null => out.extend(b"null"),
        Value::List(values) => {
            out.push(b'[');
            for (k, value) in values.iter().enumerate() {
                if k > 0 {
                    out.push(b',');
                }
                match is_told(value) {
                    true => write(out, value, false),
                    false => out.extend(b"null"),
                }
            }
            out.push(b']');
        }
    }
}

fn json_of<T: serde::Serialize>(out: &mut Vec<u8>, value: &T) {
    serde_json::to_writer(out, value).unwrap_or_default();
}

fn is_json(bytes: &[u8]) -> bool {
    serde_json::from_slice::<serde::de::IgnoredAny>(bytes).is_ok()
}

/// Bytes as two digits each.
fn hexadecimal(bytes: &[u8]) -> String {
    bytes.iter().map(|byte| format!("{byte:02x}")).collect()
}

/// The bytes that digits stand for, if they are such.
pub fn of_hexadecimal(text: &str) -> Option<Vec<u8>> {
    let digit = |byte: u8| char::from(byte).to_digit(16).map(|digit| digit as u8);
    let two = |two: &[u8]| Some(digit(two[0])? << 4 | digit(two[1])?);
    match text.len() % 2 {
        0 => text.as_bytes().chunks_exact(2).map(two).collect(),
        _ => None,
    }
}

/// Days of 400 years, after which the calendar repeats itself; of which the last has one more than 100
/// years have, and so on down to one year.
const DAYS_OF_400: i64 = 146_097;
const DAYS_OF_100: i64 = 36_524;
const DAYS_OF_4: i64 = 1_461;
const DAYS_OF_1: i64 = 365;

/// The days from the first of March of the year 0, with which its leap days end, to 1970.
const DAYS_TO_1970: i64 = 719_468;

/// The date that lies so many days after the first of January 1970, in the calendar of ISO 8601.
fn date(days: i64) -> String {
    let days = days + DAYS_TO_1970;
    let (era, day) = (days.div_euclid(DAYS_OF_400), days.rem_euclid(DAYS_OF_400));
    let year =
        (day - day / (DAYS_OF_4 - 1) + day / DAYS_OF_100 - day / (DAYS_OF_400 - 1)) / DAYS_OF_1;
    let day = day - (DAYS_OF_1 * year + year / 4 - year / 100);
    // Months from March on, of 153 days for each five.
    let month = (5 * day + 2) / 153;
    let day = day - (153 * month + 2) / 5 + 1;
    let month = if month < 10 { month + 3 } else { month - 9 };
    let year = era * 400 + year + i64::from(month < 3);
    format!("{year:04}-{month:02}-{day:02}")
}

const SECONDS_OF_DAY: i64 = 86_400;

/// A time of a day, with as many decimals as it has.
fn time_of_day(time: i64, unit: Unit) -> String {
    let digits = unit.digits();
    let whole = 10i64.pow(digits);
    let (seconds, part) = (time.div_euclid(whole), time.rem_euclid(whole));
    let (hour, minute, second) = (seconds / 3600, seconds / 60 % 60, seconds % 60);
    let time = format!("{hour:02}:{minute:02}:{second:02}");
    match part {
        0 => time,
        _ => {
            let decimals = format!("{part:0width$}", width = digits as usize);
            format!("{time}.{}", decimals.trim_end_matches('0'))
        }
    }
}

/// A moment as a date and a time. A zone is told of moments that are counted in universal time.
fn moment_of(moment: i64, unit: Unit, zone: &str) -> String {
    let day = SECONDS_OF_DAY * 10i64.pow(unit.digits());
    let time = time_of_day(moment.rem_euclid(day), unit);
    let zone = if zone.is_empty() { "" } else { "Z" };
    format!("{}T{time}{zone}", date(moment.div_euclid(day)))
}

#[cfg(test)]
mod tests {
    use super::{date, moment_of, of_hexadecimal, time_of_day, Unit};

    #[test]
    fn dates_of_the_calendar() {
        let days = [0, -1, 59, 789, 790, 11_016, 19_782, 2_932_896, -719_528, -25_567];
        let wanted = [
            "1970-01-01",
            "1969-12-31",
            "1970-03-01",
            "1972-02-29",
            "1972-03-01",
            "2000-02-29",
            "2024-02-29",
            "9999-12-31",
            "0000-01-01",
            "1900-01-01",
        ];
        assert_eq!(days.map(date), wanted);
    }

    #[test]
    fn times_of_a_day() {
        assert_eq!(time_of_day(0, Unit::Second), "00:00:00");
        assert_eq!(time_of_day(86_399_120, Unit::Milli), "23:59:59.12");
        assert_eq!(time_of_day(1_000_001, Unit::Micro), "00:00:01.000001");
    }

    #[test]
    fn moments() {
        assert_eq!(moment_of(-1, Unit::Milli, ""), "1969-12-31T23:59:59.999");
        assert_eq!(moment_of(1_714_566_600, Unit::Second, "UTC"), "2024-05-01T12:30:00Z");
    }

    #[test]
    fn digits_of_bytes() {
        assert_eq!(of_hexadecimal("00ff1A"), Some(vec![0, 255, 26]));
        assert_eq!((of_hexadecimal("0"), of_hexadecimal("zz")), (None, None));
    }
}
