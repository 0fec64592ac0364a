//! What stands above the tables: when, where and how the figures were measured.

use crate::geos::Geos;
use std::time::{SystemTime, UNIX_EPOCH};

/// The sentences that say how to read the tables.
const READING: &str = "A figure is the port's time as a part of the Rust's, with the port's time \
    beside it: the best of many calls, the sides taken in turn in one process on the same input, \
    after they have been seen to answer alike. Rooms are lent as the call before left them and are \
    not cleared first; the port's time includes the zeroing of spare and workspace. The Rust's \
    lines are ready made, its answer is dropped after its clock has stopped, and the memory that \
    it frees is kept for its next call. The Rust is the edited one, whose measure is the dot \
    product. Zeroing is that of spare and workspace alone, as a part of the Rust's strict call. WKB is \
    held to plain Rust; a copy of the coordinates alone is a part of that one's time.";

/// The paragraphs above the tables.
pub fn paragraphs(words: &[String], geos: Option<&Geos>) -> [String; 3] {
    let command = ["cargo run --release -p bench", &words.join(" ")].join(" -- ");
    let command = command.trim_end_matches(" -- ");
    let geos = match geos {
        Some(geos) => {
            format!(
                "GEOS {}: LineMerger, strict, tolerance 0; WKBReader and WKBWriter.",
                geos.version()
            )
        }
        None => "GEOS is not installed: skipped.".to_string(),
    };
    [format!("{}, {}, `{command}`.", date(), processor()), READING.to_string(), geos]
}

/// The name of the processor, or of its kind where the system does not tell.
fn processor() -> String {
    let text = std::fs::read_to_string("/proc/cpuinfo").unwrap_or_default();
    let name = text.lines().find_map(|line| line.strip_prefix("model name")?.split(": ").nth(1));
    name.unwrap_or(std::env::consts::ARCH).to_string()
}

/// The date, in UTC.
fn date() -> String {
    let since = SystemTime::now().duration_since(UNIX_EPOCH).unwrap_or_default();
    let (year, month, day) = civil(since.as_secs() / 86_400);
    format!("{year}-{month:02}-{day:02}")
}

/// Year, month and day of a day counted from 1970-01-01.
pub fn civil(mut day: u64) -> (u64, usize, u64) {
    let leap = |year: u64| year % 4 == 0 && (year % 100 != 0 || year % 400 == 0);
    let mut year = 1970;
    while day >= 365 + u64::from(leap(year)) {
        day -= 365 + u64::from(leap(year));
        year += 1;
    }
    let february = 28 + u64::from(leap(year));
    for (month, days) in [31, february, 31, 30, 31, 30, 31, 31, 30, 31, 30].iter().enumerate() {
        if day < *days {
            return (year, month + 1, day + 1);
        }
        day -= days;
    }
    (year, 12, day + 1)
}
