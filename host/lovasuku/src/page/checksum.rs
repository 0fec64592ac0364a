//! The checksum of an input.

use crate::delivery::{Delivery, Geometry, Run};
use anyhow::{Context, Result};
use sha2::{Digest, Sha256};
use std::fmt::Write;
use std::fs::File;
use std::io;
use std::path::Path;

/// The SHA-256 of a file in hexadecimal digits, or of the text where it came from a pipe. A layer that is
/// no file, as in a database, has that of what was read: the text of its ids and properties, and behind it
/// the numbers of its lines.
pub fn checksum(path: &Path, text: &str, layer: Option<&Delivery>) -> Result<String> {
    let mut sum = Sha256::new();
    match path.is_file() {
        false => match layer {
            None => sum.update(text),
            Some(delivery) => add(delivery, text, &mut sum),
        },
        true => {
            let copied = File::open(path).and_then(|mut file| io::copy(&mut file, &mut sum));
            copied.context("it cannot be read once more, for its checksum")?;
        }
    }
    let mut digits = String::new();
    for byte in sum.finalize() {
        // Writing to a text never fails.
        write!(digits, "{byte:02x}").unwrap_or_default();
    }
    Ok(digits)
}

/// Adds the members of the collection, with which the text begins, and the rows; and the numbers of all lines:
/// of each run how many points it has, and their bits, lowest byte first.
fn add(delivery: &Delivery, text: &str, sum: &mut Sha256) {
    sum.update(&text[..delivery.begin()]);
    delivery.rows().for_each(|row| sum.update(row));
    let mut run = |Run { points, heights, .. }: &Run| {
        sum.update((points.len() as u64).to_le_bytes());
        let numbers = points.iter().flatten().chain(&**heights);
        numbers.for_each(|number| sum.update(number.to_le_bytes()));
    };
    for line in delivery.lines() {
        match &delivery.shapes().get(line) {
            Geometry::Line(line) => run(line),
            Geometry::Lines(parts) => parts.iter().for_each(&mut run),
            Geometry::Other(_) => (),
        }
    }
}
