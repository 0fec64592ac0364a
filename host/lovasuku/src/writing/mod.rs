//! Outputs: chains and bridges as GeoJSON, and how files are put in their places.

mod bridges;
mod chains;
mod files;
mod format;
mod keep;
mod parts;
mod places;

use crate::delivery::Point;
pub use bridges::Bridges;
pub use chains::{own_names, Chains};
pub use files::{put, Content, Output, Target, Text};
pub use format::{FeatureText, Format};
pub use keep::Keep;
pub use places::apart;

/// Writes a list, each item by the given function.
fn list<T>(
    out: &mut Vec<u8>,
    items: impl IntoIterator<Item = T>,
    mut item: impl FnMut(&mut Vec<u8>, T),
) {
    out.push(b'[');
    for (k, each) in items.into_iter().enumerate() {
        if k > 0 {
            out.push(b',');
        }
        item(out, each);
    }
    out.push(b']');
}

/// Writes a name of an object and a value that is written already.
fn entry(out: &mut Vec<u8>, name: &str, text: &str) {
    value(out, &name);
    out.push(b':');
    out.extend_from_slice(text.as_bytes());
}

/// Writes a position.
fn position(out: &mut Vec<u8>, point: &Point) {
    list(out, point, |out, &x| number(out, x));
}

/// Writes a finite number by the fewest digits that are read back as the same one, bit for bit.
fn number(out: &mut Vec<u8>, x: f64) {
    value(out, &x);
}

/// Writes a number or a text.
fn value<T: serde::Serialize>(out: &mut Vec<u8>, value: &T) {
    // A number or a text is always written, and a list of bytes takes all that is written to it.
    serde_json::to_writer(out, value).unwrap_or_default();
}

#[cfg(test)]
mod tests {
    use super::number;

    fn written(x: f64) -> String {
        let mut out = Vec::new();
        number(&mut out, x);
        String::from_utf8(out).unwrap()
    }

    #[test]
    fn numbers_read_back_bit_for_bit() {
        let mut bits: u64 = 0x9e37_79b9_7f4a_7c15;
        for _ in 0..200_000 {
            bits = bits
                .wrapping_mul(6_364_136_223_846_793_005)
                .wrapping_add(1_442_695_040_888_963_407);
            let x = f64::from_bits(bits ^ bits >> 29);
            if x.is_finite() {
                let text = written(x);
                let back: f64 = serde_json::from_str(&text).unwrap();
                assert_eq!(back.to_bits(), x.to_bits(), "{text}");
                assert_eq!(text.parse::<f64>().unwrap().to_bits(), x.to_bits(), "{text}");
            }
        }
    }

    #[test]
    fn numbers_are_short() {
        let all = [0.0, -0.0, 1.0, 0.1, 487_012.25, 5e-324, f64::MAX];
        let texts = ["0.0", "-0.0", "1.0", "0.1", "487012.25", "5e-324", "1.7976931348623157e308"];
        assert_eq!(all.map(written), texts);
    }
}
