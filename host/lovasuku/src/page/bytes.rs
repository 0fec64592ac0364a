//! Bytes of the page's data: whole numbers in as few bytes as they need, and the text that they become.

/// Bytes that are written one after another.
#[derive(Clone, Debug, Default, PartialEq)]
pub struct Bytes(Vec<u8>);

impl Bytes {
    /// A whole number, seven bits a byte, the lowest first; all but the last byte have the top bit.
    pub fn number(&mut self, mut number: u64) {
        while number > 0x7f {
            self.0.push(number as u8 | 0x80);
            number >>= 7;
        }
        self.0.push(number as u8);
    }

    /// A whole number of either sign: 0, -1, 1, -2 .. as 0, 1, 2, 3 ..
    pub fn signed(&mut self, number: i64) {
        self.number(zigzag(number));
    }

    /// The eight bytes of a double, the lowest first.
    pub fn double(&mut self, x: f64) {
        self.0.extend(x.to_bits().to_le_bytes());
    }

    #[cfg(test)]
    pub fn len(&self) -> usize {
        self.0.len()
    }

    /// The bytes as text: base64 of RFC 4648.
    pub fn text(&self) -> String {
        base64(&self.0)
    }
}

/// Whole numbers of either sign as those from 0 up, near ones near 0.
pub fn zigzag(number: i64) -> u64 {
    ((number << 1) ^ (number >> 63)) as u64
}

const DIGITS: &[u8; 64] = b"ABCDEFGHIJKLMNOPQRSTUVWXYZabcdefghijklmnopqrstuvwxyz0123456789+/";

/// Base64 of RFC 4648, with padding.
pub fn base64(bytes: &[u8]) -> String {
    let mut text = String::with_capacity((bytes.len() + 2) / 3 * 4);
    for three in bytes.chunks(3) {
        let byte = |k: usize| u32::from(three.get(k).copied().unwrap_or_default());
        let word = byte(0) << 16 | byte(1) << 8 | byte(2);
        for k in 0..4 {
            let digit = DIGITS[(word >> (18 - 6 * k) & 63) as usize];
            text.push(if k <= three.len() { digit as char } else { '=' });
        }
    }
    text
}

#[cfg(test)]
mod tests {
    use super::{base64, zigzag, Bytes};

    /// The examples of RFC 4648.
    #[test]
    fn base64_of_the_standard() {
        let all = ["", "f", "fo", "foo", "foob", "fooba", "foobar"];
        let texts = ["", "Zg==", "Zm8=", "Zm9v", "Zm9vYg==", "Zm9vYmE=", "Zm9vYmFy"];
        assert_eq!(all.map(|text| base64(text.as_bytes())), texts);
        assert_eq!(base64(&[0xfb, 0xff, 0xfe]), "+//+");
    }

    #[test]
    fn numbers_in_few_bytes() {
        let of = |number: u64| {
            let mut bytes = Bytes::default();
            bytes.number(number);
            bytes.0
        };
        assert_eq!([of(0), of(127)], [[0], [127]]);
        assert_eq!([of(128), of(300)], [[0x80, 1], [0xac, 2]]);
        assert_eq!(of(u64::MAX).len(), 10);
        assert_eq!([0, -1, 1, -2, i64::MAX, i64::MIN].map(zigzag), [0, 1, 2, 3, !1, !0]);
    }
}
