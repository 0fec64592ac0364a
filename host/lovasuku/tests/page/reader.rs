//! Reads a page as a browser does: its elements, its policy and its data. Written apart from what writes it.

use serde_json::Value;
use sha2::{Digest, Sha256};

/// A page in its parts.
pub struct Page {
    /// The policy.
    pub policy: String,
    /// The texts of its scripts.
    pub scripts: Vec<String>,
    /// The text of its style.
    pub style: String,
    /// The text of its data.
    pub text: String,
    /// Its data.
    pub data: Value,
}

/// What stands between two texts, and what follows.
fn between<'a>(text: &'a str, from: &str, to: &str) -> Option<(&'a str, &'a str)> {
    let (_, rest) = text.split_once(from)?;
    rest.split_once(to)
}

impl Page {
    pub fn of(html: &str) -> Self {
        assert!(html.starts_with("<!DOCTYPE html>") && html.trim_end().ends_with("</html>"));
        let head = "<meta http-equiv=\"Content-Security-Policy\" content=\"";
        let (policy, _) = between(html, head, "\">").unwrap();
        let (style, _) = between(html, "<style>", "</style>").unwrap();
        let (text, rest) =
            between(html, "<script type=\"application/json\" id=\"data\">", "</script>").unwrap();
        let mut scripts = Vec::new();
        let mut rest = rest;
        while let Some((script, after)) = between(rest, "<script>", "</script>") {
            scripts.push(script.to_owned());
            rest = after;
        }
        assert_eq!(html.matches("<script").count(), 1 + scripts.len());
        assert_eq!(html.matches("</script").count(), 1 + scripts.len());
        Page {
            policy: policy.to_owned(),
            scripts,
            style: style.to_owned(),
            text: text.to_owned(),
            data: serde_json::from_str(text).unwrap(),
        }
    }

    /// The sources that a directive of the policy allows.
    pub fn allowed(&self, directive: &str) -> Vec<String> {
        let all = self.policy.split(';').map(str::trim);
        let found = all.filter_map(|each| each.strip_prefix(directive)).next().unwrap();
        found.split_whitespace().map(str::to_owned).collect()
    }

    /// The bytes that a text of the data stands for.
    pub fn bytes(&self, path: &[&str]) -> Vec<u8> {
        let value = path.iter().fold(&self.data, |value, name| &value[*name]);
        bytes(value.as_str().unwrap_or_else(|| panic!("{path:?}")))
    }

    /// The whole numbers that a text of the data stands for.
    pub fn numbers(&self, path: &[&str]) -> Numbers {
        Numbers { bytes: self.bytes(path), at: 0 }
    }

    /// The runs of points of each line.
    pub fn lines(&self) -> Vec<Vec<Vec<[f64; 2]>>> {
        let mut counts = self.numbers(&["shapes", "counts"]);
        let mut points = self.points().into_iter();
        let mut lines = Vec::new();
        while counts.more() {
            let head = counts.next();
            let lengths: Vec<u64> = match head % 2 {
                0 => vec![head / 2],
                _ => (0..head / 2).map(|_| counts.next()).collect(),
            };
            let mut run = |&length: &u64| points.by_ref().take(length as usize).collect();
            lines.push(lengths.iter().map(&mut run).collect());
        }
        assert_eq!(points.next(), None);
        lines
    }

    fn points(&self) -> Vec<[f64; 2]> {
        let mut numbers = self.numbers(&["shapes", "points"]);
        let decimals = self.data["shapes"]["decimals"].as_i64();
        let (mut points, mut last) = (Vec::new(), [0i64; 2]);
        while numbers.more() {
            last = last.map(|x| x.wrapping_add(unzigzag(numbers.next())));
            points.push(last.map(|x| match decimals {
                Some(decimals) => x as f64 / format!("1e{decimals}").parse::<f64>().unwrap(),
                None => f64::from_bits(x as u64),
            }));
        }
        points
    }

    /// The lines of each chain in travel order, each with whether it was turned.
    pub fn paths(&self) -> Vec<Vec<(u64, bool)>> {
        let mut numbers = self.numbers(&["chains", "paths"]);
        let (mut paths, mut last) = (Vec::new(), 0);
        while numbers.more() {
            let count = numbers.next();
            let step = |_| {
                let word = numbers.next();
                last += unzigzag(word / 2);
                (last as u64, word % 2 == 1)
            };
            paths.push((0..count).map(step).collect());
        }
        paths
    }

    pub fn junctions(&self) -> Vec<Junction> {
        let mut numbers = self.numbers(&["junctions", "numbers"]);
        let measures = self.bytes(&["junctions", "measures"]);
        let mut measures =
            measures.chunks(8).map(|bytes| f64::from_le_bytes(bytes.try_into().unwrap()));
        let (mut all, mut last) = (Vec::new(), 0);
        while numbers.more() {
            let head = numbers.next();
            let (ends, whole) = (head >> 2, head >> 1 & 1 == 1);
            let mut end = |_| {
                let word = numbers.next();
                last += unzigzag(word / 2);
                (last as u64 / 2, last % 2 == 1, word % 2 == 1)
            };
            let ends: Vec<(u64, bool, bool)> = (0..ends).map(&mut end).collect();
            let count = numbers.next();
            let selected: Vec<[u64; 2]> =
                (0..count).map(|_| [numbers.next(), numbers.next()]).collect();
            let pairs = if whole { ends.len() * (ends.len() - 1) / 2 } else { selected.len() };
            let reasons = (0..if whole { pairs } else { 0 }).map(|_| numbers.next()).collect();
            let measures = measures.by_ref().take(pairs).collect();
            all.push(Junction { round: head & 1, ends, selected, whole, reasons, measures });
        }
        assert_eq!(measures.next(), None);
        all
    }
}

/// A junction as the data tells of it.
#[derive(Debug)]
pub struct Junction {
    pub round: u64,
    /// Line, whether it is its last point, and whether it has no direction.
    pub ends: Vec<(u64, bool, bool)>,
    pub selected: Vec<[u64; 2]>,
    pub whole: bool,
    pub reasons: Vec<u64>,
    pub measures: Vec<f64>,
}

/// Whole numbers, seven bits a byte, the lowest first.
pub struct Numbers {
    bytes: Vec<u8>,
    at: usize,
}

impl Numbers {
    pub fn more(&self) -> bool {
        self.at < self.bytes.len()
    }

    pub fn next(&mut self) -> u64 {
        let from = &self.bytes[self.at..];
        let length = 1 + from.iter().position(|&byte| byte < 128).unwrap();
        self.at += length;
        from[..length].iter().rev().fold(0, |sum, &byte| sum << 7 | u64::from(byte & 127))
    }
}

fn unzigzag(number: u64) -> i64 {
    (number >> 1) as i64 ^ -((number & 1) as i64)
}

/// The bytes of a text in base64.
fn bytes(text: &str) -> Vec<u8> {
    let digit = |each: u8| match each {
        b'A'..=b'Z' => u32::from(each - b'A'),
        b'a'..=b'z' => u32::from(each - b'a') + 26,
        b'0'..=b'9' => u32::from(each - b'0') + 52,
        b'+' => 62,
        b'/' => 63,
        _ => panic!("{each} is no digit"),
    };
    let mut out = Vec::new();
    for four in text.as_bytes().chunks(4) {
        let padding = four.iter().filter(|&&each| each == b'=').count();
        let digits = four[..4 - padding].iter().map(|&each| digit(each));
        let word = digits.fold(0, |sum, digit| sum << 6 | digit) << (6 * padding);
        out.extend(&word.to_be_bytes()[1..4 - padding]);
    }
    out
}

/// The checksum of a text as a policy names it.
pub fn source(text: &str) -> String {
    let digest = Sha256::digest(text.as_bytes());
    let words = digest.iter().map(|&byte| format!("{byte:08b}")).collect::<String>() + "0000";
    let digits = b"ABCDEFGHIJKLMNOPQRSTUVWXYZabcdefghijklmnopqrstuvwxyz0123456789+/";
    let digit = |k: usize| {
        let six = words.get(6 * k..6 * k + 6);
        six.map_or('=', |six| digits[usize::from_str_radix(six, 2).unwrap()] as char)
    };
    // 256 bits are 43 digits, and one more fills the last four.
    let text: String = (0..44).map(|k| if k < 43 { digit(k) } else { '=' }).collect();
    format!("'sha256-{text}'")
}

/// The SHA-256 of bytes in hexadecimal digits.
pub fn checksum(bytes: &[u8]) -> String {
    Sha256::digest(bytes).iter().map(|byte| format!("{byte:02x}")).collect()
}
