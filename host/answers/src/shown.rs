//! Calls as they are shown where two answers differ: every float as its bits and its decimals.

use std::fmt;

use crate::{BuildCall, PairingCall, WhyCall, WindowCall, TYPES};

/// A float as its bits and its decimals.
fn word(bits: u64) -> String {
    format!("{bits:016x} ({:?})", f64::from_bits(bits))
}

impl fmt::Display for BuildCall {
    fn fmt(&self, f: &mut fmt::Formatter<'_>) -> fmt::Result {
        let (tolerance, limit) = (word(self.tolerance), word(self.limit));
        if self.wkb_type != TYPES[0] {
            writeln!(f, "type {}", self.wkb_type)?;
        }
        if self.origin != [0; 2] {
            writeln!(f, "origin {}", self.origin.map(word).join(" "))?;
        }
        writeln!(f, "tolerance {tolerance}, switch {}, limit {limit}", self.switch)?;
        for (line, first) in self.firsts().into_iter().enumerate() {
            let (group, kind) = (self.groups[line], self.kinds[line]);
            writeln!(f, "line {line}, group {group}, kind {kind}")?;
            for numbers in self.numbers(line, first).chunks(self.stride()) {
                let words: Vec<String> = numbers.iter().map(|&bits| word(bits)).collect();
                writeln!(f, "  {}", words.join(" "))?;
            }
        }
        Ok(())
    }
}

impl fmt::Display for WindowCall {
    fn fmt(&self, f: &mut fmt::Formatter<'_>) -> fmt::Result {
        writeln!(f, "window {}, {} chains", self.window.map(word).join(" "), self.k)?;
        for (at, numbers) in self.boxes.chunks(4).enumerate() {
            let words: Vec<String> = numbers.iter().map(|&bits| word(bits)).collect();
            writeln!(f, "box {at}: {}", words.join(" "))?;
        }
        Ok(())
    }
}

impl fmt::Display for WhyCall {
    fn fmt(&self, f: &mut fmt::Formatter<'_>) -> fmt::Result {
        let [i, j] = self.ends;
        write!(f, "ends {i} and {j}, {}", self.pairing)
    }
}

impl fmt::Display for PairingCall {
    fn fmt(&self, f: &mut fmt::Formatter<'_>) -> fmt::Result {
        writeln!(f, "limit {}", word(self.limit))?;
        for (end, direction) in self.directions.chunks(2).enumerate() {
            let (x, y) = (word(direction[0]), word(direction[1]));
            let (present, piece) = (self.present[end], self.pieces[end]);
            writeln!(f, "end {end}, present {present}, piece {piece}: {x} {y}")?;
        }
        Ok(())
    }
}
