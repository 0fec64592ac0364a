//! Verdicts in words.

use super::chains::Read;
use crate::classes::Classes;
use crate::delivery::{Delivery, Point};
use crate::measure::Measure;
use crate::numbers::count;
use lovasuku_chains::{Delivered, Finding, Lines, Settings, Unacceptable};

/// Chains that are accepted: so many of so many lines, under these settings, and how many of them no call of the
/// library can hold.
pub fn accepted([chains, lines]: [String; 2], settings: Settings, beyond: usize) -> String {
    let Settings { tolerance, origin: [x, y], .. } = settings;
    let mut words = format!("accepted: {chains} of {lines}, tolerance {tolerance}");
    if tolerance > 0.0 && [x, y] != [0.0; 2] {
        words += &format!(" from {x} {y}");
    }
    if beyond > 0 {
        let chains = count(beyond, "chain");
        words +=
            &format!("; {chains} of more lines or positions than a call holds, judged without one");
    }
    words
}

/// What words are found from.
pub struct Words<'a> {
    pub delivery: &'a Delivery<'a>,
    pub classes: &'a Classes<'a>,
    pub read: &'a [Read<'a>],
    pub lines: Lines<'a>,
    pub chains: Delivered<'a>,
}

impl Words<'_> {
    /// Where the chains are not acceptable, and why.
    pub fn of(&self, found: Finding) -> String {
        let why = self.why(found);
        match (found.chain, found.line) {
            (Some(chain), Some(line)) => {
                format!("{}, line {}: {why}", self.chain(chain), self.line(line))
            }
            (Some(chain), None) => format!("{}: {why}", self.chain(chain)),
            (None, Some(line)) => format!("line {}: {why}", self.line(line)),
            (None, None) => why,
        }
    }

    /// A chain whose geometry is of another kind than its line's.
    pub fn of_shape(&self, chain: usize, listed: &[Vec<u32>]) -> String {
        match listed.get(chain).map(Vec::as_slice) {
            Some(&[line]) => format!(
                "{}, line {}: it stands alone, and the chain's geometry is of another kind or has other parts",
                self.chain(chain),
                self.line(line)
            ),
            _ => format!("{}: its geometry is a MultiLineString", self.chain(chain)),
        }
    }

    fn chain(&self, chain: usize) -> String {
        self.read.get(chain).map_or(format!("chain {chain}"), |read| read.name(chain))
    }

    /// The name of a line as it is written, with which part of its feature it is.
    fn line(&self, line: u32) -> String {
        match self.delivery.part(line) {
            0 => self.delivery.name(line).into_owned(),
            part => format!("{} (part {part})", self.delivery.name(line)),
        }
    }

    fn why(&self, Finding { chain, line, why }: Finding) -> String {
        let position = |at: usize| chain.and_then(|chain| self.position(chain, at));
        match why {
            Unacceptable::Again { chain: other } if chain == Some(other) => {
                "it stands in this chain twice".into()
            }
            Unacceptable::Again { chain } => format!("it stands in {} already", self.chain(chain)),
            Unacceptable::Group { first } => self.of_other_group(first, line),
            Unacceptable::Passing => self.passing(line),
            Unacceptable::Apart { before } => {
                let apart = line.map_or(f64::NAN, |line| self.distance(before, line));
                let measure = Measure::of(self.delivery, None);
                format!(
                    "it does not meet line {}, which is listed before it; their nearest ends are {} apart",
                    self.line(before),
                    measure.words(apart)
                )
            }
            Unacceptable::Touched { at } => match position(at) {
                Some(there) => format!(
                    "it stands alone, and position {at} of the chain, {there}, is not its own, bit for bit"
                ),
                None => format!("it stands alone, and the chain has only {at} of its positions"),
            },
            Unacceptable::Differs { at } => match position(at) {
                Some(there) => format!(
                    "position {at} of the chain, {there}, is not the line's, whichever way it is travelled"
                ),
                None => format!("the chain ends after {at} positions, before the line does"),
            },
            Unacceptable::Longer { at } => {
                let there = position(at).unwrap_or_default();
                format!("from position {at} on, {there}, it is longer than its lines laid end to end")
            }
            Unacceptable::NoLine => "it has positions, and lists no line".into(),
            Unacceptable::Missing => "it stands in no chain".into(),
            Unacceptable::Record => "it cannot be read".into(),
        }
    }

    fn of_other_group(&self, first: u32, line: Option<u32>) -> String {
        let group = |line: u32| self.lines.groups.get(line as usize).copied().unwrap_or_default();
        let own = line.map_or_else(String::new, |line| self.classes.name(group(line)));
        let (other, name) = (self.classes.name(group(first)), self.line(first));
        format!("it is of {own}, and line {name}, which the chain begins with, of {other}")
    }

    fn passing(&self, line: Option<u32>) -> String {
        let what = match line.map(|line| self.delivery.shapes().is_multi(line)) {
            Some(true) => "is a MultiLineString, which passes through",
            _ => "has fewer than two positions, so that it passes through",
        };
        format!("it {what}, and does not stand alone")
    }

    /// A position of a chain, its numbers with blanks between them.
    fn position(&self, chain: usize, at: usize) -> Option<String> {
        let [first, count] = [3, 4].map(|k| self.chains.table.get(6 * chain + k).copied());
        let (first, count) = (first? as usize, count? as usize);
        let stride = self.lines.dimension.stride();
        let numbers = self.chains.merged.chunks_exact(stride).skip(first).take(count).nth(at)?;
        let known = numbers.iter().filter(|number| !number.is_nan());
        Some(known.map(f64::to_string).collect::<Vec<_>>().join(" "))
    }

    /// The distance of the nearest ends of two lines.
    fn distance(&self, one: u32, other: u32) -> f64 {
        let ends = |line: u32| -> Vec<Point> {
            let runs = self.delivery.shapes().runs(line);
            runs.flat_map(|run| [run.first(), run.last()]).flatten().copied().collect()
        };
        let measure = Measure::of(self.delivery, None);
        let (ends, others) = (ends(one), ends(other));
        let all = ends.iter().flat_map(|&a| others.iter().map(move |&b| (a, b)));
        all.map(|(a, b)| measure.distance(a, b)).fold(f64::INFINITY, f64::min)
    }
}
