//! `lovasuku why`: of two lines of a delivery, why they are joined or not.

pub mod words;

use crate::arguments::Question;
use crate::classes::Classes;
use crate::command::{explained, lines};
use crate::delivery::{Delivery, Point};
use crate::joining::{distance, join, Chain, Line};
use crate::measure::{bounds, Measure};
use crate::numbers::count;
use crate::progress::Progress;
use crate::source::Source;
use anyhow::{bail, Context, Result};
use lovasuku_chains::explain::{Explained, Meeting, Round};
use lovasuku_chains::{Dimension, Refusal, Rooms, Settings};
use std::fmt::Write;
use words::{cell, label, place, Words};

/// Answers a question, in sentences of a line each.
pub fn run(question: &Question) -> Result<String> {
    let wanted = question.wanted();
    let input = || wanted.whole_name();
    let progress = Progress::new(false);
    let (source, text) = Source::read(wanted, &progress).with_context(input)?;
    let (delivery, layer) =
        source.delivery(&text, &question.reading, &progress).with_context(input)?;
    let delivery = &delivery;
    let classes = &Classes::of(delivery, question.class.as_deref(), question.district.as_ref())
        .with_context(input)?;
    let unit = layer.and_then(|layer| layer.unit(bounds(delivery)));
    let measure = &Measure::of(delivery, question.units.as_deref().or(unit.as_deref()));
    let parts = question.reading.explode;
    let asked = [
        found(delivery, &question.lines[0], parts).with_context(input)?,
        found(delivery, &question.lines[1], parts).with_context(input)?,
    ];
    let lines: Vec<Line> = lines(delivery, classes).collect();
    let settings = question.settings;
    let told = join(Dimension::Xy, &lines, (settings, None), &progress).with_context(input)?;
    let chains: Vec<Chain> = told.chains().collect();
    let explained = &explained(&lines, &chains, settings, &progress)?;
    let words = Words::of(delivery, measure, explained, settings, parts);
    let answer = Answer {
        delivery,
        classes,
        measure,
        lines: &lines,
        chains: &chains,
        explained,
        settings,
        words,
    };
    Ok(answer.text(asked)?)
}

/// The line of a name: its id or position, with which part it is where lines are parts.
fn found(delivery: &Delivery, name: &str, parts: bool) -> Result<u32> {
    let named = |line: &u32| {
        delivery.name(*line) == name
            || delivery.label(*line) == name
            || parts && label(delivery, *line, parts) == name
    };
    let all: Vec<u32> = delivery.lines().filter(named).collect();
    let has = |line, name: &str| delivery.property(line, name).is_some();
    let joined = |name: &str| delivery.lines().any(|line| has(line, name));
    match all[..] {
        [line] => Ok(line),
        [first, ..] if parts => bail!(
            "{name:?} names {} parts of a feature; one of them is {:?}",
            all.len(),
            label(delivery, first, parts)
        ),
        [_, ..] => bail!("{name:?} names {} lines", all.len()),
        [] if joined("members") && joined("path") => bail!(
            "no line is named {name:?}; IN is to be the delivery that was joined, and this looks \
             like its chains"
        ),
        [] => bail!("no line is named {name:?}"),
    }
}

/// An end of a line: the line, and whether it is its last point.
type Place = (u32, bool);

/// What an answer is made of.
struct Answer<'a> {
    delivery: &'a Delivery<'a>,
    classes: &'a Classes<'a>,
    measure: &'a Measure,
    lines: &'a [Line<'a>],
    chains: &'a [Chain<'a>],
    explained: &'a Explained,
    settings: Settings,
    words: Words<'a>,
}

impl Answer<'_> {
    fn text(&self, [a, b]: [u32; 2]) -> Result<String, Refusal> {
        let (chain, place) = self.find(a);
        let (other_chain, other_place) = self.find(b);
        let mut told: Vec<Meeting> = Vec::new();
        let mut out = self.head([a, b], [chain, other_chain], [place, other_place]);
        if chain == other_chain {
            let [first, last] = [place.min(other_place), place.max(other_place)];
            let joints = self.explained.joints(chain);
            told.extend(joints.get(first..last).unwrap_or_default());
            let whole = first == 0 && last == joints.len() && last > 0;
            told.extend(self.explained.closing(chain).filter(|_| whole));
        }
        // Ends that round one has joined may lie in one cell again, which says nothing more.
        let known = |meeting: &Meeting| {
            let told = told.iter().filter(|each| {
                each.node == meeting.node || self.round(each.node) == Some(Round::Exact)
            });
            told.map(|&each| self.places(each)).any(|each| each == self.places(*meeting))
        };
        let more: Vec<Meeting> =
            self.explained.meetings(a, b).into_iter().filter(|each| !known(each)).collect();
        let mut rooms = Rooms::default();
        for &meeting in told.iter().chain(&more) {
            row(&mut out, &self.words.meeting(meeting, &mut rooms)?);
        }
        if chain != other_chain && more.is_empty() {
            row(&mut out, &self.apart(a, b));
        }
        Ok(out)
    }

    fn round(&self, node: usize) -> Option<Round> {
        self.explained.nodes().get(node).map(|node| node.round)
    }

    /// The two ends that meet, the lower first.
    fn places(&self, Meeting { node, ends }: Meeting) -> [Place; 2] {
        let node = self.explained.nodes().get(node);
        let mut places = ends.map(|place| {
            let end = node.and_then(|node| node.ends.get(place as usize));
            end.map_or((u32::MAX, false), |end| (end.line, end.last))
        });
        places.sort_unstable();
        places
    }

    /// The chain of a line, and its place on the way.
    fn find(&self, line: u32) -> (usize, usize) {
        let place = |(number, chain): (usize, &Chain)| {
            let place = chain.path.iter().position(|step| step.line == line)?;
            Some((number, place))
        };
        self.chains.iter().enumerate().find_map(place).unwrap_or_default()
    }

    /// Which chains the lines are in.
    fn head(&self, lines: [u32; 2], chains: [usize; 2], places: [usize; 2]) -> String {
        let [one, other] = lines.map(|line| self.words.label(line));
        let [chain, other_chain] = chains;
        let [first, last] = [places[0].min(places[1]), places[0].max(places[1])];
        if chain != other_chain {
            format!(
                "Lines {one} and {other} are not joined: {one} is in chain {chain}, {other} in \
                 chain {other_chain}.\n"
            )
        } else if first == last {
            format!("Line {one} is in chain {chain}.\n")
        } else if last == first + 1 {
            format!("Lines {one} and {other} follow each other in chain {chain}.\n")
        } else {
            let between = self.chains.get(chain).and_then(|chain| chain.path.get(first + 1..last));
            let names: Vec<String> =
                between.into_iter().flatten().map(|step| self.words.label(step.line)).collect();
            format!(
                "Lines {one} and {other} are both in chain {chain}, with {} between them: {}.\n",
                count(names.len(), "line"),
                names.join(", ")
            )
        }
    }

    /// Why two lines do not meet at all.
    fn apart(&self, a: u32, b: u32) -> String {
        let passes = |line: &u32| self.ends(*line).is_none();
        if let Some(line) = [a, b].into_iter().find(passes) {
            return self.passing(line);
        }
        let [class, other] = [a, b].map(|line| self.lines[line as usize].group);
        if class != other {
            let [class, other] = [class, other].map(|group| self.classes.name(group));
            return format!("They are of {class} and of {other}, which are never joined.");
        }
        self.nearest(a, b).unwrap_or_default()
    }

    /// Why a line passes through.
    fn passing(&self, line: u32) -> String {
        let name = self.words.label(line);
        match self.delivery.shapes().is_multi(line) {
            false => format!("{name} has fewer than two positions, and passes through."),
            true => format!(
                "{name} is a MultiLineString, and passes through (--explode joins its parts)."
            ),
        }
    }

    /// The two ends that lie nearest to each other, and what they lie in.
    fn nearest(&self, a: u32, b: u32) -> Option<String> {
        let (ends, others) = (self.ends(a)?, self.ends(b)?);
        let pairs = [[0, 0], [0, 1], [1, 0], [1, 1]];
        let apart = |[i, j]: [usize; 2]| distance(ends[i], others[j]);
        let [i, j] = pairs.into_iter().min_by(|&p, &q| apart(p).total_cmp(&apart(q)))?;
        let (from, to) = (ends[i], others[j]);
        let mut words = format!(
            "Their nearest ends, {} at {} and {} at {}, are {} apart",
            self.words.end(a, i == 1),
            place(from),
            self.words.end(b, j == 1),
            place(to),
            self.measure.words(self.measure.distance(from, to))
        );
        let [cell, other] = [from, to].map(|end| cell(end, self.settings));
        words += &match (self.settings.tolerance > 0.0, cell == other) {
            (false, _) => ", and without a tolerance only what meets exactly is joined.".to_owned(),
            (true, false) => format!(", in the cells {cell} and {other}: they do not meet."),
            (true, true) => format!(
                ", in cell {cell}, and round one has joined one of them with another line already."
            ),
        };
        Some(words)
    }

    /// The first and the last point of a line that may be joined.
    fn ends(&self, line: u32) -> Option<[Point; 2]> {
        match *self.lines.get(line as usize)?.points? {
            [first, .., last] => Some([first, last]),
            _ => None,
        }
    }
}

/// Adds a sentence.
fn row(out: &mut String, sentence: &str) {
    // Writing to a text never fails.
    writeln!(out, "  {sentence}").unwrap_or_default();
}
