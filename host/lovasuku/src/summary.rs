//! The summary of a run, for the standard error.

use crate::arguments::Request;
use crate::classes::Classes;
use crate::delivery::{Delivery, Point};
use crate::joining::Why;
use crate::measure::{Measure, RADIUS};
use crate::numbers::{count, parted, rounded};
use crate::tally::Tally;
use lovasuku_chains::{Settings, Window};
use std::fmt::Write;
use std::time::Duration;

/// What the summary of a run tells of.
pub struct Summary<'a> {
    pub request: &'a Request,
    pub delivery: &'a Delivery<'a>,
    pub classes: &'a Classes<'a>,
    pub measure: &'a Measure,
    pub tally: &'a Tally,
    /// What the user has to know, beside what the delivery warns of.
    pub warnings: &'a [String],
}

impl Summary<'_> {
    /// The summary, a row for each thing that there is to say. One of several tells its tolerance.
    pub fn text(&self, one_of_several: bool, took: Duration) -> String {
        let tolerance = self.request.settings.tolerance;
        let rows = [
            ("tolerance", one_of_several.then(|| tolerance.to_string())),
            ("lines", Some(self.lines())),
            ("empty", self.empty()),
            ("left out", self.left_out()),
            ("chains", Some(self.chains())),
            ("laid", self.laid()),
            ("window", self.window()),
            ("joined", Some(self.joined())),
            ("bridges", Some(self.bridges())),
            ("gaps", self.gaps()),
            ("cells", self.cells()),
            ("limit", self.limit()),
            ("lengths", self.lengths()),
        ];
        let mut out = String::new();
        // Writing to a text never fails.
        let mut row =
            |name: &str, words: &str| writeln!(out, "{name:>9}  {words}").unwrap_or_default();
        for (name, words) in rows {
            if let Some(words) = words {
                row(name, &words);
            }
        }
        for warning in self.delivery.warnings.iter().chain(self.warnings) {
            row("warning", warning);
        }
        row("took", &format!("{:.3} seconds", took.as_secs_f64()));
        out
    }

    fn lines(&self) -> String {
        let mut words = parted(self.tally.lines);
        if self.tally.multi > 0 {
            words += &format!(
                ", of which {} passed through (--explode joins their parts)",
                count(self.tally.multi, "MultiLineString")
            );
        }
        if let Some(name) = &self.request.class {
            words += &format!(", in {} by {name:?}", count(self.classes.values.len(), "class"));
        }
        if let Some(district) = &self.request.district {
            let second = parted(self.classes.of_second_district());
            words += &format!(", {second} of the second district by {:?}", district.to_string());
        }
        words
    }

    fn empty(&self) -> Option<String> {
        let Tally { without_length, blocking, .. } = *self.tally;
        let mut words = format!("{} without length", count(without_length, "line"));
        if blocking > 0 {
            words += &format!(
                ", of which {} at nodes that they keep from being joined",
                parted(blocking)
            );
        }
        (without_length > 0).then(|| words + " (--drop-empty leaves them out)")
    }

    fn left_out(&self) -> Option<String> {
        let left_out = &self.delivery.left_out;
        let other = |(what, &number): (&String, &usize)| {
            let what = what.strip_prefix("a ").unwrap_or(what);
            match what {
                "null" => format!("{} without geometry", count(number, "feature")),
                kind => count(number, kind),
            }
        };
        let mut words: Vec<String> = left_out.others.iter().map(other).collect();
        if left_out.without_length > 0 {
            words.push(format!("{} without length", count(left_out.without_length, "line")));
        }
        (!words.is_empty()).then(|| words.join(", "))
    }

    fn chains(&self) -> String {
        let mut words = parted(self.tally.chains);
        if self.tally.loops > 0 {
            words += &format!(", of which {}", count(self.tally.loops, "loop"));
        }
        match self.tally.longest_chain {
            None => words,
            Some(longest) => format!(
                "{words}; the longest is chain {}: {}, {} long",
                longest.chain,
                count(longest.lines, "line"),
                self.measure.words(longest.length),
            ),
        }
    }

    /// Which chains were laid by the command's own code.
    fn laid(&self) -> Option<String> {
        let laid = &self.tally.laid;
        let named: Vec<String> = laid.iter().take(NAMED).map(u32::to_string).collect();
        let more = match laid.len().saturating_sub(NAMED) {
            0 => String::new(),
            more => format!(" and {} more", parted(more)),
        };
        let chains = count(laid.len(), "chain");
        (!laid.is_empty()).then(|| {
            format!(
                "{chains} of more than a call of the library holds, end to end by the command itself: {}{more}",
                named.join(", ")
            )
        })
    }

    fn window(&self) -> Option<String> {
        let Window { least: [x, y], greatest: [to_x, to_y] } = self.request.window?;
        let chains = count(self.tally.inside, "chain");
        Some(format!("{chains} written that meet it, from {x} {y} to {to_x} {to_y}"))
    }

    fn joined(&self) -> String {
        let Tally { nodes, junctions, tolerance, .. } = *self.tally;
        let [nodes, junctions, tolerance] = [nodes, junctions, tolerance].map(parted);
        format!("{nodes} at nodes, {junctions} at junctions, {tolerance} by the tolerance")
    }

    fn bridges(&self) -> String {
        let (chain, longest) = match self.tally.longest_bridge {
            None => return "none: every segment is of the input".into(),
            Some(longest) => longest,
        };
        let mut words = format!(
            "{} made by the tolerance; the longest is {} in chain {chain}",
            count(self.tally.bridges, "segment"),
            self.from_to(longest.lines, longest.ends),
        );
        if self.tally.longer > 0 {
            words += &format!(
                "; {} longer than the tolerance, since a cell is up to {} across",
                parted(self.tally.longer),
                rounded(self.request.settings.tolerance * std::f64::consts::SQRT_2)
            );
        }
        words + self.listed()
    }

    fn gaps(&self) -> Option<String> {
        let gaps = &self.tally.gaps;
        let shortest = match self.tally.shortest_gap() {
            Some(shortest) => shortest,
            None if self.request.settings.tolerance > 0.0 => {
                return Some("none below the tolerance stayed open".into())
            }
            None => return None,
        };
        let kinds = [
            (Why::Cells, "between two cells"),
            (Why::Junction, "among three ends or more"),
            (Why::Ring, "of one chain"),
        ];
        let kind = |(why, words): (Why, &str)| {
            let number = gaps.iter().filter(|gap| gap.why == why).count();
            (number > 0).then(|| format!("{} {words}", parted(number)))
        };
        let kinds: Vec<String> = kinds.into_iter().filter_map(kind).collect();
        Some(format!(
            "{} below the tolerance stayed open ({}); the shortest is {}{}",
            parted(gaps.len()),
            kinds.join(", "),
            self.from_to(shortest.lines, shortest.ends),
            self.listed()
        ))
    }

    /// A length, its two lines and its place in words.
    fn from_to(&self, lines: [u32; 2], ends: [Point; 2]) -> String {
        let [a, b] = lines.map(|line| self.delivery.name(line));
        let length = self.measure.words(self.measure.distance(ends[0], ends[1]));
        let [x, y] = ends[0];
        format!("{length} long, from line {a} to line {b} at {x} {y}")
    }

    fn listed(&self) -> &'static str {
        match self.request.bridges {
            None => " (--bridges FILE lists them)",
            Some(_) => "",
        }
    }

    fn cells(&self) -> Option<String> {
        let Settings { tolerance, origin: [x, y], .. } = self.request.settings;
        let counted = tolerance > 0.0 && [x, y] != [0.0; 2];
        counted.then(|| format!("of side {tolerance}, counted from {x} {y}"))
    }

    fn limit(&self) -> Option<String> {
        let Request { bend, offset, settings, .. } = self.request;
        match (bend, offset, settings.limit) {
            (_, Some(offset), Some(limit)) => Some(format!(
                "{limit}, which an offset of {offset} stands for, a bend of {} degrees",
                rounded(offset.degrees())
            )),
            (Some(bend), _, Some(limit)) => {
                Some(format!("{limit}, which a bend of {bend} degrees stands for"))
            }
            (Some(bend), _, None) => Some(format!("a bend of {bend} degrees pairs no junction")),
            (None, _, _) => None,
        }
    }

    fn lengths(&self) -> Option<String> {
        let degrees = "metres on the sphere, for degrees of longitude and latitude";
        match (self.measure.degrees && self.tally.lines > 0, self.measure.named) {
            (false, _) => None,
            (true, true) => Some(degrees.into()),
            (true, false) => Some(format!("{degrees} (--units if the coordinates are others)")),
        }
    }
}

/// So many chains are named one by one.
const NAMED: usize = 5;

/// The tolerance from which on degrees are likely to have been taken for metres.
const MANY_DEGREES: f64 = 0.1;

/// A warning where a tolerance in degrees is so large that metres were meant.
pub fn of_degrees(measure: &Measure, tolerance: f64) -> Option<String> {
    let kilometres = tolerance.to_radians() * RADIUS / 1000.0;
    (measure.degrees && tolerance > MANY_DEGREES).then(|| {
        format!(
            "the coordinates are degrees, so a tolerance of {tolerance} is cells of some {} km \
             (--units if they are others)",
            rounded(kilometres.round())
        )
    })
}
