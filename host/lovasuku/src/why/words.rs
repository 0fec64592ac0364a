//! Why two ends are joined or not, in a sentence. The page tells the same in the same words.

use crate::delivery::{Delivery, Point};
use crate::measure::Measure;
use crate::numbers::rounded;
use lovasuku_chains::explain::{bend_of, cell_of, End, Explained, Meeting, Node, Round, Why};
use lovasuku_chains::{Reason, Refusal, Rooms, Settings};

/// What sentences are made of.
pub struct Words<'a> {
    delivery: &'a Delivery<'a>,
    measure: &'a Measure,
    explained: &'a Explained,
    settings: Settings,
    /// Lines may be parts of features.
    parts: bool,
    /// The number of each node that is a junction.
    junctions: Vec<Option<usize>>,
}

impl<'a> Words<'a> {
    pub fn of(
        delivery: &'a Delivery<'a>,
        measure: &'a Measure,
        explained: &'a Explained,
        settings: Settings,
        parts: bool,
    ) -> Self {
        let mut next = 0;
        let number = |node: &Node| {
            let number = node.is_junction().then_some(next);
            next += usize::from(node.is_junction());
            number
        };
        let junctions = explained.nodes().iter().map(number).collect();
        Words { delivery, measure, explained, settings, parts, junctions }
    }

    /// The name of a line for people, with which part of its feature it is where lines are parts.
    pub fn label(&self, line: u32) -> String {
        label(self.delivery, line, self.parts)
    }

    /// Why two ends that meet are joined or not. Of three or more the library is asked.
    pub fn meeting(&self, meeting: Meeting, rooms: &mut Rooms) -> Result<String, Refusal> {
        let Meeting { node: number, ends } = meeting;
        let node = match self.explained.nodes().get(number) {
            Some(node) => node,
            None => return Err(Refusal::NoTwoEnds),
        };
        let why = node.why(rooms, self.settings.limit, ends)?;
        Ok(format!("{}: {}.", self.place_of(node, number, ends), self.verdict(node, ends, why)))
    }

    /// Where two ends meet.
    fn place_of(&self, node: &Node, number: usize, ends: [u32; 2]) -> String {
        let [one, other] = ends.map(|place| self.name(node, place));
        let [from, to] = ends.map(|place| at(node, place).map_or([f64::NAN; 2], |end| end.point));
        let junction = self.junctions.get(number).copied().flatten();
        let among = match junction {
            None => "with no third end".to_owned(),
            Some(junction) => format!("2 of {} ends: junction {junction}", node.ends.len()),
        };
        match node.round {
            Round::Exact => {
                format!(
                    "{one} and {other} lie at {}, bit for bit, {among} (round one)",
                    place(from)
                )
            }
            Round::Cells => format!(
                "{one} at {} and {other} at {} are {} apart in cell {}, {among} (round two)",
                place(from),
                place(to),
                self.measure.words(self.measure.distance(from, to)),
                cell(from, self.settings),
            ),
        }
    }

    /// Whether they are joined, and why.
    fn verdict(&self, node: &Node, ends: [u32; 2], why: Why) -> String {
        let limit = || self.settings.limit.map(limited).unwrap_or_default();
        let measure = || node.measure(ends).map(measured).unwrap_or_default();
        match why {
            Why::NoThird => "joined at any angle".into(),
            Why::OnePiece | Why::Junction(Reason::SamePiece) => {
                "not joined: they are the two ends of one piece".into()
            }
            Why::NotPaired => "not joined: junctions are not paired".into(),
            Why::Junction(Reason::Selected) => format!(
                "joined as pair {} of {}: {}, {}",
                node.rank(ends).unwrap_or_default() + 1,
                node.joined.len(),
                measure(),
                limit()
            ),
            Why::Junction(Reason::AbsentDirection) => self.absent(node, ends),
            Why::Junction(Reason::NotQualifying) => match node.measure(ends) {
                Some(number) if number.is_nan() => "not joined: their measure is no number".into(),
                _ => format!("not joined: {} is above the {}", measure(), limit()),
            },
            Why::Junction(Reason::Blocked { place, pair }) => {
                let [one, other] = pair.map(|place| self.name(node, place));
                let pair = place + 1;
                format!(
                    "not joined: {} qualifies, but pair {pair}, {one} with {other}, comes first",
                    measure()
                )
            }
        }
    }

    /// Which of two ends has no direction.
    fn absent(&self, node: &Node, [i, j]: [u32; 2]) -> String {
        let without = |place: &u32| at(node, *place).map_or(false, |end| end.direction.is_none());
        let places = [i.min(j), i.max(j)].into_iter().filter(without);
        let names: Vec<String> = places.map(|place| self.name(node, place)).collect();
        let have = if names.len() > 1 { "have" } else { "has" };
        format!("not joined: {} {have} no direction", names.join(" and "))
    }

    /// An end of a node by the name of its line.
    fn name(&self, node: &Node, place: u32) -> String {
        at(node, place).map(|end| self.end(end.line, end.last)).unwrap_or_default()
    }

    /// An end of a line by its name.
    pub fn end(&self, line: u32, last: bool) -> String {
        format!("{}'s {}", self.label(line), if last { "end" } else { "start" })
    }
}

/// The name of a line for people, with which part of its feature it is where lines are parts.
pub fn label(delivery: &Delivery, line: u32, parts: bool) -> String {
    let name = visible(&delivery.label(line));
    match parts {
        true => format!("{name} part {}", delivery.part(line)),
        false => name,
    }
}

/// A text with its characters that are not seen, as those that move a terminal or turn the way of writing
/// round, by their numbers.
pub fn visible(text: &str) -> String {
    let mut out = String::new();
    for each in text.chars() {
        let unseen = matches!(
            each,
            '\u{200e}' | '\u{200f}' | '\u{2028}'..='\u{202e}' | '\u{2066}'..='\u{2069}' | '\u{feff}'
        );
        match unseen || each.is_control() {
            true => out += &format!("\\u{:04x}", each as u32),
            false => out.push(each),
        }
    }
    out
}

fn at(node: &Node, place: u32) -> Option<&End> {
    node.ends.get(place as usize)
}

/// A place: its x and its y.
pub fn place([x, y]: Point) -> String {
    format!("{} {}", number(x), number(y))
}

/// The cell of a point: its column and its row.
pub fn cell(point: Point, settings: Settings) -> String {
    let [column, row] = cell_of(point, settings).unwrap_or_default();
    format!("{column} {row}")
}

/// A measure as a number and as degrees.
fn measured(measure: f64) -> String {
    format!("measure {} (a bend of {}°)", number(measure), rounded(bend_of(measure)))
}

/// A limit as a number and as degrees.
fn limited(limit: f64) -> String {
    format!("limit {} ({}°)", number(limit), rounded(bend_of(limit)))
}

/// A number by the fewest digits that are read back as the same one.
fn number(x: f64) -> String {
    match x.abs() {
        size if size == 0.0 || (1e-6..1e21).contains(&size) || !x.is_finite() => format!("{x}"),
        _ => format!("{x:e}"),
    }
}

#[cfg(test)]
mod tests {
    use super::{number, visible};

    #[test]
    fn names_that_are_not_seen_are_told_by_their_numbers() {
        let all = ["H3", "äöü 林道", "a\u{1b}[31mb", "\u{202e}x\u{2028}", "\n"].map(visible);
        assert_eq!(all, ["H3", "äöü 林道", "a\\u001b[31mb", "\\u202ex\\u2028", "\\u000a"]);
    }

    #[test]
    fn numbers_as_the_page_writes_them() {
        let all = [0.0, -0.0, 1180.4, -1e-6, 6.123233995736766e-17, 1e20, 1.5e21, 5e-324];
        let wanted = [
            "0",
            "-0",
            "1180.4",
            "-0.000001",
            "6.123233995736766e-17",
            "100000000000000000000",
            "1.5e21",
            "5e-324",
        ];
        assert_eq!(all.map(number), wanted);
    }
}
