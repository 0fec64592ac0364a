//! Elements of an SVG.

use super::page::Page;
use crate::delivery::Point;
use std::collections::HashSet;
use std::fmt::Write;

/// The text without what has a meaning in XML or is not allowed in it.
pub fn escape(text: &str) -> String {
    let barred = |c: char| c < ' ' && c != '\n' || c == '\u{fffe}' || c == '\u{ffff}';
    quick_xml::escape::escape(&text.replace(barred, " ")).into_owned()
}

/// A place on the page, in steps of the page's grid.
type Step = [i64; 2];

fn step(page: &Page, point: Point) -> Step {
    page.place(point).map(|x| (x / page.detail.grid).round() as i64)
}

/// The way of a path through points, on the page's grid.
pub fn way(page: &Page, points: &[Point]) -> String {
    let mut path = Path::new(page);
    let mut steps: Vec<Step> = points.iter().map(|&point| step(page, point)).collect();
    steps.dedup();
    match steps[..] {
        // A way of one place is drawn as a dot.
        [one] => path.dot(one),
        _ => steps.windows(2).for_each(|two| path.segment(two[0], two[1])),
    }
    path.out
}

/// The way of one path through many runs of points, each segment once.
#[derive(Debug, Default)]
pub struct Once {
    seen: HashSet<[Step; 2]>,
}

impl Once {
    /// What the runs add to what was drawn so far.
    pub fn way<'p>(&mut self, page: &Page, runs: impl IntoIterator<Item = &'p [Point]>) -> String {
        let mut path = Path::new(page);
        for run in runs {
            let mut steps: Vec<Step> = run.iter().map(|&point| step(page, point)).collect();
            steps.dedup();
            if let [one] = steps[..] {
                if self.seen.insert([one; 2]) {
                    path.dot(one);
                }
            }
            for two in steps.windows(2) {
                if self.seen.insert([two[0].min(two[1]), two[0].max(two[1])]) {
                    path.segment(two[0], two[1]);
                }
            }
        }
        path.out
    }
}

/// A path in the making, which goes on from where it stands.
struct Path {
    out: String,
    at: Option<Step>,
    grid: f64,
}

impl Path {
    fn new(page: &Page) -> Self {
        Path { out: String::new(), at: None, grid: page.detail.grid }
    }

    fn write(&mut self, letter: char, to: Step) {
        let [x, y] = to.map(|steps| digits(steps, self.grid));
        // Writing to a text never fails.
        write!(self.out, "{letter}{x} {y}").unwrap_or_default();
    }

    fn segment(&mut self, from: Step, to: Step) {
        if self.at != Some(from) {
            self.write('M', from);
        }
        self.write('l', [to[0] - from[0], to[1] - from[1]]);
        self.at = Some(to);
    }

    fn dot(&mut self, at: Step) {
        self.write('M', at);
        self.out.push_str("h0");
        self.at = None;
    }
}

/// A number of steps in digits of pixels.
fn digits(steps: i64, grid: f64) -> String {
    match grid < 1.0 && steps % 10 != 0 {
        true => format!("{:.1}", steps as f64 * grid),
        false => ((steps as f64 * grid).round() as i64).to_string(),
    }
}

/// A number of pixels in digits, to a tenth.
pub fn digits_of(pixels: f64) -> String {
    digits((pixels * 10.0).round() as i64, 0.1)
}

/// A place on the page in digits: x and y, on the page's grid.
pub fn place(page: &Page, point: Point) -> [String; 2] {
    step(page, point).map(|steps| digits(steps, page.detail.grid))
}

#[cfg(test)]
mod tests {
    use super::{digits, escape};

    #[test]
    fn nothing_is_left_that_xml_would_read() {
        assert_eq!(escape("a<b & \"c\"\u{0}\n>"), "a&lt;b &amp; &quot;c&quot; \n&gt;");
    }

    #[test]
    fn steps_in_digits() {
        let tenths = [0, 5, -5, 120, 1234].map(|steps| digits(steps, 0.1));
        assert_eq!(tenths, ["0", "0.5", "-0.5", "12", "123.4"]);
        assert_eq!([3, -7].map(|steps| digits(steps, 4.0)), ["12", "-28"]);
    }
}
