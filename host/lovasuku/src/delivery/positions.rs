//! The positions of a line.

use super::Point;
use serde::de::{Deserialize, Deserializer, Error, IgnoredAny, SeqAccess, Visitor};
use std::borrow::Cow;
use std::fmt;

/// A run of positions: x and y of each, and their heights. Those of a layer lie with all others of it.
#[derive(Clone, Debug, Default)]
pub struct Run<'a> {
    pub points: Cow<'a, [Point]>,
    /// One for each point where any has a height, NaN where it has none; else empty.
    pub heights: Cow<'a, [f64]>,
}

impl Run<'_> {
    /// The same run, not copied.
    pub fn lent(&self) -> Run<'_> {
        Run { points: Cow::Borrowed(&self.points), heights: Cow::Borrowed(&self.heights) }
    }

    /// The height of a point, if it has one.
    pub fn height(&self, point: usize) -> Option<f64> {
        self.heights.get(point).copied().filter(|height| !height.is_nan())
    }
}

/// Positions as they are written.
#[derive(Debug, Default)]
pub struct Written {
    pub points: Vec<Point>,
    /// As those of a run.
    pub heights: Vec<f64>,
    /// The first position of more than three numbers.
    pub beyond: Option<usize>,
}

impl<'de> Deserialize<'de> for Written {
    fn deserialize<D: Deserializer<'de>>(from: D) -> Result<Self, D::Error> {
        from.deserialize_seq(WrittenVisitor)
    }
}

struct WrittenVisitor;

impl<'de> Visitor<'de> for WrittenVisitor {
    type Value = Written;

    fn expecting(&self, f: &mut fmt::Formatter) -> fmt::Result {
        f.write_str("a list of positions")
    }

    fn visit_seq<A: SeqAccess<'de>>(self, mut positions: A) -> Result<Written, A::Error> {
        let mut run = Written::default();
        while let Some(Position { point, height, beyond }) = positions.next_element()? {
            if beyond && run.beyond.is_none() {
                run.beyond = Some(run.points.len());
            }
            if height.is_some() || !run.heights.is_empty() {
                run.heights.resize(run.points.len(), f64::NAN);
                run.heights.push(height.unwrap_or(f64::NAN));
            }
            run.points.push(point);
        }
        Ok(run)
    }
}

/// One position: x, y, a height if there is one, and whether anything else follows.
struct Position {
    point: Point,
    height: Option<f64>,
    beyond: bool,
}

impl<'de> Deserialize<'de> for Position {
    fn deserialize<D: Deserializer<'de>>(from: D) -> Result<Self, D::Error> {
        from.deserialize_seq(PositionVisitor)
    }
}

struct PositionVisitor;

impl<'de> Visitor<'de> for PositionVisitor {
    type Value = Position;

    fn expecting(&self, f: &mut fmt::Formatter) -> fmt::Result {
        f.write_str("a position")
    }

    fn visit_seq<A: SeqAccess<'de>>(self, mut numbers: A) -> Result<Position, A::Error> {
        let x = numbers.next_element()?.ok_or_else(|| A::Error::custom("no x"))?;
        let y = numbers.next_element()?.ok_or_else(|| A::Error::custom("no y"))?;
        let height = numbers.next_element()?;
        let mut beyond = false;
        while numbers.next_element::<IgnoredAny>()?.is_some() {
            beyond = true;
        }
        Ok(Position { point: [x, y], height, beyond })
    }
}

#[cfg(test)]
mod tests {
    use super::{Run, Written};

    fn run(text: &str) -> Option<Written> {
        serde_json::from_str(text).ok()
    }

    /// Points, heights and the first position of more than three numbers.
    type Parts = (Vec<[f64; 2]>, Vec<Option<f64>>, Option<usize>);

    fn parts(text: &str) -> Option<Parts> {
        let Written { points, heights, beyond } = run(text)?;
        let run = Run { points: (&points).into(), heights: heights.into() };
        let heights = (0..points.len()).map(|point| run.height(point)).collect();
        Some((points, heights, beyond))
    }

    #[test]
    fn positions_and_heights() {
        let plain = (vec![[0.0, 1.5], [-2e3, 0.1]], vec![None; 2], None);
        assert_eq!(parts("[[0,1.5], [-2e3, 0.1]]"), Some(plain));
        let points = vec![[0.0, 1.0], [2.0, 3.0], [4.0, 5.0], [6.0, 7.0]];
        let high = (points, vec![None, Some(4.0), None, Some(-0.5)], None);
        assert_eq!(parts("[[0,1],[2,3,4],[4,5],[6,7,-0.5]]"), Some(high));
        let beyond = (vec![[0.0, 1.0], [4.0, 5.0]], vec![Some(2.0), Some(6.0)], Some(1));
        assert_eq!(parts("[[0,1,2],[4,5,6,7]]"), Some(beyond));
        assert_eq!(parts("[]"), Some((vec![], vec![], None)));
        assert!(run("[[0,1],[2,3]]").unwrap().heights.is_empty());
    }

    #[test]
    fn minus_zero_and_the_last_bit_are_kept() {
        let points = run("[[-0, 0], [-0.0, 5e-324], [9007199254740993, 0.30000000000000004]]")
            .unwrap()
            .points;
        let bits: Vec<_> = points.iter().flatten().map(|x| x.to_bits()).collect();
        let wanted = [-0.0, 0.0, -0.0, 5e-324, 9007199254740992.0, 0.1 + 0.2];
        assert_eq!(bits, wanted.map(f64::to_bits));
    }

    #[test]
    fn what_is_no_position() {
        for text in [
            "[[1]]",
            "[[]]",
            "[1, 2]",
            "[[1, null]]",
            "[[\"1\", 2]]",
            "[[1e999, 0]]",
            "[[1, 2, null]]",
            "[[1, 2, \"3\"]]",
            "[[1, 2, 1e999]]",
            "3",
        ] {
            assert!(run(text).is_none(), "{text}");
        }
    }
}
