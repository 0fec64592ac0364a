//! The geometry of all lines, their positions one line behind another.

use super::runs::Runs;
use super::{Geometry, Point, Run};
use lovasuku_chains::Dimension;
use std::borrow::Cow;
use std::collections::HashMap;

/// The geometry of all lines. What most deliveries have none of is held for those lines alone that have it.
#[derive(Debug, Default)]
pub struct Shapes {
    points: Vec<Point>,
    counts: Runs,
    extras: Vec<f64>,
    /// How many extras each line has, up to the last that has any.
    extra_counts: Runs,
    /// Of each MultiLineString the points and the extras of each part.
    parts: HashMap<u32, Vec<[u32; 2]>>,
    /// What each position has. Those that a position lacks are NaN.
    pub dimension: Dimension,
}

impl Shapes {
    /// How many lines there are.
    pub fn len(&self) -> usize {
        self.counts.len()
    }

    /// The points of all lines.
    pub fn points(&self) -> &[Point] {
        &self.points
    }

    /// How many points each line has.
    pub fn counts(&self) -> &[u32] {
        self.counts.lengths()
    }

    /// True where a position has extras.
    pub fn has_extras(&self) -> bool {
        !self.extras.is_empty()
    }

    /// How many MultiLineStrings there are.
    pub fn multi(&self) -> usize {
        self.parts.len()
    }

    /// True for a MultiLineString.
    pub fn is_multi(&self, line: u32) -> bool {
        self.parts.contains_key(&line)
    }

    /// The geometry of a line.
    pub fn get(&self, line: u32) -> Geometry<'_> {
        let mut points = &self.points[self.counts.range(line as usize)];
        let mut extras = &self.extras[self.extra_counts.range(line as usize)];
        let run = |&[count, extra]: &[u32; 2]| Run {
            points: taken(&mut points, count as usize).into(),
            heights: taken(&mut extras, extra as usize).into(),
        };
        match self.parts.get(&line) {
            Some(parts) => Geometry::Lines(parts.iter().map(run).collect()),
            None => Geometry::Line(Run { points: points.into(), heights: extras.into() }),
        }
    }

    /// The points of a line and their extras, where it is no MultiLineString.
    pub fn line(&self, line: u32) -> Option<(&[Point], &[f64])> {
        let points = || &self.points[self.counts.range(line as usize)];
        let extras = || &self.extras[self.extra_counts.range(line as usize)];
        (!self.is_multi(line)).then(|| (points(), extras()))
    }

    /// The runs of points that a line is drawn by.
    pub fn runs(&self, line: u32) -> impl Iterator<Item = &[Point]> {
        let points = &self.points[self.counts.range(line as usize)];
        let (alone, parts) = match self.parts.get(&line) {
            Some(parts) => (None, &parts[..]),
            None => (Some(points), &[][..]),
        };
        let mut rest = points;
        let part = move |[count, _]: &[u32; 2]| taken(&mut rest, *count as usize);
        alone.into_iter().chain(parts.iter().map(part))
    }

    /// Puts a line of a dimension, or a MultiLineString, behind the others.
    pub fn push(&mut self, geometry: &Geometry, own: Dimension) {
        let runs = match geometry {
            Geometry::Line(run) => std::slice::from_ref(run),
            Geometry::Lines(parts) => {
                let part = |run: &Run| [run.points.len(), run.heights.len()].map(|n| n as u32);
                self.parts.insert(self.len() as u32, parts.iter().map(part).collect());
                &parts[..]
            }
            Geometry::Other(_) => &[],
        };
        self.widen(with(self.dimension, own));
        let [from, extra] = [self.points.len(), self.extras.len()];
        for run in runs {
            self.points.extend_from_slice(&run.points);
            self.extras.extend(&*widened(&run.heights, own, self.dimension));
        }
        let line = self.len();
        self.counts.push(self.points.len() - from);
        if self.extras.len() > extra {
            self.extra_counts.fill(line);
            self.extra_counts.push(self.extras.len() - extra);
        }
        let width = self.dimension.extras() / own.extras().max(1);
        if width > 1 {
            self.widen_parts(line as u32, width as u32);
        }
    }

    /// Gives all positions that have extras those of another dimension too.
    fn widen(&mut self, to: Dimension) {
        let own = std::mem::replace(&mut self.dimension, to);
        if own == to || self.extras.is_empty() {
            return;
        }
        let width = to.extras() / own.extras().max(1);
        self.extras = widened(&self.extras, own, to).into_owned();
        let lengths = std::mem::take(&mut self.extra_counts);
        lengths
            .lengths()
            .iter()
            .for_each(|&length| self.extra_counts.push(length as usize * width));
        (0..self.len() as u32).for_each(|line| self.widen_parts(line, width as u32));
    }

    /// Counts so many times as many extras of a MultiLineString's parts.
    fn widen_parts(&mut self, line: u32, width: u32) {
        self.parts.get_mut(&line).into_iter().flatten().for_each(|[_, extras]| *extras *= width);
    }
}

/// So many of the first items, which are taken from the others.
fn taken<'a, T>(rest: &mut &'a [T], count: usize) -> &'a [T] {
    let (first, behind) = rest.split_at(count.min(rest.len()));
    *rest = behind;
    first
}

/// What positions of either have.
fn with(a: Dimension, b: Dimension) -> Dimension {
    let heights = |each| matches!(each, Dimension::Xyz | Dimension::Xyzm);
    let measures = |each| matches!(each, Dimension::Xym | Dimension::Xyzm);
    match (heights(a) || heights(b), measures(a) || measures(b)) {
        (false, false) => Dimension::Xy,
        (true, false) => Dimension::Xyz,
        (false, true) => Dimension::Xym,
        (true, true) => Dimension::Xyzm,
    }
}

/// The extras of positions of a dimension in one that has more.
fn widened(extras: &[f64], own: Dimension, to: Dimension) -> Cow<'_, [f64]> {
    let both = |&extra: &f64| match own {
        Dimension::Xym => [f64::NAN, extra],
        _ => [extra, f64::NAN],
    };
    match own == to || own == Dimension::Xy {
        true => extras.into(),
        false => extras.iter().flat_map(both).collect(),
    }
}

#[cfg(test)]
mod tests {
    use super::{Dimension, Geometry, Run, Shapes};

    fn run(points: usize, extras: &[f64]) -> Run<'static> {
        let points: Vec<[f64; 2]> = (0..points).map(|k| [k as f64, 7.0]).collect();
        Run { points: points.into(), heights: extras.to_vec().into() }
    }

    fn extras(shapes: &Shapes, line: u32) -> Vec<Vec<String>> {
        let words = |run: &Run| run.heights.iter().map(f64::to_string).collect();
        match shapes.get(line) {
            Geometry::Line(run) => vec![words(&run)],
            Geometry::Lines(parts) => parts.iter().map(words).collect(),
            Geometry::Other(_) => Vec::new(),
        }
    }

    #[test]
    fn extras_are_those_that_any_has() {
        let mut shapes = Shapes::default();
        shapes.push(&Geometry::Line(run(2, &[])), Dimension::Xy);
        let parts = vec![run(1, &[1.0]), run(2, &[])];
        shapes.push(&Geometry::Lines(parts), Dimension::Xyz);
        shapes.push(&Geometry::Line(run(2, &[2.0, 3.0])), Dimension::Xyz);
        assert_eq!((shapes.dimension, shapes.multi()), (Dimension::Xyz, 1));
        shapes.push(&Geometry::Line(run(1, &[5.0])), Dimension::Xym);
        shapes.push(&Geometry::Lines(vec![run(1, &[6.0])]), Dimension::Xyz);
        assert_eq!(shapes.dimension, Dimension::Xyzm);
        assert_eq!(extras(&shapes, 0), [[""; 0]]);
        assert_eq!(extras(&shapes, 1), [vec!["1", "NaN"], vec![]]);
        assert_eq!(extras(&shapes, 2), [["2", "NaN", "3", "NaN"]]);
        assert_eq!(extras(&shapes, 3), [["NaN", "5"]]);
        assert_eq!(extras(&shapes, 4), [["6", "NaN"]]);
        let runs: Vec<usize> = shapes.runs(1).map(<[_]>::len).collect();
        assert_eq!((runs, shapes.counts()), (vec![1, 2], &[2, 3, 2, 1, 1][..]));
    }
}
