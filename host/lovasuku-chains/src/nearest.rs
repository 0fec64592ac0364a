//! The nearest of many points.

/// A point: x and y.
type Point = [f64; 2];

/// Points in an order in which the nearest to any place is found without a look at most of them.
///
/// Halves of the order lie on two sides of the point between them, by x, then by y, and so on.
///
/// ```
/// use lovasuku_chains::Nearest;
///
/// let ends = Nearest::of(&[[0.0, 0.0], [9.0, 0.0], [4.0, 1.0]]);
/// assert_eq!(ends.within([5.0, 0.0], 2.0, |_| true), Some(2));
/// assert_eq!(ends.within([5.0, 0.0], 9.0, |position| position != 2), Some(1));
/// assert_eq!(ends.within([5.0, 0.0], 1.0, |_| true), None);
/// ```
#[derive(Clone, Debug, Default)]
pub struct Nearest(Vec<(Point, usize)>);

/// What is looked for, and what was found so far.
struct Search<Q> {
    from: Point,
    /// The distance that the next to be found must be below.
    below: f64,
    found: Option<usize>,
    question: Q,
}

impl Nearest {
    /// The points in such an order.
    pub fn of(points: &[Point]) -> Self {
        let mut order: Vec<(Point, usize)> = points.iter().copied().zip(0..).collect();
        sort(&mut order, 0);
        Nearest(order)
    }

    /// The position of the point nearest to a place among those that are nearer than the distance
    /// and for which the question is answered with yes. Of several the lowest position is given.
    pub fn within(
        &self,
        from: Point,
        distance: f64,
        question: impl Fn(usize) -> bool,
    ) -> Option<usize> {
        let mut search = Search { from, below: distance, found: None, question };
        search.look(&self.0, 0);
        search.found
    }
}

/// Sorts points so that the one in the middle parts them by x or y, and so in both halves.
fn sort(points: &mut [(Point, usize)], axis: usize) {
    let middle = points.len() / 2;
    if points.len() > 1 {
        points.select_nth_unstable_by(middle, |(a, _), (b, _)| a[axis].total_cmp(&b[axis]));
    }
    let (before, after) = points.split_at_mut(middle);
    if let Some((_, after)) = after.split_first_mut() {
        sort(before, 1 - axis);
        sort(after, 1 - axis);
    }
}

impl<Q: Fn(usize) -> bool> Search<Q> {
    fn look(&mut self, points: &[(Point, usize)], axis: usize) {
        let (before, after) = points.split_at(points.len() / 2);
        let (&(point, position), after) = match after.split_first() {
            None => return,
            Some(split) => split,
        };
        let [dx, dy] = [point[0] - self.from[0], point[1] - self.from[1]];
        let distance = dx.hypot(dy);
        let lower = self.found.map_or(false, |found| position < found);
        if (distance < self.below || distance == self.below && lower) && (self.question)(position) {
            self.below = distance;
            self.found = Some(position);
        }
        let beyond = if axis == 0 { dx } else { dy };
        let (near, far) = if beyond > 0.0 { (before, after) } else { (after, before) };
        self.look(near, 1 - axis);
        if !(beyond.abs() > self.below) {
            self.look(far, 1 - axis);
        }
    }
}
