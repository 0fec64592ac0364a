//! The lines of a delivery as the library takes them.

use crate::classes::Classes;
use crate::command::lines;
use crate::delivery::Delivery;
use lovasuku_chains::{Dimension, Lines, LinesBuf, PLAIN};

/// Lines that the library is lent.
pub enum Lent<'a> {
    /// Where they lie, one behind another.
    InPlace { delivery: &'a Delivery<'a>, groups: &'a [u32], kinds: Vec<u8> },
    /// Copied, since they have extras or pass through.
    Copied(LinesBuf),
}

impl<'a> Lent<'a> {
    /// The lines of a delivery, by their classes.
    pub fn of(delivery: &'a Delivery<'a>, classes: &'a Classes) -> Self {
        let (shapes, count) = (delivery.shapes(), delivery.len());
        if delivery.dimension() == Dimension::Xy && shapes.multi() == 0 {
            let kinds = vec![PLAIN; count];
            return Lent::InPlace { delivery, groups: &classes.groups, kinds };
        }
        let mut copied = LinesBuf::of(delivery.dimension());
        copied.reserve(count, shapes.points().len());
        for line in lines(delivery, classes) {
            match line.points {
                Some(points) => copied.push_apart(points, line.extras, line.group),
                None => copied.push_passing([[0.0; 2]; 0], line.group),
            }
        }
        Lent::Copied(copied)
    }

    pub fn lines(&self) -> Lines<'_> {
        match self {
            Lent::InPlace { delivery, groups, kinds } => {
                let shapes = delivery.shapes();
                Lines::of_points(shapes.points(), shapes.counts(), groups, kinds)
            }
            Lent::Copied(lines) => lines.lines(),
        }
    }
}
