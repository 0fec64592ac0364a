//! Colours of chains: chains that meet get different ones. Red is kept for bridges.

use crate::delivery::Point;
use std::collections::HashMap;

/// Colours that are told apart, on white and with a thin dark line on them.
pub const COLOURS: [&str; 12] = [
    "#2f6fb7", "#2f9e5b", "#9a5fc0", "#dd9500", "#17a3ad", "#8a5a3c", "#6cb2ee", "#86a316",
    "#d06fb4", "#3f4fa5", "#0b7a5a", "#b39ae0",
];

/// Gives colours to chains, one after another.
#[derive(Default)]
pub struct Colours {
    /// The colours at each place of the page, to two pixels.
    at: HashMap<[i64; 2], Vec<usize>>,
    next: usize,
}

impl Colours {
    /// A colour for a chain whose lines end at these places of the page: the next that no chain
    /// before it has at one of them.
    pub fn give(&mut self, places: &[Point]) -> &'static str {
        let places: Vec<[i64; 2]> =
            places.iter().map(|place| place.map(|x| (x / 2.0).round() as i64)).collect();
        let near = |colour: usize| {
            let mut all = places.iter().filter_map(|place| self.at.get(place));
            all.any(|colours| colours.contains(&colour))
        };
        let order = (0..COLOURS.len()).map(|k| (self.next + k) % COLOURS.len());
        let colour = order.into_iter().find(|&colour| !near(colour)).unwrap_or(self.next);
        for place in places {
            self.at.entry(place).or_default().push(colour);
        }
        self.next = (colour + 1) % COLOURS.len();
        COLOURS[colour]
    }
}

#[cfg(test)]
mod tests {
    use super::{Colours, COLOURS};

    #[test]
    fn chains_that_meet_differ() {
        let mut colours = Colours::default();
        let star: Vec<_> = (0..12).map(|k| colours.give(&[[9.0, 9.0], [k as f64, 99.0]])).collect();
        assert_eq!(star, COLOURS);
        let apart = colours.give(&[[500.0, 500.0]]);
        assert_eq!(apart, COLOURS[0]);
    }
}
