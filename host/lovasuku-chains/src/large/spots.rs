//! Where ends meet: places as whole numbers, in the order of x and of y.

use super::keys::cell;
use super::Point;
use crate::Settings;

/// What the ends at one node have in common beside their group.
pub type Spot = [u64; 2];

/// By what the ends of a round meet.
#[derive(Clone, Copy, Debug, PartialEq)]
pub enum Grid {
    /// By the bits of x and y.
    Exact,
    /// By cells of a side, counted from an origin.
    Cells { side: f64, origin: Point },
}

impl Grid {
    /// By what the ends of round two meet, where it runs.
    pub fn of_round_two(settings: Settings) -> Option<Self> {
        let Settings { tolerance, origin, .. } = settings;
        (tolerance > 0.0).then_some(Grid::Cells { side: tolerance, origin })
    }

    /// The spot of a point. Two points have one spot exactly where they agree bit for bit, or lie in
    /// one cell.
    pub fn spot(self, [x, y]: Point) -> Spot {
        match self {
            Grid::Exact => [of_bits(x), of_bits(y)],
            Grid::Cells { side, origin } => {
                [of_cell(x, origin[0], side), of_cell(y, origin[1], side)]
            }
        }
    }
}

const SIGN: u64 = 1 << 63;

/// A whole number that grows with a float, and is one for the same bits alone.
fn of_bits(x: f64) -> u64 {
    let bits = x.to_bits();
    match bits & SIGN {
        0 => bits | SIGN,
        _ => !bits,
    }
}

/// The float of such a number.
pub fn float(number: u64) -> f64 {
    f64::from_bits(match number & SIGN {
        0 => !number,
        _ => number ^ SIGN,
    })
}

/// A cell as a number without sign that grows with it.
fn of_cell(coordinate: f64, origin: f64, side: f64) -> u64 {
    cell(coordinate, origin, side) as u64 ^ SIGN
}

#[cfg(test)]
mod tests {
    use super::{float, of_bits, of_cell, Grid};

    #[test]
    fn spots_are_in_the_order_of_places() {
        let numbers = [-1e300, -2.0, -1.0, -5e-324, -0.0, 0.0, 5e-324, 0.5, 1.0, 1.5, 1e300];
        let bits: Vec<u64> = numbers.iter().map(|&x| of_bits(x)).collect();
        assert!(bits.windows(2).all(|two| two[0] < two[1]));
        let back = bits.iter().map(|&number| float(number).to_bits());
        assert!(back.eq(numbers.iter().map(|x| x.to_bits())));
        let cells: Vec<u64> = numbers.iter().map(|&x| of_cell(x, 0.0, 1.0)).collect();
        assert!(cells.windows(2).all(|two| two[0] <= two[1]));
        let zero = 1 << 63;
        assert_eq!(cells[2..9], [-1, -1, 0, 0, 0, 0, 1].map(|cell: i64| (cell as u64) ^ zero));
        assert_eq!((cells[0], cells[10]), (0, u64::MAX));
        assert_eq!(of_cell(f64::MAX, -f64::MAX, f64::INFINITY), zero);
    }

    #[test]
    fn zeros_of_both_signs_are_two_spots_and_one_cell() {
        let cells = Grid::Cells { side: 1.0, origin: [0.0; 2] };
        assert_ne!(Grid::Exact.spot([0.0, 0.0]), Grid::Exact.spot([0.0, -0.0]));
        assert_eq!(cells.spot([0.0, 0.0]), cells.spot([0.0, -0.0]));
    }
}
