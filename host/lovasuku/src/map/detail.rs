//! How much of a network the map shows, so that its file stays small.

/// How much the map shows.
#[derive(Clone, Copy, Debug, PartialEq)]
pub struct Detail {
    /// What places on the page are rounded to, in pixels.
    pub grid: f64,
    /// How many chains, bridges, gaps and junctions are each drawn by themselves, with a title. Of
    /// the others those of one colour are drawn as one, and what lies on one another is drawn once.
    pub titled: usize,
    /// How many members a title names at most.
    pub named: usize,
}

/// The most bytes that a map has.
pub const MOST_BYTES: usize = 3_000_000;

/// How many lines are drawn in full at most.
const MOST_LINES_IN_FULL: usize = 5_000;

impl Detail {
    /// Everything, to a tenth of a pixel.
    pub const FULL: Detail = Detail { grid: 0.1, titled: usize::MAX, named: 60 };

    /// To the pixel.
    const COARSE: Detail = Detail { grid: 1.0, titled: 2_000, named: 12 };

    /// How much is tried first for so many lines.
    pub fn of(lines: usize) -> Self {
        match lines > MOST_LINES_IN_FULL {
            true => Detail::COARSE,
            false => Detail::FULL,
        }
    }

    /// The next lower detail.
    pub fn less(self) -> Self {
        match self == Detail::FULL {
            true => Detail::COARSE,
            false => Detail { grid: 2.0 * self.grid, titled: self.titled / 4, ..self },
        }
    }

    /// True where everything is drawn by itself.
    pub fn is_full(self) -> bool {
        self == Detail::FULL
    }
}
