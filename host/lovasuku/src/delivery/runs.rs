//! Runs that lie one behind another, by their lengths.

use std::ops::Range;

/// So many runs share one place that is held.
const STEP: usize = 32;

/// The lengths of runs, and now and then where one begins.
#[derive(Debug, Default)]
pub struct Runs {
    lengths: Vec<u32>,
    begins: Vec<usize>,
    end: usize,
}

impl Runs {
    /// Puts a run behind the others. None is so long that 32 bits do not count it.
    pub fn push(&mut self, length: usize) {
        if self.lengths.len() % STEP == 0 {
            self.begins.push(self.end);
        }
        self.lengths.push(length as u32);
        self.end += length;
    }

    /// Puts empty runs until there are so many.
    pub fn fill(&mut self, count: usize) {
        while self.lengths.len() < count {
            self.push(0);
        }
    }

    /// How many there are.
    pub fn len(&self) -> usize {
        self.lengths.len()
    }

    /// The length of each.
    pub fn lengths(&self) -> &[u32] {
        &self.lengths
    }

    /// Where a run lies. One that is not there is empty.
    pub fn range(&self, place: usize) -> Range<usize> {
        let length = self.lengths.get(place).copied().unwrap_or_default() as usize;
        let near = place / STEP;
        let begin = self.begins.get(near).copied().unwrap_or(self.end);
        let before = self.lengths.get(near * STEP..place).unwrap_or_default();
        let from = begin + before.iter().map(|&length| length as usize).sum::<usize>();
        from..from + length
    }
}

#[cfg(test)]
mod tests {
    use super::Runs;

    #[test]
    fn runs_begin_where_those_before_them_end() {
        let mut runs = Runs::default();
        runs.fill(2);
        let mut end = 0;
        for k in 2..200 {
            runs.push(k % 7);
            assert_eq!(runs.range(k), end..end + k % 7);
            end += k % 7;
        }
        assert_eq!((runs.len(), runs.range(0), runs.range(40).len()), (200, 0..0, 5));
        assert!(runs.range(1_000).is_empty());
    }
}
