//! Work on one core, or on all by rayon.

/// On which cores lines are joined. The chains are the same on any.
#[derive(Clone, Copy, Debug, Default, PartialEq, Eq)]
pub enum Cores {
    /// On the one that calls.
    One,
    /// On those of rayon's threads: all of the machine, unless rayon is told otherwise.
    #[default]
    All,
}

impl Cores {
    /// Runs the work where the others can take part in it.
    pub(super) fn within<A: Send>(self, work: impl FnOnce() -> A + Send) -> A {
        match self {
            Cores::One => work(),
            Cores::All => rayon::scope(|_| work()),
        }
    }

    /// Runs two works, at once where there is a core for each.
    pub(super) fn both<A: Send, B: Send>(
        self,
        one: impl FnOnce() -> A + Send,
        other: impl FnOnce() -> B + Send,
    ) -> (A, B) {
        match self {
            Cores::One => {
                let first = one();
                (first, other())
            }
            Cores::All => rayon::join(one, other),
        }
    }

    /// Runs two works, and gives the first's fault where both have one.
    pub(super) fn both_or<E: Send>(
        self,
        one: impl FnOnce() -> Result<(), E> + Send,
        other: impl FnOnce() -> Result<(), E> + Send,
    ) -> Result<(), E> {
        let (first, second) = self.both(one, other);
        first.and(second)
    }

    /// How many there are.
    pub(super) fn count(self) -> usize {
        match self {
            Cores::One => 1,
            Cores::All => rayon::current_num_threads(),
        }
    }

    /// The number of the one that this runs on.
    pub(super) fn this(self) -> usize {
        match self {
            Cores::One => 0,
            Cores::All => rayon::current_thread_index().unwrap_or_default(),
        }
    }

    /// Works on parts of a slice of about so many each, given with the place of their first, and puts
    /// together what they came to.
    pub(super) fn parts<T: Send, A: Send>(
        self,
        (first, all): (usize, &mut [T]),
        part: usize,
        work: &(impl Fn(usize, &mut [T]) -> A + Sync),
        sum: &(impl Fn(A, A) -> A + Sync),
    ) -> A {
        if all.len() <= part || self == Cores::One {
            return work(first, all);
        }
        let middle = all.len() / 2;
        let (before, after) = all.split_at_mut(middle);
        let (one, other) = self.both(
            || self.parts((first, before), part, work, sum),
            || self.parts((first + middle, after), part, work, sum),
        );
        sum(one, other)
    }
}
