//! What lies in a window: the chains whose extents meet it.

use crate::rooms::{first, grow};
use crate::{door, Chain, Chains, Refusal};
use std::slice::Iter;

/// A window: the least x and y and the greatest. Infinities may bound it.
#[derive(Clone, Copy, Debug, PartialEq)]
pub struct Window {
    /// The least x and y.
    pub least: [f64; 2],
    /// The greatest x and y.
    pub greatest: [f64; 2],
}

impl Window {
    /// The window between two opposite corners, whichever they are.
    ///
    /// ```
    /// use lovasuku_chains::Window;
    ///
    /// let window = Window::between([9.0, 0.0], [1.0, 5.0]);
    /// assert_eq!(window, Window { least: [1.0, 0.0], greatest: [9.0, 5.0] });
    /// ```
    pub fn between(one: [f64; 2], other: [f64; 2]) -> Self {
        let by = |pick: fn(f64, f64) -> f64| [pick(one[0], other[0]), pick(one[1], other[1])];
        Window { least: by(f64::min), greatest: by(f64::max) }
    }

    /// True where an extent, given by its least and greatest x and y, overlaps or touches the window.
    pub fn meets(&self, least: [f64; 2], greatest: [f64; 2]) -> bool {
        let along = |k: usize| {
            least[k] <= greatest[k] && least[k] <= self.greatest[k] && self.least[k] <= greatest[k]
        };
        along(0) && along(1)
    }
}

/// The numbers of found chains, which grow where a question needs more than any before it.
#[derive(Clone, Debug, Default)]
pub struct WindowBuf(Vec<u32>);

impl WindowBuf {
    /// A buffer without length, which the first question makes grow.
    pub fn new() -> Self {
        WindowBuf::default()
    }
}

impl<'a> Chains<'a> {
    /// The boxes of all chains, four numbers each, least x and y and greatest, and above them, level by
    /// level, those of pairs. [`window_question`] reads them, and a few numbers that follow, when the
    /// rooms are gone.
    pub fn boxes(&self) -> &'a [f64] {
        self.boxes
    }

    /// The chains whose coordinates' extent meets a window, ascending, each with its position. Touching
    /// is meeting; a chain without coordinates meets none. Boxes around many chains are passed over
    /// where they do not meet it, so that a small window takes little time.
    ///
    /// ```
    /// use lovasuku_chains::{LinesBuf, Rooms, Settings, Window, WindowBuf};
    ///
    /// # fn main() -> Result<(), lovasuku_chains::Refusal> {
    /// let mut roads = LinesBuf::default();
    /// roads.push([[0.0, 0.0], [1.0, 0.0]], 0);
    /// roads.push([[5.0, 5.0], [6.0, 9.0]], 0);
    /// roads.push([[2.0, 0.0], [1.0, 0.0]], 0);
    /// let mut rooms = Rooms::default();
    /// let chains = rooms.build(roads.lines(), Settings::default())?;
    /// let mut found = WindowBuf::default();
    /// let window = Window { least: [1.5, -1.0], greatest: [5.0, 5.0] };
    /// for (position, chain) in chains.window(window, &mut found)? {
    ///     println!("{position}: {:?}", chain.members());
    /// }
    /// assert_eq!(chains.window(window, &mut found)?.len(), 2);
    /// let north = Window { least: [f64::NEG_INFINITY, 5.5], greatest: [f64::INFINITY; 2] };
    /// assert_eq!(chains.window(north, &mut found)?.positions(), [1]);
    /// # Ok(())
    /// # }
    /// ```
    ///
    /// # Errors
    ///
    /// [`Refusal::BadWindow`] where the window has a NaN, or a least above its greatest.
    pub fn window<'b>(
        &self,
        window: Window,
        found: &'b mut WindowBuf,
    ) -> Result<InWindow<'a, 'b>, Refusal> {
        let found = window_question(self.boxes, self.boxed, window, found)?;
        let within = |&&position: &&u32| (position as usize) < self.len();
        let count = found.iter().take_while(within).count();
        Ok(InWindow { chains: *self, found: first(found, count).iter() })
    }
}

/// Asks which of k chains lie in a window, by boxes that may come from anywhere: of each chain that is
/// listed its own box and all boxes above it meet the window.
///
/// # Errors
///
/// [`Refusal::BadWindow`] where the window has a NaN, or a least above its greatest;
/// [`Refusal::RoomTooShort`] where there are fewer than 8 k + 64 numbers.
///
/// ```
/// use lovasuku_chains::{window_question, Refusal, Window, WindowBuf};
///
/// // One chain, from 0,0 to 3,1, whose box is all boxes.
/// let mut boxes = vec![0.0; 72];
/// boxes[2..4].copy_from_slice(&[3.0, 1.0]);
/// let mut found = WindowBuf::default();
/// let window = Window { least: [3.0, 1.0], greatest: [4.0, 4.0] };
/// assert_eq!(window_question(&boxes, 1, window, &mut found), Ok(&[0][..]));
/// let short = window_question(&boxes[1..], 1, window, &mut found);
/// assert_eq!(short, Err(Refusal::RoomTooShort));
/// ```
pub fn window_question<'b>(
    boxes: &[f64],
    k: usize,
    window: Window,
    found: &'b mut WindowBuf,
) -> Result<&'b [u32], Refusal> {
    // More chains than there are numbers are refused, so that no more room is made.
    grow(&mut found.0, k.min(boxes.len()));
    let answer = door::window(boxes, k as u64, window, &mut found.0);
    Ok(first(&found.0, door::result(answer)? as usize))
}

/// The chains of a call that lie in a window, ascending.
#[derive(Clone, Debug)]
pub struct InWindow<'a, 'b> {
    chains: Chains<'a>,
    found: Iter<'b, u32>,
}

impl<'b> InWindow<'_, 'b> {
    /// The positions of the chains that are left.
    pub fn positions(&self) -> &'b [u32] {
        self.found.as_slice()
    }
}

impl<'a> Iterator for InWindow<'a, '_> {
    type Item = (usize, Chain<'a>);

    fn next(&mut self) -> Option<(usize, Chain<'a>)> {
        let position = *self.found.next()? as usize;
        self.chains.get(position).map(|chain| (position, chain))
    }

    fn size_hint(&self) -> (usize, Option<usize>) {
        self.found.size_hint()
    }
}

impl ExactSizeIterator for InWindow<'_, '_> {}
