//! Window questions, one step simpler.

use super::{simpler_lists, Shrink};
use answers::WindowCall;

impl Shrink for WindowCall {
    fn simpler(&self) -> Box<dyn Iterator<Item = Self> + '_> {
        let windows = simpler_lists(&self.window)
            .filter_map(|window| window.try_into().ok())
            .map(|window| WindowCall { window, ..self.clone() });
        let boxes = simpler_lists(&self.boxes).map(|boxes| WindowCall { boxes, ..self.clone() });
        // As many numbers as there must be, or one less where there were too few.
        let rooms = [64, 63].into_iter();
        let fewer =
            rooms.flat_map(move |beside| (0..self.k.min(64)).map(move |k| fewer(self, k, beside)));
        Box::new(fewer.chain(windows).chain(boxes))
    }
}

/// The question over the first numbers, for fewer chains: eight for each and so many beside.
fn fewer(call: &WindowCall, k: u64, beside: usize) -> WindowCall {
    let boxes = call.boxes.iter().copied().take(8 * k as usize + beside).collect();
    WindowCall { boxes, k, ..call.clone() }
}
