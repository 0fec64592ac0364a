//! Progress on a terminal.

use indicatif::{ProgressBar, ProgressDrawTarget, ProgressStyle};
use std::sync::atomic::{AtomicBool, Ordering};
use std::time::{Duration, Instant};

/// A bar on the terminal that appears when the work takes longer than a moment.
#[derive(Debug)]
pub struct Progress {
    bar: ProgressBar,
    from: Instant,
    awaited: AtomicBool,
}

/// How long work may take before the bar appears.
const MOMENT: Duration = Duration::from_millis(400);

impl Progress {
    /// The bar, which stays away where it is not wanted or where there is no terminal.
    pub fn new(wanted: bool) -> Self {
        let bar = ProgressBar::with_draw_target(Some(0), ProgressDrawTarget::hidden());
        let style =
            ProgressStyle::with_template("{msg:>9} [{bar:40}] {human_pos} of {human_len} {eta}");
        if let Ok(style) = style {
            bar.set_style(style.progress_chars("━╸ "));
        }
        Progress { bar, from: Instant::now(), awaited: AtomicBool::new(wanted) }
    }

    /// Begins a part of the work, of so many steps.
    pub fn begin(&self, part: &'static str, steps: usize) {
        self.bar.set_message(part);
        self.bar.set_length(steps as u64);
        self.bar.reset();
    }

    /// Tells that so many steps are done.
    pub fn add(&self, steps: usize) {
        if self.from.elapsed() > MOMENT && self.awaited.swap(false, Ordering::Relaxed) {
            self.bar.set_draw_target(ProgressDrawTarget::stderr());
        }
        self.bar.inc(steps as u64);
    }

    /// Takes the bar away.
    pub fn end(&self) {
        self.bar.finish_and_clear();
    }
}
