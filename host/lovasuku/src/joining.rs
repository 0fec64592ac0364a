//! Joining on all cores, by calls of the verified library.

use crate::progress::Progress;
use lovasuku_chains::large;
pub use lovasuku_chains::large::{
    blocking, check_batches, distance, gaps, Capacity, Chain, CheckBatch, Checker, Fault, Gap,
    Joint, JointKind, Line, Outlined, Told, Way, Why,
};
use lovasuku_chains::{Dimension, Lines, Settings, Window};

/// Joins lines of a dimension, and tells which chains meet a window. Every node is decided by the
/// library with all its ends, as far as a call holds them.
pub fn join(
    dimension: Dimension,
    lines: &[Line],
    (settings, window): (Settings, Option<Window>),
    progress: &Progress,
) -> Result<Told, Fault> {
    let rounds = if settings.tolerance > 0.0 { 2 } else { 1 };
    progress.begin("joining", rounds * lines.len());
    let tell = |lines: usize| progress.add(lines);
    let way = Way { neighbours: true, tell: &tell, ..Way::default() };
    large::join(dimension, lines, (settings, window), way)
}

/// Joins lines for each of several tolerances, with one round one for all.
pub fn zooms<'a>(
    lines: Lines<'a>,
    (settings, window): (Settings, Option<Window>),
    tolerances: &[f64],
    progress: &Progress,
) -> Result<Vec<Outlined<'a>>, Fault> {
    let rounds = 1 + tolerances.iter().filter(|&&tolerance| tolerance > 0.0).count();
    progress.begin("joining", rounds * lines.len());
    let tell = |lines: usize| progress.add(lines);
    let way = Way { neighbours: true, tell: &tell, ..Way::default() };
    large::join_lines(lines, (settings, window), tolerances, way)
}
