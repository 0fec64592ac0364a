//! What is refused of a delivery, as the library refuses it of a call.

use super::cores::Cores;
use super::fitting::fit;
use super::Fault;
use crate::size::POINT;
use crate::{Lines, Refusal, Settings, PASSING};

/// The most lines: those whose ends a number of 32 bits can name, with a bit to spare.
const MOST_LINES: usize = (1 << 30) - 1;

/// A core looks at about so many numbers at a time.
const PART: usize = 65_536;

/// The first of the refusals of building that applies to all lines together, but for those of how much a
/// call holds.
pub fn judge(lines: Lines, settings: Settings, cores: Cores) -> Result<(), Fault> {
    let n = lines.len();
    let stride = lines.dimension.stride();
    let points: u64 = lines.counts.iter().map(|&count| u64::from(count)).sum();
    if n > MOST_LINES {
        Err(Fault::TooMany)
    } else if lines.groups.len() != n || lines.kinds.len() != n {
        Err(Refusal::TablesDiffer.into())
    } else if lines.kinds.iter().any(|&kind| kind > PASSING) {
        Err(Refusal::MarkAboveOne.into())
    } else if stride as u64 * points != lines.coordinates.len() as u64 {
        Err(Refusal::CountsDoNotAddUp.into())
    } else if points > u64::from(u32::MAX) {
        Err(Fault::TooMany)
    } else if !are_places(lines.coordinates, stride, cores) {
        Err(Refusal::NoPlace.into())
    } else if settings.limit.map_or(false, |limit| !(-1.0..=1.0).contains(&limit)) {
        Err(Refusal::BadLimit.into())
    } else if settings.origin.iter().any(|number| !number.is_finite()) {
        Err(Refusal::BadOrigin.into())
    } else {
        Ok(())
    }
}

/// True where every x and y is finite.
fn are_places(numbers: &[f64], stride: usize, cores: Cores) -> bool {
    if numbers.len() > PART && cores != Cores::One {
        let (one, other) = numbers.split_at(numbers.len() / stride / 2 * stride);
        let (one, other) =
            cores.both(|| are_places(one, stride, cores), || are_places(other, stride, cores));
        return one && other;
    }
    // No number but a finite one is 0 less itself.
    let is_none = |sum: bool, x: &f64| sum | !(x - x == 0.0);
    let all = match stride {
        POINT => numbers.iter().fold(false, is_none),
        _ => numbers.chunks_exact(stride).flat_map(|p| &p[..POINT]).fold(false, is_none),
    };
    !all
}

/// Writes the first coordinate of each line, and behind the last how many there are.
pub fn count(counts: &[u32], firsts: &mut Vec<u32>) {
    firsts.clear();
    fit(firsts, counts.len() + 1);
    firsts.push(0);
    let mut sum = 0;
    firsts.extend(counts.iter().map(|&count| {
        sum += count;
        sum
    }));
}
