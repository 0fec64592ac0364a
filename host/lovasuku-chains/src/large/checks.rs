//! Checking beyond one call: chains made elsewhere, of any number and size.
//!
//! What fits one call is one call. A larger delivery is cut between chains: each call is given some of them with
//! the lines that they list. That every line is listed once is counted here, so that every line is in one call
//! with its chain, and the chains are acceptable exactly where the library accepts each call. A chain that no call
//! can hold is judged by [`find`](crate::find), without the library.

use super::Capacity;
use crate::size::{BORDER, POINT};
use crate::{find, Delivered, DeliveredBuf, Lines, LinesBuf, Points, Refusal, Rooms, Settings};

/// What one call is given: positions of chains and of lines, ascending.
#[derive(Clone, Debug, Default, PartialEq)]
pub struct CheckBatch {
    /// The chains.
    pub chains: Vec<u32>,
    /// The lines.
    pub lines: Vec<u32>,
}

/// A delivery that is cut.
#[derive(Clone, Debug, Default, PartialEq)]
pub struct CheckBatches {
    /// What each call is given.
    pub batches: Vec<CheckBatch>,
    /// The chains that no call can hold.
    pub beyond: Vec<u32>,
}

/// How many batches the lines of a full call are spread over where there are more than one call holds, so that
/// every core has work till the end.
const SPREAD: usize = 4;

/// Checks chains made elsewhere, one batch after another, as [`Rooms::check`] does. No call gets more of a
/// district than the capacity. Gives the chains that no call can hold, which were judged without the library.
///
/// # Errors
///
/// The first refusal. [`find`](crate::find) tells the first chain and line that is at fault.
pub fn check(
    lines: Lines<'_>,
    chains: Delivered<'_>,
    settings: Settings,
    capacity: Capacity,
) -> Result<Vec<u32>, Refusal> {
    let mut checker = Checker::new(lines, chains, settings);
    let CheckBatches { batches, beyond } = check_batches(lines, chains, capacity)?;
    batches.iter().try_for_each(|batch| checker.check(batch))?;
    checker.check_beyond(&beyond)?;
    Ok(beyond)
}

/// Cuts chains and lines into batches. There is one batch where one call holds all, whatever they are.
///
/// # Errors
///
/// Where there are several batches: [`Refusal::BadRecord`] where a record cannot be read, and
/// [`Refusal::NotAcceptable`] where a line does not stand in exactly one chain, once.
pub fn check_batches(
    lines: Lines<'_>,
    chains: Delivered<'_>,
    capacity: Capacity,
) -> Result<CheckBatches, Refusal> {
    let all = CheckBatch {
        chains: (0..chains.len() as u32).collect(),
        lines: (0..lines.len() as u32).collect(),
    };
    if within(shares(lines, &all.lines), capacity) {
        return Ok(CheckBatches { batches: vec![all], beyond: Vec::new() });
    }
    let full = Capacity { lines: capacity.lines / SPREAD, points: capacity.points / SPREAD };
    let mut cut = CheckBatches::default();
    let mut so_far = shares(lines, &[]);
    for (chain, listed) in listed_once(lines, chains)?.into_iter().enumerate() {
        let more = shares(lines, listed);
        match cut.batches.last_mut() {
            _ if !within(more, capacity) => cut.beyond.push(chain as u32),
            Some(batch) if within(sum(so_far, more), full) => {
                batch.chains.push(chain as u32);
                batch.lines.extend(listed);
                so_far = sum(so_far, more);
            }
            _ => {
                let (chains, lines) = (vec![chain as u32], listed.to_vec());
                cut.batches.push(CheckBatch { chains, lines });
                so_far = more;
            }
        }
    }
    cut.batches.iter_mut().for_each(|batch| batch.lines.sort_unstable());
    Ok(cut)
}

/// The lines that each chain lists, where every line is listed once.
fn listed_once<'a>(lines: Lines<'a>, chains: Delivered<'a>) -> Result<Vec<&'a [u32]>, Refusal> {
    let listed =
        (0..chains.len()).map(|chain| chains.named(lines, chain).map(|(listed, _)| listed));
    let listed: Vec<&[u32]> = listed.collect::<Option<_>>().ok_or(Refusal::BadRecord)?;
    let mut times = vec![0u32; lines.len()];
    for &line in listed.iter().copied().flatten() {
        if let Some(times) = times.get_mut(line as usize) {
            *times = times.saturating_add(1);
        }
    }
    match times.iter().all(|&times| times == 1) {
        true => Ok(listed),
        false => Err(Refusal::NotAcceptable),
    }
}

/// What lines bring of each district.
fn shares(lines: Lines<'_>, positions: &[u32]) -> [Capacity; 2] {
    let mut shares = [Capacity { lines: 0, points: 0 }; 2];
    for &line in positions {
        let group = lines.groups.get(line as usize).copied().unwrap_or_default();
        let share = &mut shares[usize::from(group >= BORDER)];
        share.lines += 1;
        share.points += lines.counts.get(line as usize).map_or(0, |&count| count as usize);
    }
    shares
}

fn sum(one: [Capacity; 2], other: [Capacity; 2]) -> [Capacity; 2] {
    [0, 1].map(|k| Capacity {
        lines: one[k].lines + other[k].lines,
        points: one[k].points + other[k].points,
    })
}

fn within(shares: [Capacity; 2], capacity: Capacity) -> bool {
    shares.iter().all(|share| share.lines <= capacity.lines && share.points <= capacity.points)
}

/// Lends batches to the library, one after another, in the same rooms.
#[derive(Debug)]
pub struct Checker<'a> {
    lines: Lines<'a>,
    chains: Delivered<'a>,
    settings: Settings,
    /// The first coordinate of each line.
    firsts: Vec<usize>,
    rooms: Rooms,
    lent: LinesBuf,
    delivered: DeliveredBuf,
}

impl<'a> Checker<'a> {
    /// A checker of batches of one delivery.
    pub fn new(lines: Lines<'a>, chains: Delivered<'a>, settings: Settings) -> Self {
        Checker {
            lines,
            chains,
            settings,
            firsts: lines.firsts(),
            rooms: Rooms::default(),
            lent: LinesBuf::of(lines.dimension),
            delivered: DeliveredBuf::of(lines.dimension),
        }
    }

    /// Checks a batch.
    ///
    /// # Errors
    ///
    /// As [`Rooms::check`].
    pub fn check(&mut self, batch: &CheckBatch) -> Result<(), Refusal> {
        self.lend(batch)?;
        self.rooms.check(self.lent.lines(), self.delivered.delivered(), self.settings)
    }

    /// Judges chains that no call can hold, without the library.
    ///
    /// # Errors
    ///
    /// [`Refusal::NoPlace`], [`Refusal::BadOrigin`], [`Refusal::NotAcceptable`].
    pub fn check_beyond(&mut self, chains: &[u32]) -> Result<(), Refusal> {
        for &chain in chains {
            let listed = self.chains.named(self.lines, chain as usize).map(|(listed, _)| listed);
            let mut lines = listed.ok_or(Refusal::BadRecord)?.to_vec();
            lines.sort_unstable();
            self.lend(&CheckBatch { chains: vec![chain], lines })?;
            let (lines, place) = (self.lent.lines(), |x: &f64| x.is_finite());
            let mut points = Points::of(lines.coordinates, lines.dimension);
            if !points.all(|point: [f64; POINT]| point.iter().all(place)) {
                return Err(Refusal::NoPlace);
            }
            if !self.settings.origin.iter().all(place) {
                return Err(Refusal::BadOrigin);
            }
            if find(lines, self.delivered.delivered(), self.settings).is_some() {
                return Err(Refusal::NotAcceptable);
            }
        }
        Ok(())
    }

    /// Puts the lines and the chains of a batch, by its own positions, where they are lent from.
    fn lend(&mut self, batch: &CheckBatch) -> Result<(), Refusal> {
        self.lent.clear();
        self.delivered.clear();
        for &line in &batch.lines {
            self.lend_line(line as usize)?;
        }
        for &chain in &batch.chains {
            let named = self.chains.named(self.lines, chain as usize);
            let (listed, numbers) = named.ok_or(Refusal::BadRecord)?;
            // A line of another batch is none of this one's, and so it is refused.
            let place = |line: &u32| batch.lines.binary_search(line).map_or(u32::MAX, |k| k as u32);
            self.delivered.push_numbers(listed.iter().map(place), numbers);
        }
        Ok(())
    }

    fn lend_line(&mut self, line: usize) -> Result<(), Refusal> {
        let Lines { dimension, coordinates, counts, groups, kinds } = self.lines;
        let [first, count] =
            [self.firsts.get(line).copied(), counts.get(line).map(|&n| n as usize)];
        let (first, count) = first.zip(count).ok_or(Refusal::TablesDiffer)?;
        let stride = dimension.stride();
        let numbers =
            stride.saturating_mul(first)..stride.saturating_mul(first.saturating_add(count));
        let numbers = coordinates.get(numbers).ok_or(Refusal::CountsDoNotAddUp)?;
        let (group, kind) = groups.get(line).zip(kinds.get(line)).ok_or(Refusal::TablesDiffer)?;
        self.lent.push_numbers(numbers, *group, *kind);
        Ok(())
    }
}
