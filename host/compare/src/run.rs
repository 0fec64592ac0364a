//! A whole run, on all cores.

use crate::building::compare_build;
use crate::calls::{numbered, Call, Numbered};
use crate::checks::compare_check;
use crate::pairing::compare_pairs;
use crate::shrink::shrink;
use crate::why::compare_why;
use crate::windows::compare_window;
use crate::zooms::{self, compare_finish};
use crate::{Door, Judge};
use answers::offset::of_limit;
use answers::stride_of;
use std::collections::BTreeMap;
use std::fmt;
use std::panic::resume_unwind;
use std::sync::atomic::{AtomicU64, Ordering};
use std::thread::{self, ScopedJoinHandle};

/// What a run is asked for.
#[derive(Clone, Copy, Debug, PartialEq, Eq)]
pub struct Plan {
    /// The number of the first call.
    pub first: u64,
    /// How many calls are made.
    pub calls: u64,
    /// The seed that determines them.
    pub seed: u64,
    /// How many are compared at a time.
    pub jobs: usize,
}

/// How many calls of each style were compared.
pub type Styles = BTreeMap<&'static str, u64>;

/// What was compared.
#[derive(Clone, Debug, Default)]
pub struct Tally {
    /// The building calls.
    pub building: Styles,
    /// The pairing calls.
    pub pairing: Styles,
    /// The questions about two ends.
    pub why: Styles,
    /// What these were answered with.
    pub told: Styles,
    /// The questions what lies in a window, beside those over the chains of building calls.
    pub windows: Styles,
    /// The deliveries of chains made elsewhere, by what they were made by or what was done to them.
    pub checks: Styles,
    /// What these were answered with.
    pub verdicts: Styles,
    /// The pieces to be finished, beside those of building calls, by what was done to them.
    pub finishes: Styles,
    /// What 19 said of these.
    pub forbidden: Styles,
    /// The building and pairing calls whose limit is that of an offset.
    pub offsets: u64,
    /// The building calls with an origin other than 0,0.
    pub origins: u64,
    /// The building calls with lines of two districts.
    pub districts: u64,
    /// Those with a district over its share.
    pub over_share: u64,
    /// The building calls by their types; those that are none of the four stand under 0.
    pub types: BTreeMap<u32, u64>,
    /// The most lines, points and ends of a call.
    pub most: [usize; 3],
}

impl Tally {
    fn add(&mut self, numbered: &Numbered) {
        let (styles, sizes, limit) = match &numbered.call {
            Call::Build(call) => {
                let known = stride_of(call.wkb_type).map_or(0, |_| call.wkb_type);
                *self.types.entry(known).or_default() += 1;
                self.origins += u64::from(call.origin != [0; 2]);
                self.districts += u64::from(call.lines_brought().iter().all(|&lines| lines > 0));
                self.over_share += u64::from(call.over_share().is_some());
                let points = call.points_brought().iter().sum();
                (&mut self.building, [call.lines(), points, 0], Some(call.limit))
            }
            Call::Pairs(call) => (&mut self.pairing, [0, 0, call.ends()], Some(call.limit)),
            // The question has no call with an offset.
            Call::Why(call) => (&mut self.why, [0, 0, call.pairing.ends()], None),
            Call::Window(_) => (&mut self.windows, [0; 3], None),
            Call::Check(_) => (&mut self.checks, [0; 3], None),
            Call::Finish(_) => (&mut self.finishes, [0; 3], None),
        };
        self.offsets += u64::from(limit.and_then(of_limit).is_some());
        *styles.entry(numbered.style).or_default() += 1;
        self.grow(sizes);
    }

    /// Counts what a question, a delivery or pieces were answered with.
    fn tell(&mut self, call: &Call, told: &'static str) {
        let of = match call {
            Call::Check(_) => &mut self.verdicts,
            Call::Finish(_) => &mut self.forbidden,
            _ => &mut self.told,
        };
        *of.entry(told).or_default() += 1;
    }

    fn grow(&mut self, sizes: [usize; 3]) {
        for (most, size) in self.most.iter_mut().zip(sizes) {
            *most = size.max(*most);
        }
    }

    fn merge(mut self, other: Tally) -> Self {
        for (sum, styles) in [
            (&mut self.building, other.building),
            (&mut self.pairing, other.pairing),
            (&mut self.why, other.why),
            (&mut self.told, other.told),
            (&mut self.windows, other.windows),
            (&mut self.checks, other.checks),
            (&mut self.verdicts, other.verdicts),
            (&mut self.finishes, other.finishes),
            (&mut self.forbidden, other.forbidden),
        ] {
            for (style, calls) in styles {
                *sum.entry(style).or_default() += calls;
            }
        }
        self.offsets += other.offsets;
        self.origins += other.origins;
        self.districts += other.districts;
        self.over_share += other.over_share;
        for (wkb_type, calls) in other.types {
            *self.types.entry(wkb_type).or_default() += calls;
        }
        self.grow(other.most);
        self
    }

    /// The number of calls.
    pub fn calls(&self) -> u64 {
        let asked = [&self.pairing, &self.why, &self.windows, &self.checks, &self.finishes];
        let all = asked.into_iter().chain([&self.building]);
        all.flat_map(|styles| styles.values()).sum()
    }
}

impl fmt::Display for Tally {
    fn fmt(&self, f: &mut fmt::Formatter<'_>) -> fmt::Result {
        let [lines, points, ends] = self.most;
        let list = |styles: &Styles| {
            let each = styles.iter().map(|(style, calls)| format!("{style} {calls}"));
            each.collect::<Vec<_>>().join(", ")
        };
        writeln!(f, "building, up to {lines} lines and {points} points: {}", list(&self.building))?;
        let types = self.types.iter().map(|(wkb_type, calls)| match wkb_type {
            0 => format!("none {calls}"),
            _ => format!("{wkb_type} {calls}"),
        });
        write!(f, "types: {}", types.collect::<Vec<_>>().join(", "))?;
        write!(f, "; {} with an origin", self.origins)?;
        write!(f, ", {} with two districts", self.districts)?;
        writeln!(f, ", {} with one over its share", self.over_share)?;
        write!(f, "pairing, up to {ends} ends: {}", list(&self.pairing))?;
        writeln!(f, "; {} of all with an offset in the limit's place too", self.offsets)?;
        writeln!(f, "windows over any boxes, beside those over chains: {}", list(&self.windows))?;
        writeln!(f, "chains made elsewhere: {}", list(&self.checks))?;
        writeln!(f, "judged: {}", list(&self.verdicts))?;
        writeln!(f, "pieces finished, beside those of building: {}", list(&self.finishes))?;
        writeln!(f, "of these: {}", list(&self.forbidden))?;
        writeln!(f, "two ends asked about: {}", list(&self.why))?;
        write!(f, "answered with: {}", list(&self.told))
    }
}

/// A call on which the library and the judge differ.
#[derive(Clone, Debug)]
pub struct Difference {
    /// Its number in the run.
    pub number: u64,
    /// Its style.
    pub style: &'static str,
    /// The call made small.
    pub call: Call,
    /// A sentence about the first difference on the small call.
    pub sentence: String,
}

impl fmt::Display for Difference {
    fn fmt(&self, f: &mut fmt::Formatter<'_>) -> fmt::Result {
        let Difference { number, style, call, sentence } = self;
        writeln!(f, "call {number} (style {style}) differs; made small: {sentence}")?;
        match call {
            Call::Build(call) => write!(f, "{call}"),
            Call::Pairs(call) => write!(f, "{call}"),
            Call::Why(call) => write!(f, "{call}"),
            Call::Window(call) => write!(f, "{call}"),
            Call::Check(call) => write!(f, "{call}"),
            Call::Finish(call) => write!(f, "{call}"),
        }
    }
}

/// Compares all calls of the plan. Of several that differ the first is given, made small. `watch`
/// is told the number of each call before it is made.
pub fn run(
    door: &dyn Door,
    judge: Judge,
    plan: Plan,
    watch: &(dyn Fn(u64) + Sync),
) -> (Tally, Option<Difference>) {
    let next = AtomicU64::new(plan.first);
    let end = AtomicU64::new(plan.first.saturating_add(plan.calls));
    let work = || {
        let mut tally = Tally::default();
        loop {
            let number = next.fetch_add(1, Ordering::Relaxed);
            if number >= end.load(Ordering::Relaxed) {
                return tally;
            }
            watch(number);
            let numbered = numbered(plan.seed, number);
            match compare(door, judge, &numbered.call, numbered.rooms) {
                Ok(Some(told)) => tally.tell(&numbered.call, told),
                Ok(None) => (),
                Err(_) => {
                    end.fetch_min(number, Ordering::Relaxed);
                }
            }
            tally.add(&numbered);
        }
    };
    let tally = thread::scope(|scope| {
        let workers: Vec<_> = (0..plan.jobs.max(1)).map(|_| scope.spawn(work)).collect();
        let joined = |worker: ScopedJoinHandle<Tally>| {
            worker.join().unwrap_or_else(|fault| resume_unwind(fault))
        };
        workers.into_iter().map(joined).fold(Tally::default(), Tally::merge)
    });
    let stopped = end.into_inner();
    let whole = stopped == plan.first.saturating_add(plan.calls);
    (tally, (!whole).then(|| difference(door, judge, plan.seed, stopped)))
}

/// Compares a call, and names what a question, a delivery or pieces were answered with. The error is a sentence about the
/// first difference.
pub fn compare(
    door: &dyn Door,
    judge: Judge,
    call: &Call,
    rooms: u64,
) -> Result<Option<&'static str>, String> {
    match call {
        Call::Build(call) => compare_build(door, judge, call, rooms).map(|()| None),
        Call::Pairs(call) => compare_pairs(door, judge, call, rooms).map(|()| None),
        Call::Why(call) => compare_why(door, judge, call, rooms).map(|told| Some(told.name())),
        Call::Window(call) => compare_window(door, call, rooms).map(|()| None),
        Call::Check(call) => compare_check(door, call, rooms).map(|verdict| Some(verdict.name())),
        Call::Finish(call) => {
            compare_finish(door, call, rooms).map(|clause| Some(zooms::name(clause)))
        }
    }
}

/// The difference on a call that is known to differ.
fn difference(door: &dyn Door, judge: Judge, seed: u64, number: u64) -> Difference {
    let Numbered { style, call, rooms } = numbered(seed, number);
    let call = match call {
        Call::Build(call) => {
            Call::Build(shrink(call, |call| compare_build(door, judge, call, rooms).is_err()))
        }
        Call::Pairs(call) => {
            Call::Pairs(shrink(call, |call| compare_pairs(door, judge, call, rooms).is_err()))
        }
        Call::Why(call) => {
            Call::Why(shrink(call, |call| compare_why(door, judge, call, rooms).is_err()))
        }
        Call::Window(call) => {
            Call::Window(shrink(call, |call| compare_window(door, call, rooms).is_err()))
        }
        Call::Check(call) => {
            Call::Check(shrink(call, |call| compare_check(door, call, rooms).is_err()))
        }
        Call::Finish(call) => {
            Call::Finish(shrink(call, |call| compare_finish(door, call, rooms).is_err()))
        }
    };
    let sentence = compare(door, judge, &call, rooms).err().unwrap_or_default();
    Difference { number, style, call, sentence }
}
