//! Wrong verdicts on chains made elsewhere that a port could plausibly give.

use answers::model::acceptable::{judged, Clause, Verdict};
use answers::{BuildCall, CheckCall, Refusal, BAD_RECORD};

/// A verdict as an answer.
fn answer(verdict: Verdict) -> i64 {
    verdict.refusal().map_or_else(|Refusal(number)| -i64::from(number), |()| 0)
}

/// The right answer.
pub fn right(call: &CheckCall, workspace: usize) -> i64 {
    answer(judged(call, workspace))
}

/// The answer on another call.
fn on(call: &CheckCall, workspace: usize, of: fn(&mut CheckCall)) -> i64 {
    let mut other = call.clone();
    of(&mut other);
    right(&other, workspace)
}

/// The answer where a clause is not asked for.
fn without(call: &CheckCall, workspace: usize, clause: Clause) -> i64 {
    match judged(call, workspace) {
        Verdict::Not(found) if found == clause => 0,
        verdict => answer(verdict),
    }
}

pub fn groups_mixed(call: &CheckCall, workspace: usize) -> i64 {
    without(call, workspace, Clause::OneGroup)
}

pub fn passing_joined(call: &CheckCall, workspace: usize) -> i64 {
    without(call, workspace, Clause::Passing)
}

pub fn lines_not_counted(call: &CheckCall, workspace: usize) -> i64 {
    without(call, workspace, Clause::Once)
}

pub fn meeting_not_asked(call: &CheckCall, workspace: usize) -> i64 {
    without(call, workspace, Clause::Meeting)
}

pub fn coordinates_not_looked_at(call: &CheckCall, workspace: usize) -> i64 {
    without(call, workspace, Clause::Coordinates)
}

pub fn lone_lines_not_looked_at(call: &CheckCall, workspace: usize) -> i64 {
    without(call, workspace, Clause::Untouched)
}

/// Cells are counted from 0,0 whatever the origin is.
pub fn without_origin(call: &CheckCall, workspace: usize) -> i64 {
    match call.lines.adrift() {
        true => right(call, workspace),
        false => on(call, workspace, |call| call.lines.origin = [0; 2]),
    }
}

/// Ends meet by their exact keys alone.
pub fn without_cells(call: &CheckCall, workspace: usize) -> i64 {
    on(call, workspace, |call| call.lines.tolerance = 0)
}

/// With a tolerance ends meet by cells alone, and a NaN is taken for one.
pub fn nan_for_a_tolerance(call: &CheckCall, workspace: usize) -> i64 {
    on(call, workspace, |call| {
        if f64::from_bits(call.lines.tolerance).is_nan() {
            call.lines.tolerance = 1e300f64.to_bits();
        }
    })
}

/// Zeros of both signs are one number in a lone line too.
pub fn lone_by_value(call: &CheckCall, workspace: usize) -> i64 {
    on(call, workspace, |call| {
        let unsigned = |numbers: &mut Vec<u64>| {
            numbers.iter_mut().filter(|bits| **bits << 1 == 0).for_each(|bits| *bits = 0);
        };
        // Only what stands alone: joined lines meet by their bits.
        if call.table.chunks(6).all(|record| record.get(1) == Some(&1)) {
            unsigned(&mut call.lines.coordinates);
            unsigned(&mut call.merged);
        }
    })
}

/// The listing is read as members are, in ascending order.
pub fn sorted_listing(call: &CheckCall, workspace: usize) -> i64 {
    on(call, workspace, |call| {
        for record in call.table.chunks_exact(6) {
            let (first, count) = (record[0] as usize, record[1] as usize);
            if let Some(part) = call.listing.get_mut(first..first + count) {
                part.sort_unstable();
            }
        }
    })
}

/// 24 before 23: a record that cannot be read is looked at when its turn comes.
pub fn record_by_record(call: &CheckCall, workspace: usize) -> i64 {
    match judged(call, workspace) {
        Verdict::Refused(BAD_RECORD) => {
            let readable = |k: &u64| {
                let record = call.record(*k);
                record.map_or(false, |it| call.listed(it).is_some() && call.numbers(it).is_some())
            };
            let k = (0..call.k).take_while(readable).count() as u64;
            let before = CheckCall { k, ..call.clone() };
            match judged(&before, workspace) {
                Verdict::Not(clause) if clause != Clause::Once => -24,
                _ => -23,
            }
        }
        verdict => answer(verdict),
    }
}

/// A record's last number is asked to be 0 or 1.
pub fn loop_mark_read(call: &CheckCall, workspace: usize) -> i64 {
    let bad = |k: u64| call.record(k).map_or(false, |record| record[5] > 1);
    match judged(call, workspace) {
        Verdict::Accepted if (0..call.k).any(bad) => -23,
        verdict => answer(verdict),
    }
}

/// A chain of no lines is refused.
pub fn no_lines_refused(call: &CheckCall, workspace: usize) -> i64 {
    let empty = |k: u64| call.record(k).map_or(false, |record| record[1] == 0);
    match judged(call, workspace) {
        Verdict::Accepted if (0..call.k).any(empty) => -24,
        verdict => answer(verdict),
    }
}

/// Joined lines must stand in source 1.
pub fn joined_in_source_0_refused(call: &CheckCall, workspace: usize) -> i64 {
    let alone = |k: u64| call.record(k).map_or(false, |record| record[1] == 1 && record[2] == 1);
    match judged(call, workspace) {
        Verdict::Accepted if (0..call.k).any(alone) => -24,
        verdict => answer(verdict),
    }
}

/// Each line is directed by the one before it and the coordinates so far: as drawn where that fits, else
/// turned, and never taken back.
pub fn greedily(call: &CheckCall, workspace: usize) -> i64 {
    match judged(call, workspace) {
        Verdict::Accepted if !(0..call.k).all(|k| goes_greedily(call, k)) => -24,
        verdict => answer(verdict),
    }
}

fn goes_greedily(call: &CheckCall, k: u64) -> bool {
    let record = call.record(k).expect("an accepted record is whole");
    let listed = call.listed(record).expect("an accepted record lists lines");
    let numbers = call.numbers(record).expect("an accepted record has coordinates");
    let points: Vec<[f64; 2]> =
        numbers.chunks(call.lines.stride()).map(|p| [p[0], p[1]].map(f64::from_bits)).collect();
    let mut at = 0;
    let mut end = None;
    listed.len() < 2
        || listed.iter().all(|&line| {
            let run = directed(&call.lines, line as usize);
            let fits = |run: &&Vec<[u64; 2]>| {
                let meets = end.map_or(true, |end| meets(&call.lines, end, run[0]));
                meets && laid(&points, at, run).is_some()
            };
            match run.iter().find(fits) {
                None => false,
                Some(run) => {
                    at = laid(&points, at, run).unwrap_or(at);
                    end = Some(run[run.len() - 1]);
                    true
                }
            }
        }) && (listed.len() < 2 || at == points.len())
}

/// A line as it was drawn, and turned.
fn directed(lines: &BuildCall, line: usize) -> [Vec<[u64; 2]>; 2] {
    let run = lines.points(line, lines.firsts()[line]);
    let turned = run.iter().rev().copied().collect();
    [run, turned]
}

fn meets(lines: &BuildCall, a: [u64; 2], b: [u64; 2]) -> bool {
    use answers::model::plane::cell_key;
    let tolerance = f64::from_bits(lines.tolerance);
    let cell = |point| cell_key(0, point, lines.origin, tolerance);
    a == b || (tolerance > 0.0 && cell(a) == cell(b))
}

fn laid(points: &[[f64; 2]], mut at: usize, run: &[[u64; 2]]) -> Option<usize> {
    for point in run.iter().map(|point| point.map(f64::from_bits)) {
        if at == 0 || points[at - 1] != point {
            (points.get(at) == Some(&point)).then_some(())?;
            at += 1;
        }
    }
    Some(at)
}
