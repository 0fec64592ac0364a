//! Which chains made elsewhere are acceptable: the request's sentence, clause by clause, with a choice of
//! directions looked for among all there are.

use super::plane::{cell_key, exact_key, same, Point};
use crate::call::{BuildCall, Refusal, ROOM_TOO_SHORT};
use crate::delivered::{CheckCall, BAD_RECORD, NOT_ACCEPTABLE};

/// The most lines of a chain for which every choice of directions is tried.
pub const MOST_TRIED: usize = 10;

/// What a delivery is answered with.
#[derive(Clone, Copy, Debug, PartialEq, Eq)]
pub enum Verdict {
    /// It is accepted.
    Accepted,
    /// It is refused before its chains are looked at, or for a record.
    Refused(Refusal),
    /// It is refused by 24, for this clause.
    Not(Clause),
}

/// What is asked of acceptable chains.
#[derive(Clone, Copy, Debug, PartialEq, Eq)]
pub enum Clause {
    /// Every line stands in exactly one chain.
    Once,
    /// A lone line is untouched, bit for bit.
    Untouched,
    /// A chain's lines share a group.
    OneGroup,
    /// Lines that pass through stand alone.
    Passing,
    /// A choice of directions exists such that consecutive lines meet, with whatever coordinates.
    Meeting,
    /// One of these has the chain's coordinates.
    Coordinates,
}

impl Verdict {
    /// The refusal, if it is one.
    pub fn refusal(self) -> Result<(), Refusal> {
        match self {
            Verdict::Accepted => Ok(()),
            Verdict::Refused(refusal) => Err(refusal),
            Verdict::Not(_) => Err(NOT_ACCEPTABLE),
        }
    }

    /// What it says, in a word or two.
    pub fn name(self) -> &'static str {
        match self {
            Verdict::Accepted => "accepted",
            Verdict::Refused(BAD_RECORD) => "23",
            Verdict::Refused(_) => "another refusal",
            Verdict::Not(Clause::Once) => "24 for a line not once",
            Verdict::Not(Clause::Untouched) => "24 for a lone line touched",
            Verdict::Not(Clause::OneGroup) => "24 for groups",
            Verdict::Not(Clause::Passing) => "24 for a line that passes",
            Verdict::Not(Clause::Meeting) => "24 for lines that do not meet",
            Verdict::Not(Clause::Coordinates) => "24 for coordinates",
        }
    }
}

/// The verdict on a delivery, with so many words of workspace. Of the lines' refusals the model knows
/// those that [`BuildCall::refusal`] does.
pub fn judged(call: &CheckCall, workspace: usize) -> Verdict {
    if let Some(refusal) = call.lines.refusal() {
        return Verdict::Refused(refusal);
    }
    if workspace < 192 * call.lines.lines() {
        return Verdict::Refused(ROOM_TOO_SHORT);
    }
    match named(call) {
        None => Verdict::Refused(BAD_RECORD),
        Some(chains) => match unacceptable(&call.lines, &chains) {
            Some(clause) => Verdict::Not(clause),
            None => Verdict::Accepted,
        },
    }
}

/// A chain's lines, and its numbers.
type Named<'a> = (&'a [u32], &'a [u64]);

/// What all records name, if each names lines and coordinates.
fn named(call: &CheckCall) -> Option<Vec<Named<'_>>> {
    let of = |k: u64| {
        let record = call.record(k)?;
        Some((call.listed(record)?, call.numbers(record)?))
    };
    (0..call.k).map(of).collect()
}

/// The first clause that does not hold.
fn unacceptable(lines: &BuildCall, chains: &[Named]) -> Option<Clause> {
    let mut times = vec![0; lines.lines()];
    chains.iter().flat_map(|(listed, _)| listed.iter()).for_each(|&y| times[y as usize] += 1);
    if times.iter().any(|&times| times != 1) {
        return Some(Clause::Once);
    }
    chains.iter().find_map(|(listed, numbers)| unfit(lines, listed, numbers))
}

/// The first clause that does not hold of a chain.
fn unfit(lines: &BuildCall, listed: &[u32], numbers: &[u64]) -> Option<Clause> {
    let firsts = lines.firsts();
    if let &[line] = listed {
        let own = lines.numbers(line as usize, firsts[line as usize]);
        return (own != numbers).then_some(Clause::Untouched);
    }
    if listed.iter().any(|&line| lines.passes(line as usize)) {
        return Some(Clause::Passing);
    }
    if listed.iter().any(|&line| lines.groups[line as usize] != lines.groups[listed[0] as usize]) {
        return Some(Clause::OneGroup);
    }
    let runs: Vec<Vec<Point>> =
        listed.iter().map(|&line| lines.points(line as usize, firsts[line as usize])).collect();
    let wanted: Vec<Point> = numbers.chunks(lines.stride()).map(|p| [p[0], p[1]]).collect();
    let meeting = Meeting { tolerance: f64::from_bits(lines.tolerance), origin: lines.origin };
    match runs.len() <= MOST_TRIED {
        true => meeting.tried(&runs, &wanted),
        false => meeting.followed(&runs, &wanted),
    }
}

/// What lines meet by.
#[derive(Clone, Copy, Debug)]
pub struct Meeting {
    /// The tolerance; with one that is above 0, points in one cell meet too.
    pub tolerance: f64,
    /// The corner that cells are counted from.
    pub origin: Point,
}

impl Meeting {
    /// True where two points have the same exact key or, with a tolerance, the same cell.
    fn meet(&self, a: Point, b: Point) -> bool {
        let cell = |point| cell_key(0, point, self.origin, self.tolerance);
        exact_key(0, a) == exact_key(0, b) || (self.tolerance > 0.0 && cell(a) == cell(b))
    }

    /// The clause that does not hold, by a trial of every choice.
    pub fn tried(&self, runs: &[Vec<Point>], wanted: &[Point]) -> Option<Clause> {
        let mut clause = Some(Clause::Meeting);
        for choice in 0..1u32 << runs.len() {
            let directed = |(place, run): (usize, &Vec<Point>)| match choice >> place & 1 {
                1 => run.iter().rev().copied().collect(),
                _ => run.clone(),
            };
            let laid: Vec<Vec<Point>> = runs.iter().enumerate().map(directed).collect();
            let meets = |two: &[Vec<Point>]| self.meet(two[0][two[0].len() - 1], two[1][0]);
            if laid.windows(2).all(meets) {
                if agree(&end_to_end(&laid.concat()), wanted) {
                    return None;
                }
                clause = Some(Clause::Coordinates);
            }
        }
        clause
    }

    /// The same for any number of lines: forward, with every direction of the last line and every number
    /// of coordinates that a choice can have come to. Which of the two last clauses does not hold is not
    /// told apart.
    pub fn followed(&self, runs: &[Vec<Point>], wanted: &[Point]) -> Option<Clause> {
        let mut states: Vec<(Point, usize)> = Vec::new();
        for (k, run) in runs.iter().enumerate() {
            let mut next: Vec<(Point, usize)> = Vec::new();
            for turned in [false, true] {
                let mut run = run.clone();
                if turned {
                    run.reverse();
                }
                let left = run[run.len() - 1];
                let mut from: Vec<usize> = match k {
                    0 => vec![0],
                    _ => states
                        .iter()
                        .filter(|(end, _)| self.meet(*end, run[0]))
                        .map(|s| s.1)
                        .collect(),
                };
                from.sort_unstable();
                from.dedup();
                next.extend(
                    from.into_iter().filter_map(|at| Some((left, laid_on(wanted, at, &run)?))),
                );
            }
            next.sort_unstable();
            next.dedup();
            states = next;
        }
        let ends = runs.is_empty() && wanted.is_empty()
            || states.iter().any(|&(_, at)| at == wanted.len());
        (!ends).then_some(Clause::Coordinates)
    }
}

/// Points laid end to end, without any that equals the last written.
pub fn end_to_end(points: &[Point]) -> Vec<Point> {
    let mut laid: Vec<Point> = Vec::new();
    for &point in points {
        if !matches!(laid.last(), Some(&last) if same(last, point)) {
            laid.push(point);
        }
    }
    laid
}

/// True where points equal others, number by number by `==`.
fn agree(points: &[Point], others: &[Point]) -> bool {
    points.len() == others.len() && points.iter().zip(others).all(|(&a, &b)| same(a, b))
}

/// How many of the wanted points are laid when a run follows on so many, if it is what is wanted.
fn laid_on(wanted: &[Point], mut at: usize, run: &[Point]) -> Option<usize> {
    for &point in run {
        if at > 0 && same(wanted[at - 1], point) {
            continue;
        }
        if !same(*wanted.get(at)?, point) {
            return None;
        }
        at += 1;
    }
    Some(at)
}
