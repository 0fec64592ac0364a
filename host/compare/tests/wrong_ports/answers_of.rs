//! Right answers, and wrong ones that a port could plausibly give.

use answers::model::plane::{cell_key, exact_key, measure, same, Point};
use answers::model::reasons::{told, Told};
use answers::model::{built, built_by, Model};
use answers::{BuildCall, Built, Pair, PairingCall, Port, Route, WhyCall};

/// The right answer.
pub fn right(call: &BuildCall) -> Built {
    built(call)
}

/// The right pairs.
pub fn right_pairs(call: &PairingCall) -> Vec<Pair> {
    Model.pairs(Route::Plain, call).expect("the model refuses no pairing")
}

/// The right reason.
pub fn right_reason(call: &WhyCall) -> i64 {
    told(call, &right_pairs(&call.pairing)).answer()
}

/// Names the last selected pair that has one of two ends, not the first.
pub fn last_that_blocks(call: &WhyCall) -> i64 {
    let pairs = right_pairs(&call.pairing);
    let blocks = |pair: &Pair| call.ends.iter().any(|end| pair.contains(end));
    match told(call, &pairs) {
        Told::Blocked(_) => 4 + pairs.iter().rposition(blocks).unwrap() as i64,
        right => right.answer(),
    }
}

/// Looks at the directions before it looks at the pieces.
pub fn absent_before_same_piece(call: &WhyCall) -> i64 {
    let absent = |&end: &u32| call.pairing.direction(end as usize).is_none();
    match right_reason(call) {
        1 if call.ends.iter().any(absent) => 2,
        right => right,
    }
}

/// Knows a selected pair only where the lower end is asked about first.
pub fn order_minded(call: &WhyCall) -> i64 {
    let [i, j] = call.ends;
    match right_reason(call) {
        0 if i > j => 4 + told_place(call),
        right => right,
    }
}

/// The place of the first selected pair that has one of the two ends.
fn told_place(call: &WhyCall) -> i64 {
    let blocks = |pair: &Pair| call.ends.iter().any(|end| pair.contains(end));
    right_pairs(&call.pairing).iter().position(blocks).unwrap() as i64
}

/// Takes an end twice for two ends of one piece.
pub fn one_end_taken_for_two(call: &WhyCall) -> i64 {
    let [i, j] = call.ends;
    match i == j && (i as usize) < call.pairing.ends() {
        true => 1,
        false => right_reason(call),
    }
}

/// True where round two runs.
fn snaps(call: &BuildCall) -> bool {
    f64::from_bits(call.tolerance) > 0.0
}

/// The lines of each merged chain laid end to end as members and marks say, each coordinate put to the
/// chain so far by the given rule. (Where round two runs the answer is right.)
fn laid(call: &BuildCall, next: fn(&mut Vec<u64>, &[u64], usize)) -> Built {
    let mut built = right(call);
    if snaps(call) {
        return built;
    }
    let (firsts, stride) = (call.firsts(), call.stride());
    built.merged.clear();
    for record in built.table.iter_mut().filter(|record| record[2] == 1) {
        let members = record[0] as usize..(record[0] + record[1]) as usize;
        let mut chain = Vec::new();
        for member in members {
            let line = built.members[member] as usize;
            let mut coordinates: Vec<&[u64]> =
                call.numbers(line, firsts[line]).chunks(stride).collect();
            if built.marks[member] == 1 {
                coordinates.reverse();
            }
            coordinates.iter().for_each(|coordinate| next(&mut chain, coordinate, stride));
        }
        record[3] = (built.merged.len() / stride) as u32;
        record[4] = (chain.len() / stride) as u32;
        built.merged.extend(chain);
    }
    built
}

/// True where the last coordinate of a chain has the x and y of another.
fn repeats(chain: &[u64], coordinate: &[u64], stride: usize) -> bool {
    let place = |numbers: &[u64]| [0, 1].map(|k| f64::from_bits(numbers[k]));
    !chain.is_empty() && place(&chain[chain.len() - stride..]) == place(coordinate)
}

/// Keeps the coordinate that two joined lines share.
pub fn repeats_kept(call: &BuildCall) -> Built {
    laid(call, |chain, coordinate, _| chain.extend(coordinate))
}

/// Drops the earlier one of two coordinates with the same x and y, or its extras alone.
pub fn later_extras_kept(call: &BuildCall) -> Built {
    laid(call, |chain, coordinate, stride| {
        if repeats(chain, coordinate, stride) {
            let last = chain.len() - stride;
            chain[last + 2..].copy_from_slice(&coordinate[2..]);
        } else {
            chain.extend(coordinate);
        }
    })
}

/// Takes two coordinates for a repeat only where their extras agree too.
pub fn extras_compared(call: &BuildCall) -> Built {
    laid(call, |chain, coordinate, stride| {
        let same = repeats(chain, coordinate, stride) && chain.ends_with(&coordinate[2..]);
        if !same {
            chain.extend(coordinate);
        }
    })
}

/// Leaves the extras of merged coordinates out, as 0.
pub fn extras_left_out(call: &BuildCall) -> Built {
    let mut built = right(call);
    built.merged.chunks_mut(call.stride()).for_each(|numbers| numbers[2..].fill(0));
    built
}

/// Writes a NaN among the extras as the one NaN.
pub fn one_nan(call: &BuildCall) -> Built {
    let mut built = right(call);
    for number in &mut built.merged {
        if f64::from_bits(*number).is_nan() {
            *number = f64::NAN.to_bits();
        }
    }
    built
}

/// Takes the extras of the line that lies at the other end.
pub fn extras_unturned(call: &BuildCall) -> Built {
    let mut turned = call.clone();
    let stride = call.stride();
    for (line, first) in call.firsts().into_iter().enumerate() {
        let numbers = stride * first..stride * (first + call.counts[line] as usize);
        let mut reversed: Vec<&[u64]> = call.coordinates[numbers.clone()].chunks(stride).collect();
        reversed.reverse();
        let places = turned.coordinates[numbers].chunks_mut(stride);
        places.zip(reversed).for_each(|(to, from)| to[2..].copy_from_slice(&from[2..]));
    }
    right(&turned)
}

/// Reverses the members that were turned one after another, as the coordinates are.
pub fn members_reversed(call: &BuildCall) -> Built {
    let mut built = right(call);
    for record in &built.table {
        let (mut first, count) = (record[0] as usize, record[1] as usize);
        let marks = built.marks[first..first + count].to_vec();
        for run in marks.split(|&mark| mark == 0) {
            built.members[first..first + run.len()].reverse();
            first += run.len() + 1;
        }
    }
    built
}

/// The right answer with other loop marks, each by the source and the points of its chain.
fn loops(call: &BuildCall, looped: fn(u32, &[Point]) -> bool) -> Built {
    let mut built = right(call);
    for record in &mut built.table {
        let from = if record[2] == 0 { &call.coordinates } else { &built.merged };
        let points = from.chunks(call.stride()).map(|numbers| [numbers[0], numbers[1]]);
        let points: Vec<Point> = points.skip(record[3] as usize).take(record[4] as usize).collect();
        record[5] = u32::from(looped(record[2], &points));
    }
    built
}

/// True where the first point and the last are equal by a rule, of so many points at least.
fn closes(points: &[Point], least: usize, equal: fn(Point, Point) -> bool) -> bool {
    points.len() >= least && equal(points[0], points[points.len() - 1])
}

/// Compares first and last by `==`.
pub fn loops_by_value(call: &BuildCall) -> Built {
    loops(call, |_, points| closes(points, 3, same))
}

/// Takes two coordinates for a loop.
pub fn loops_of_two(call: &BuildCall) -> Built {
    loops(call, |_, points| closes(points, 2, |a, b| a == b))
}

/// Asks for four coordinates, as a ring of a polygon has.
pub fn loops_of_four(call: &BuildCall) -> Built {
    loops(call, |_, points| closes(points, 4, |a, b| a == b))
}

/// Looks at merged chains alone.
pub fn loops_of_merged_alone(call: &BuildCall) -> Built {
    loops(call, |source, points| source == 1 && closes(points, 3, |a, b| a == b))
}

/// Compares x alone.
pub fn loops_by_x(call: &BuildCall) -> Built {
    loops(call, |_, points| closes(points, 3, |a, b| a[0] == b[0]))
}

/// Compares the extras of first and last too.
pub fn loops_by_extras(call: &BuildCall) -> Built {
    let mut built = right(call);
    for record in &mut built.table {
        let from = if record[2] == 0 { &call.coordinates } else { &built.merged };
        let run = from.chunks(call.stride()).skip(record[3] as usize).take(record[4] as usize);
        let run: Vec<&[u64]> = run.collect();
        record[5] = u32::from(run.len() > 2 && run[0] == run[run.len() - 1]);
    }
    built
}

/// Knows of no turned line.
pub fn unturned(call: &BuildCall) -> Built {
    let mut built = right(call);
    built.marks.fill(0);
    built
}

/// The chains by round one alone, each with the marks that it has there.
fn pieces(call: &BuildCall) -> Built {
    right(&BuildCall { tolerance: 0, ..call.clone() })
}

/// The mark of a line.
fn mark_of(built: &Built, line: u32) -> u8 {
    let place = built.members.iter().position(|&member| member == line);
    place.map_or(0, |place| built.marks[place])
}

/// Marks by round two alone, where it runs: what it turned, whatever round one did.
pub fn marks_of_round_two(call: &BuildCall) -> Built {
    let (mut built, before) = (right(call), pieces(call));
    if snaps(call) {
        for (mark, &line) in built.marks.iter_mut().zip(&built.members) {
            *mark ^= mark_of(&before, line);
        }
    }
    built
}

/// Marks by round one alone.
pub fn marks_of_round_one(call: &BuildCall) -> Built {
    let (built, before) = (right(call), pieces(call));
    let marks = built.members.iter().map(|&line| mark_of(&before, line)).collect();
    Built { marks, ..built }
}

/// Marks in the listing's order.
pub fn marks_in_listing_order(call: &BuildCall) -> Built {
    let built = right(call);
    let marks = built.listing.iter().map(|&line| mark_of(&built, line)).collect();
    Built { marks, ..built }
}

/// The members in the listing's place.
pub fn members_for_listing(call: &BuildCall) -> Built {
    let built = right(call);
    Built { listing: built.members.clone(), ..built }
}

/// A listing from the other end of each chain.
pub fn listing_backwards(call: &BuildCall) -> Built {
    let mut built = right(call);
    for record in &built.table {
        built.listing[record[0] as usize..(record[0] + record[1]) as usize].reverse();
    }
    built
}

/// Does round one and skips round two.
pub fn exact_alone(call: &BuildCall) -> Built {
    right(&BuildCall { tolerance: 0, ..call.clone() })
}

/// Counts cells from 0,0.
pub fn origin_ignored(call: &BuildCall) -> Built {
    right(&BuildCall { origin: [0; 2], ..call.clone() })
}

/// Takes the origin's x for y, and its y for x.
pub fn axes_exchanged(call: &BuildCall) -> Built {
    let [x, y] = call.origin;
    right(&BuildCall { origin: [y, x], ..call.clone() })
}

/// Adds the origin where it is to be taken away.
pub fn origin_added(call: &BuildCall) -> Built {
    right(&BuildCall { origin: call.origin.map(|bits| bits ^ 1 << 63), ..call.clone() })
}

/// Each number of a point with that of the origin.
fn from_origin(call: &BuildCall, point: Point, by: impl Fn(f64, f64) -> f64) -> Point {
    let of = |k: usize| by(f64::from_bits(point[k]), f64::from_bits(call.origin[k])).to_bits();
    [of(0), of(1)]
}

/// Divides the coordinate and the origin by the tolerance each, and takes the difference of the two.
pub fn quotient_first(call: &BuildCall) -> Built {
    let tolerance = f64::from_bits(call.tolerance);
    built_by(call, &exact_key, &|group, point| {
        let quotients = from_origin(call, point, |x, origin| x / tolerance - origin / tolerance);
        cell_key(group, quotients, [0; 2], 1.0)
    })
}

/// Takes the origin away from exact keys too.
pub fn origin_in_exact_keys(call: &BuildCall) -> Built {
    let tolerance = f64::from_bits(call.tolerance);
    let exact = |group, point| exact_key(group, from_origin(call, point, |x, origin| x - origin));
    built_by(call, &exact, &|group, point| cell_key(group, point, call.origin, tolerance))
}

/// Joins nothing.
pub fn single_lines(call: &BuildCall) -> Built {
    let groups = (0..call.lines() as u32).collect();
    exact_alone(&BuildCall { groups, ..call.clone() })
}

/// Takes both zeros for one key.
pub fn one_zero(call: &BuildCall) -> Built {
    let mut other = call.clone();
    for numbers in other.coordinates.chunks_mut(call.stride()) {
        let zeros = numbers[..2].iter_mut().filter(|bits| **bits == 1 << 63);
        zeros.for_each(|bits| *bits = 0);
    }
    right(&other)
}

/// Takes, of two pairs with one measure, the one whose higher end is lower.
pub fn ties_by_partner(call: &PairingCall) -> Vec<Pair> {
    let directions = call.all_directions();
    let mut found = Vec::new();
    for j in 0..call.ends() {
        for i in 0..j {
            if let (Some(a), Some(b)) = (directions[i], directions[j]) {
                let measure = measure(a, b);
                if call.pieces[i] != call.pieces[j] && measure <= f64::from_bits(call.limit) {
                    found.push((measure, j as u32, i as u32));
                }
            }
        }
    }
    found.sort_by(|a, b| a.partial_cmp(b).expect("no measure here is NaN"));
    let mut taken = vec![false; call.ends()];
    let mut pairs = Vec::new();
    for (_, j, i) in found {
        let ends = [i, j].map(|end| end as usize);
        if ends.iter().all(|&end| !taken[end]) {
            ends.iter().for_each(|&end| taken[end] = true);
            pairs.push([i, j]);
        }
    }
    pairs
}

/// Takes a direction of two zeros for none.
pub fn zeros_absent(call: &PairingCall) -> Vec<Pair> {
    let mut without = call.clone();
    for (mark, way) in without.present.iter_mut().zip(call.directions.chunks(2)) {
        if way.iter().all(|&bits| f64::from_bits(bits) == 0.0) {
            *mark = 0;
        }
    }
    right_pairs(&without)
}
