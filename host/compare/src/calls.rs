//! The calls of a run: every style of the recorded answers and arbitrary bits, with points put into
//! some of the lines, with cells counted from an origin, with lines of two districts, and with heights and
//! measures in some calls.
//! The seed and the number of a call determine it.

use answers::random::Random;
use answers::styles::{
    deliveries, districts, heights, junctions, origins, pairing, parting, wild, windows, Style,
    BUILDING, PAIRING,
};
use answers::{offset, BuildCall, CheckCall, FinishCall, PairingCall, WhyCall, WindowCall, TYPES};
use lovasuku_chains::size::{MOST_DISTRICT_POINTS, MOST_ENDS, MOST_LINES, MOST_POINTS};

/// A call of either sort.
#[derive(Clone, Debug)]
pub enum Call {
    /// A building call.
    Build(BuildCall),
    /// A pairing call.
    Pairs(PairingCall),
    /// A question about two ends of one.
    Why(WhyCall),
    /// A question what lies in a window.
    Window(WindowCall),
    /// Chains made elsewhere, to be judged.
    Check(CheckCall),
    /// Pieces to be finished.
    Finish(FinishCall),
}

/// A call with the name of its style, and the seed of the rooms that are lent to it.
pub struct Numbered {
    /// The style.
    pub style: &'static str,
    /// The call.
    pub call: Call,
    /// The seed of its rooms.
    pub rooms: u64,
}

/// One call in so many is of real size.
const REAL: u64 = 2_000;

/// One building call in so many has a coordinate that is no place, beside those whose style has.
const LOST: usize = 16;

/// One call in so many asks what lies in a window, over boxes that no building left: those at this place
/// of each run of so many. One of these in so many has as many chains as a building call may have.
const WINDOWS: u64 = 8;
const AT: u64 = 3;
const LARGE: usize = 256;

/// One call in so many judges chains made elsewhere: those at this place of each run of so many. Half of them
/// are of few points, which may be travelled in many ways.
const CHECKS: u64 = 8;
const CHECKED_AT: u64 = 5;

/// The most lines of such a delivery of few points.
const AMBIGUOUS: usize = 10;

/// One call in so many finishes pieces: those at this place of each run of so many.
const FINISHES: u64 = 8;
const FINISHED_AT: u64 = 1;

/// One building call in so many has an origin, beside those whose style has.
const ORIGINS: usize = 3;

/// One building call in so many has lines of two districts; of those of real size all but one in so many.
const DIVIDED: usize = 3;

/// One building call in so many of those that are not of real size has a district at the edge of its share.
const CROWDED: usize = 64;

/// One call in so many has the limit of an offset.
const OFFSETS: usize = 4;

/// One building call in so many has extras: heights, measures or both.
const HIGH: usize = 3;

/// One building call in so many has a type that is none of the four.
const UNTYPED: usize = 128;

/// Numbers that are no type of a line: those beside the four, what others write for heights, and any.
const NO_TYPES: [u32; 12] =
    [0, 1, 3, 1001, 1003, 2001, 2003, 3001, 4002, 0x8000_0002, 0x4000_0002, u32::MAX];

/// The bits of the exponent, which are all set in a NaN and in an infinity.
const EXPONENT: u64 = 0x7ff0_0000_0000_0000;

/// The most ends of a call with directions that are not finite, for which the Rust lists all pairs.
const MOST_WILD_ENDS: usize = 2_048;

/// Call `number` of the run with a seed.
pub fn numbered(seed: u64, number: u64) -> Numbered {
    let mut random = Random::new(Random::new(seed).bits() ^ Random::new(!number).bits());
    let rooms = random.bits();
    let real = number % REAL == REAL - 1;
    if number % WINDOWS == AT {
        let large = random.one_in(LARGE);
        let size = size(&mut random, large, MOST_LINES);
        let call = Call::Window(windows::boxes(&mut random, size));
        return Numbered { style: "boxes", call, rooms };
    }
    if number % FINISHES == FINISHED_AT {
        let (_, lines) = building(&mut random, false, &mut Random::new(!rooms));
        let (style, call) = parting::lent(&mut random, lines);
        return Numbered { style, call: Call::Finish(call), rooms };
    }
    if number % CHECKS == CHECKED_AT {
        let (style, call) = delivery(&mut random, &mut Random::new(!rooms));
        return Numbered { style, call: Call::Check(call), rooms };
    }
    if random.one_in(3) {
        let styles: Vec<Style<PairingCall>> = PAIRING.into_iter().chain(ADDED_PAIRS).collect();
        let (style, make) = random.pick(&styles);
        let size = size(&mut random, real, MOST_ENDS);
        let mut call = make(&mut random, size);
        if !call.finite() {
            truncate(&mut call, MOST_WILD_ENDS);
        }
        bend(&mut random, &mut call.limit);
        let call = match random.one_in(2) {
            true => Call::Why(WhyCall { ends: two_ends(&mut random, &call), pairing: call }),
            false => Call::Pairs(call),
        };
        return Numbered { style, call, rooms };
    }
    let (style, call) = building(&mut random, real, &mut Random::new(!rooms));
    Numbered { style, call: Call::Build(call), rooms }
}

/// A delivery of chains, with the name of what they were made by or of what was done to them.
fn delivery(random: &mut Random, apart: &mut Random) -> (&'static str, CheckCall) {
    match random.one_in(2) {
        true => {
            let lines = random.below(AMBIGUOUS + 1);
            deliveries::ambiguous(random, lines)
        }
        false => {
            let (_, lines) = building(random, false, apart);
            deliveries::delivered(random, lines)
        }
    }
}

/// A building call with the name of its style. Districts are of a chance of their own.
fn building(random: &mut Random, real: bool, apart: &mut Random) -> (&'static str, BuildCall) {
    let styles: Vec<Style<BuildCall>> = BUILDING.into_iter().chain(ADDED).collect();
    let (style, make) = random.pick(&styles);
    let size = size(random, real, MOST_LINES);
    let mut call = make(random, size);
    if apart.one_in(DIVIDED) != real {
        call = districts::divided(apart, call);
    }
    let more = match real {
        true => random.pick(&[0, MOST_POINTS]),
        false => random.pick(&[0, 0, 0, 0, 0, 24]),
    };
    call = stretched(random, call, more);
    if !real && apart.one_in(CROWDED) {
        call = districts::crowded(apart, call);
    }
    if random.one_in(LOST) {
        lose(random, &mut call);
    }
    if random.one_in(ORIGINS) {
        call = origins::with_origin(random, &call);
    }
    if random.one_in(HIGH) {
        let wkb_type = random.pick(&TYPES[1..]);
        call = heights::with_extras(random, &call, wkb_type);
    }
    if random.one_in(UNTYPED) {
        call.wkb_type = random.pick(&NO_TYPES);
    }
    bend(random, &mut call.limit);
    (style, call)
}

/// Makes the limit that of an offset, once in so many calls: often the least or the greatest.
fn bend(random: &mut Random, limit: &mut u64) {
    if random.one_in(OFFSETS) {
        let some = random.below(offset::MOST as usize + 1) as u32;
        let chosen = random.pick(&[some, some, some, 0, 1, offset::MOST]);
        *limit = offset::limit(chosen).map_or(*limit, f64::to_bits);
    }
}

/// Puts a NaN or an infinity somewhere into a line of x and y, which passes through once in two.
fn lose(random: &mut Random, call: &mut BuildCall) {
    if call.lines() == 0 {
        return;
    }
    let line = random.below(call.lines());
    let (first, numbers) = (2 * call.firsts()[line], 2 * call.counts[line] as usize);
    if numbers > 0 {
        let lost = [EXPONENT, EXPONENT | 1 << 63, EXPONENT | random.bits()];
        call.coordinates[first + random.below(numbers)] = random.pick(&lost);
        call.kinds[line] |= u8::from(random.one_in(2));
    }
}

/// Arbitrary bits of a finite number.
fn place(random: &mut Random) -> u64 {
    let bits = random.bits();
    bits ^ if bits & EXPONENT == EXPONENT { 1 << 62 } else { 0 }
}

fn truncate(call: &mut PairingCall, ends: usize) {
    call.present.truncate(ends);
    call.directions.truncate(2 * ends);
    call.pieces.truncate(ends);
}

/// Two ends of a call, in either order, now and then of one piece; or numbers that are not those of
/// two ends.
fn two_ends(random: &mut Random, call: &PairingCall) -> [u32; 2] {
    let d = call.ends();
    let one = random.below(d.max(1)) as u32;
    let other = match random.below(8) {
        0 => random.pick(&[d as u32, d as u32 + 1, u32::MAX, one]),
        1 => {
            let piece = call.pieces.get(one as usize);
            let same = (0..d).find(|&end| call.pieces.get(end) == piece && end != one as usize);
            same.unwrap_or(0) as u32
        }
        _ => random.below(d.max(1)) as u32,
    };
    random.pick(&[[one, other], [other, one]])
}

/// A real size, often the most, or a small one.
fn size(random: &mut Random, real: bool, most: usize) -> usize {
    if real {
        let some = most - random.below(most / 2);
        return random.pick(&[most, most, some, most >> 3]);
    }
    match random.below(100) {
        0..=2 => 41 + random.below(160),
        3..=24 => 9 + random.below(32),
        _ => random.below(9),
    }
}

/// The call with up to so many points put into its lines, half of them in each district's, as long as a
/// district may have them.
fn stretched(random: &mut Random, call: BuildCall, more: usize) -> BuildCall {
    if more == 0 {
        return call;
    }
    let room = |points| (more / 2).min(MOST_DISTRICT_POINTS.saturating_sub(points));
    let (mut left, mut lines) = (call.points_brought().map(room), call.lines_brought());
    let BuildCall { tolerance, origin, switch, limit, .. } = call;
    let mut longer = BuildCall { tolerance, origin, switch, limit, ..BuildCall::default() };
    for (line, first) in call.firsts().into_iter().enumerate() {
        let mut points = call.points(line, first);
        let (left, lines) = (&mut left[call.district(line)], &mut lines[call.district(line)]);
        let share = if *lines == 1 { *left } else { random.below(1 + 2 * *left / *lines) };
        if points.len() > 1 {
            let place = 1 + random.below(points.len() - 1);
            let run: Vec<_> = (0..share).map(|_| inner(random, points[place])).collect();
            points.splice(place..place, run);
            *left -= share;
        }
        *lines -= 1;
        longer.push(&points, call.groups[line], call.kinds[line]);
    }
    longer
}

/// A point within a line: arbitrary, a repeat of its neighbour, or one near the origin.
fn inner(random: &mut Random, neighbour: [u64; 2]) -> [u64; 2] {
    match random.below(4) {
        0 => [place(random), place(random)],
        1 => neighbour,
        _ => [random.unit().to_bits(), random.unit().to_bits()],
    }
}

/// The styles of pairing calls that this comparison adds.
const ADDED_PAIRS: [Style<PairingCall>; 2] = [("short", pairing::short), ("rim", pairing::rim)];

/// The styles of building calls that this comparison adds.
const ADDED: [Style<BuildCall>; 4] =
    [("tiny", tiny), ("any bits", any_bits), ("far", wild::far), ("tiles", origins::tiles)];

/// Up to four lines of two or three points on a grid of four: the unit square, zeros of both signs,
/// or places about the edge of a cell.
fn tiny(random: &mut Random, lines: usize) -> BuildCall {
    let grids = [
        [(0.0, 0.0), (1.0, 0.0), (0.0, 1.0), (1.0, 1.0)],
        [(0.0, 0.0), (-0.0, 0.0), (1.0, 0.0), (1.0, -0.0)],
        [(0.25, 0.0), (1.25, 0.0), (1.75, 0.0), (2.0, 0.0)],
    ];
    let grid = random.pick(&grids);
    let mut call = BuildCall::default();
    for _ in 0..lines % 5 {
        let points: Vec<_> = (0..2 + random.below(2)).map(|_| random.pick(&grid)).collect();
        call.push_plain(&points);
    }
    let switch = random.one_in(2);
    junctions(random, &mut call, switch);
    call.tolerance = random.pick(&[0.0f64, 1.0, 2.0]).to_bits();
    call
}

/// Lines of arbitrary places whose ends are shared, with an arbitrary tolerance.
fn any_bits(random: &mut Random, lines: usize) -> BuildCall {
    let ends: Vec<_> = (0..1 + lines).map(|_| [place(random), place(random)]).collect();
    let mut call = BuildCall::default();
    for _ in 0..lines {
        let inner = random.below(4);
        let mut line = vec![random.pick(&ends)];
        line.extend((0..inner).map(|_| [place(random), place(random)]));
        line.push(random.pick(&ends));
        call.push(&line, 0, 0);
    }
    let switch = random.one_in(2);
    junctions(random, &mut call, switch);
    call.tolerance = if random.one_in(2) { random.bits() } else { 0 };
    call
}
