//! Building calls that are accepted at the edge, and every damage to one.

use crate::{short_rooms, shorter, Lent, NO_LIMITS, NO_PLACES};
use answers::random::Random;
use answers::styles::heights::with_extras;
use answers::{BuildCall, BORDER};
use compare::building::BuildRooms;

/// A building call with the shortages of its rooms.
pub type LentLines = Lent<BuildCall, 8>;

type Damage = crate::Damage<BuildCall, 8>;

fn damage(refusal: i64, name: &str, apply: impl Fn(&mut BuildCall) + 'static) -> Damage {
    crate::damage(refusal, name, apply)
}

/// The lengths of the rooms that are lent: short ones where there are too many lines.
pub fn lengths(lent: &LentLines) -> [usize; 8] {
    match lent.call.lines() {
        0..=4_096 => lent.left(BuildRooms::lengths(&lent.call)),
        _ => [500; 8],
    }
}

/// The greatest number, after which the infinity follows.
const GREATEST: u64 = 0x7fef_ffff_ffff_ffff;

/// Calls that are accepted, each at an edge of the refusals.
pub fn accepted() -> Vec<(&'static str, BuildCall)> {
    let mut small = BuildCall::default();
    small.push_plain(&[(0.0, 0.0), (1.0, 0.0)]);
    small.push_plain(&[(1.0, 0.0), (2.0, 0.0), (3.0, 0.0)]);
    small.push(&[[GREATEST, GREATEST | 1 << 63]], u32::MAX, 1);
    small.limit = f64::NAN.to_bits();
    small.origin = [GREATEST | 1 << 63, GREATEST];
    let mut edge = small.clone();
    edge.kinds.fill(1);
    (edge.switch, edge.limit) = (1, 1f64.to_bits());
    let high = |call: &BuildCall, wkb_type| with_extras(&mut Random::new(2), call, wkb_type);
    vec![
        ("small, heights", high(&small, 1002)),
        ("kinds of 1, switch 1, limit 1, heights and measures", high(&edge, 3002)),
        ("small", small),
        ("kinds of 1, switch 1, limit 1", edge),
        ("largest, heights and measures", high(&largest(), 3002)),
        ("largest", largest()),
        ("a whole share of the first district", shares(2_048, [0, BORDER - 1])),
        ("a whole share of the second district", shares(2_048, [BORDER, u32::MAX])),
    ]
}

/// How many of these calls are small.
pub const SMALL: usize = 4;

/// 4,096 lines of 65,536 coordinates in all, in turn of the last group of the first district and of the
/// first of the second, switch 1, limit -1.
fn largest() -> BuildCall {
    shares(4_096, [BORDER - 1, BORDER])
}

/// So many lines of 16 coordinates, of two groups in turn, switch 1, limit -1.
fn shares(lines: u64, groups: [u32; 2]) -> BuildCall {
    let mut call = BuildCall { switch: 1, limit: (-1f64).to_bits(), ..BuildCall::default() };
    for line in 0..lines {
        let points: Vec<_> = (0..16).map(|k| [line << 32 | k, k]).collect();
        call.push(&points, groups[(line % 2) as usize], (line / 2 % 2) as u8);
    }
    call
}

/// Every damage: of lines and the origin, of switch and limit, and of rooms.
pub fn damages() -> Vec<Damage> {
    let mut all = of_lines();
    all.extend(settings());
    all.extend(short_rooms([
        "table",
        "members",
        "marks",
        "listing",
        "merged",
        "boxes",
        "spare",
        "workspace",
    ]));
    all
}

/// The damages of lines and of the origin.
pub fn of_lines() -> Vec<Damage> {
    let mut all = types();
    all.extend(numbers());
    all.extend(counts());
    all.extend(districts());
    all.extend(places());
    all.extend(origins());
    all
}

/// Refusal 12: a type that is none of the four.
fn types() -> Vec<Damage> {
    let of = |wkb_type: u32| {
        damage(12, &format!("type {wkb_type:#x}"), move |call| call.wkb_type = wkb_type)
    };
    [0, 3, 1003, 0x8000_0002].map(of).into_iter().collect()
}

fn more_lines(call: &mut BuildCall, lines: usize) {
    call.counts.resize(lines, 0);
    call.groups.resize(lines, 0);
    call.kinds.resize(lines, 0);
}

/// Refusals 1 to 3: too many lines, tables that differ in length, kinds that are none.
fn numbers() -> Vec<Damage> {
    vec![
        damage(1, "4,097 lines", |call| more_lines(call, 4_097)),
        damage(1, "70,000 lines", |call| more_lines(call, 70_000)),
        damage(1, "4,097 counts alone", |call| call.counts.resize(4_097, 0)),
        damage(2, "groups short by one", |call| shorter(&mut call.groups)),
        damage(2, "groups long by one", |call| call.groups.push(0)),
        damage(2, "no groups", |call| call.groups.clear()),
        damage(2, "kinds short by one", |call| shorter(&mut call.kinds)),
        damage(2, "kinds long by one", |call| call.kinds.push(0)),
        damage(2, "no kinds", |call| call.kinds.clear()),
        damage(2, "counts short by one", |call| shorter(&mut call.counts)),
        damage(3, "first kind 2", |call| call.kinds.iter_mut().take(1).for_each(|kind| *kind = 2)),
        damage(3, "last kind 255", |call| {
            call.kinds.iter_mut().rev().take(1).for_each(|kind| *kind = 255)
        }),
    ]
}

/// Refusals 4 and 5: counts that do not add up, and too many coordinates.
fn counts() -> Vec<Damage> {
    vec![
        damage(4, "first count one more", |call| call.counts[0] = call.counts[0].wrapping_add(1)),
        damage(4, "first count one less", |call| call.counts[0] = call.counts[0].wrapping_sub(1)),
        damage(4, "coordinates long by one", |call| call.coordinates.push(0)),
        damage(4, "coordinates short by one", |call| shorter(&mut call.coordinates)),
        damage(4, "coordinates long by two", |call| call.coordinates.extend([0, 0])),
        damage(4, "no coordinates", |call| call.coordinates.clear()),
        damage(4, "the largest count", |call| call.counts[0] = u32::MAX),
        damage(4, "all counts the largest", |call| call.counts.fill(u32::MAX)),
        damage(4, "counts that add up but for 2^32", |call| {
            call.counts[0] = call.counts[0].wrapping_add(1 << 31);
            call.counts[1] = call.counts[1].wrapping_add(1 << 31);
        }),
        damage(4, "counts whose double adds up but for 2^32", |call| {
            call.counts[0] = call.counts[0].wrapping_add(1 << 31);
        }),
        damage(4, "counts whose fourfold adds up but for 2^32", |call| {
            call.counts[0] = call.counts[0].wrapping_add(1 << 30);
        }),
        damage(4, "a type of more numbers, or of fewer", |call| {
            call.wkb_type = match call.wkb_type {
                2 => 2002,
                1002 => 3002,
                _ => 2,
            };
        }),
        damage(5, "65,537 coordinates", |call| {
            let (numbers, stride) = (call.coordinates.len(), call.stride());
            let more = 65_537 - numbers / stride;
            call.coordinates.resize(numbers + stride * more, 0);
            call.counts[0] += more as u32;
        }),
        damage(5, "200,000 coordinates", |call| {
            call.coordinates.extend(vec![0; 200_000 * call.stride()]);
            call.counts[0] += 200_000;
        }),
    ]
}

/// Refusals 20 and 21: a district with more lines, or coordinates, than its share.
fn districts() -> Vec<Damage> {
    let mut all = Vec::new();
    for (district, name) in ["first", "second"].into_iter().enumerate() {
        for (more, by) in [(1, "one"), (1_000, "a thousand")] {
            let lines = format!("{name} district over its lines by {by}");
            all.push(damage(20, &lines, move |call| crowd(call, district, 2_048 + more)));
            let points = format!("{name} district over its coordinates by {by}");
            all.push(damage(21, &points, move |call| lengthen(call, district, 32_768 + more)));
        }
    }
    all
}

/// Gives a district so many lines: of no coordinates as long as a call may have more, and then of the
/// other's.
fn crowd(call: &mut BuildCall, district: usize, lines: usize) {
    let group = [BORDER - 1, BORDER][district];
    let need = lines - call.lines_brought()[district];
    let more = need.min(4_096 - call.lines());
    (0..more).for_each(|_| call.push(&[], group, 1));
    let others = call.groups.iter_mut().filter(|group| usize::from(**group >= BORDER) != district);
    others.take(need - more).for_each(|other| *other = group);
}

/// Gives a district so many coordinates, in its first line or, where it has none, in the call's: further
/// ones as long as a call may have more, and then the other's.
fn lengthen(call: &mut BuildCall, district: usize, points: usize) {
    let own = (0..call.lines()).find(|&line| call.district(line) == district);
    let long = own.unwrap_or(0);
    call.groups[long] = own.map_or([BORDER - 1, BORDER][district], |own| call.groups[own]);
    let need = points - call.points_brought()[district];
    let all = call.coordinates.len() / call.stride() + need;
    call.coordinates.resize(call.stride() * all.min(65_536), 0);
    call.counts[long] += need as u32;
    let mut over = all.saturating_sub(65_536) as u32;
    for line in (0..call.lines()).rev() {
        if call.district(line) != district {
            let less = over.min(call.counts[line]);
            call.counts[line] -= less;
            over -= less;
        }
    }
}

/// Refusal 15: an x or a y that is no place's, of the first coordinate and of the last. In the
/// smallest call the last is a line's that passes through, of one coordinate.
fn places() -> Vec<Damage> {
    let mut all = Vec::new();
    for lost in NO_PLACES {
        let name = |place: &str| format!("{place} {:?} ({lost:x})", f64::from_bits(lost));
        let put = |from_last: bool, k: usize| {
            move |call: &mut BuildCall| {
                let (stride, numbers) = (call.stride(), &mut call.coordinates);
                let last = numbers.len().checked_sub(stride);
                let at = if from_last { last.map(|first| first + k) } else { Some(k) };
                at.and_then(|at| numbers.get_mut(at)).into_iter().for_each(|it| *it = lost);
            }
        };
        all.push(damage(15, &name("first x"), put(false, 0)));
        all.push(damage(15, &name("first y"), put(false, 1)));
        all.push(damage(15, &name("last x"), put(true, 0)));
        all.push(damage(15, &name("last y"), put(true, 1)));
    }
    all.push(damage(15, "every number NaN", |call| call.coordinates.fill(u64::MAX)));
    all
}

/// Refusal 6: a switch that is none, and limits that are none under switch 1.
fn settings() -> Vec<Damage> {
    let mut all = vec![
        damage(6, "switch 2", |call| call.switch = 2),
        damage(6, "switch 255", |call| (call.switch, call.limit) = (255, 0)),
    ];
    for limit in NO_LIMITS {
        let name = format!("limit {:?}", f64::from_bits(limit));
        all.push(damage(6, &name, move |call| (call.switch, call.limit) = (1, limit)));
    }
    all
}

/// Refusal 17: an origin that is no place, by x, by y and by both.
fn origins() -> Vec<Damage> {
    let mut all = Vec::new();
    for lost in NO_PLACES {
        for (k, name) in ["x", "y"].into_iter().enumerate() {
            let name = format!("origin's {name} {:?} ({lost:x})", f64::from_bits(lost));
            all.push(damage(17, &name, move |call| call.origin[k] = lost));
        }
    }
    all.push(damage(17, "origin NaN", |call| call.origin = [u64::MAX; 2]));
    all
}
