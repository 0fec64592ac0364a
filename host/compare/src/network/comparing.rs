//! One form of a network, by every setting and in every way.

use crate::large::{hold, hold_to_one};
use crate::lent;
use answers::{BuildCall, Built};
use lovasuku_chains::large::{Capacity, Cores, Rooms, Way};
use lovasuku_chains::{self as library, Settings};
use std::fmt;

/// Limits: none, and bends of 30, 60, 90 and 180 degrees.
const LIMITS: [Option<f64>; 5] =
    [None, Some(-0.8660254037844386), Some(-0.5), Some(0.0), Some(1.0)];

/// Deliveries of more coordinates are joined by fewer settings.
const MANY: usize = 400_000;

/// What was compared.
#[derive(Clone, Debug, Default, PartialEq, Eq)]
pub struct Tally {
    /// Deliveries, their lines and their points.
    pub deliveries: usize,
    /// Lines of all deliveries.
    pub lines: usize,
    /// Points of all deliveries.
    pub points: usize,
    /// Chains of what meets exactly, with no junction paired.
    pub chains: usize,
    /// Settings by which deliveries were joined.
    pub settings: usize,
    /// Answers that were held to the judge, one for each setting and way.
    pub answers: usize,
    /// Answers that were held to one call of the library too.
    pub in_one: usize,
    /// A sentence for each answer that differs.
    pub differ: Vec<String>,
}

impl Tally {
    /// Adds what else was compared.
    pub fn add(&mut self, other: Tally) {
        self.deliveries += other.deliveries;
        self.lines += other.lines;
        self.points += other.points;
        self.chains += other.chains;
        self.settings += other.settings;
        self.answers += other.answers;
        self.in_one += other.in_one;
        self.differ.extend(other.differ);
    }
}

impl fmt::Display for Tally {
    fn fmt(&self, f: &mut fmt::Formatter<'_>) -> fmt::Result {
        let Tally { deliveries, lines, points, chains, settings, answers, in_one, differ } = self;
        write!(f, "deliveries {deliveries}, lines {lines}, points {points}, chains {chains}, ")?;
        write!(f, "settings {settings}, answers {answers}, of these beside one call {in_one}, ")?;
        write!(f, "differ {}", differ.len())
    }
}

/// Joins a delivery by every setting and in every way, and holds it to what is wanted, and to one call of
/// the library where one holds it.
pub fn compare(call: &BuildCall, wanted: &dyn Fn(&BuildCall) -> Built) -> Tally {
    let points = call.coordinates.len() / call.stride();
    let mut tally = Tally { deliveries: 1, lines: call.lines(), points, ..Tally::default() };
    let mut rooms = Rooms::default();
    for call in by_settings(call) {
        let wanted = wanted(&call);
        if tally.settings == 0 {
            tally.chains = wanted.table.len();
        }
        tally.settings += 1;
        compare_ways(&mut rooms, &call, &wanted, &mut tally);
    }
    tally
}

/// Joins a delivery in every way.
fn compare_ways(rooms: &mut Rooms, call: &BuildCall, wanted: &Built, tally: &mut Tally) {
    let coordinates = lent::coordinates(call);
    let (lines, settings) = (lent::lines(call, &coordinates), lent::settings(call));
    let mut one = library::Rooms::default();
    let one = one.build(lines, settings).ok();
    for way in ways() {
        let joined = rooms.build_by(lines, settings, way).map_err(|fault| fault.to_string());
        let held = joined.and_then(|joined| {
            hold(&joined, wanted)?;
            one.as_ref().map_or(Ok(()), |one| hold_to_one(&joined, one))
        });
        tally.answers += 1;
        tally.in_one += usize::from(one.is_some());
        if let Err(fault) = held {
            tally.differ.push(format!("{fault} ({settings:?}, {way:?})"));
        }
    }
}

/// On one core and on all, in batches of hardly anything, and in calls that hold little.
fn ways() -> [Way<'static>; 5] {
    let usual = Way { boxes: true, ..Way::default() };
    let little = Capacity { lines: 9, points: 200 };
    [
        Way { cores: Cores::One, ..usual },
        usual,
        Way { cores: Cores::One, batch: 4, ..usual },
        Way { batch: 40, neighbours: true, ..usual },
        Way { cores: Cores::One, capacity: little, batch: 1, ..usual },
    ]
}

/// The same lines by every setting: what meets exactly first, with no junction paired.
fn by_settings(call: &BuildCall) -> Vec<BuildCall> {
    let few = call.coordinates.len() / call.stride() > MANY;
    let all = if few { few_settings(call) } else { many_settings(call) };
    all.into_iter().map(|settings| with_settings(call, settings)).collect()
}

/// Every limit with each tolerance: none, and some of the mean length of a segment; with cells from 0,
/// from the network's own corner, and from a place amid it.
fn many_settings(call: &BuildCall) -> Vec<Settings> {
    let Scale { corner, segment } = Scale::of(call);
    let amid = corner.map(|least| least + 0.37 * segment);
    let mut all = Vec::new();
    for limit in LIMITS {
        all.push(Settings { limit, ..Settings::default() });
        for (part, origin) in [(0.25, [0.0; 2]), (1.0, corner), (5.0, [0.0; 2]), (5.0, amid)] {
            all.push(Settings { tolerance: part * segment, origin, limit });
        }
    }
    all
}

/// Some of these.
fn few_settings(call: &BuildCall) -> Vec<Settings> {
    let Scale { corner, segment } = Scale::of(call);
    let of = |part: f64, origin, limit| Settings { tolerance: part * segment, origin, limit };
    vec![
        of(0.0, [0.0; 2], None),
        of(0.0, [0.0; 2], Some(-0.5)),
        of(0.0, [0.0; 2], Some(1.0)),
        of(1.0, corner, None),
        of(5.0, [0.0; 2], Some(-0.5)),
    ]
}

fn with_settings(call: &BuildCall, settings: Settings) -> BuildCall {
    BuildCall {
        tolerance: settings.tolerance.to_bits(),
        origin: settings.origin.map(f64::to_bits),
        switch: u8::from(settings.limit.is_some()),
        limit: settings.limit.unwrap_or(f64::NAN).to_bits(),
        ..call.clone()
    }
}

/// How large a network is.
struct Scale {
    /// The least x and the least y.
    corner: [f64; 2],
    /// The mean length of a segment, along the axes.
    segment: f64,
}

impl Scale {
    fn of(call: &BuildCall) -> Self {
        let mut scale = Scale { corner: [f64::INFINITY; 2], segment: 0.0 };
        let mut segments = 0;
        for (line, first) in call.firsts().into_iter().enumerate() {
            let points = call.points(line, first);
            let at = |point: &[u64; 2], axis: usize| f64::from_bits(point[axis]);
            for axis in [0, 1] {
                let least = points.iter().map(|point| at(point, axis));
                scale.corner[axis] = least.fold(scale.corner[axis], f64::min);
                let along =
                    points.windows(2).map(|two| (at(&two[0], axis) - at(&two[1], axis)).abs());
                scale.segment += along.sum::<f64>();
            }
            segments += points.len().saturating_sub(1);
        }
        scale.segment /= segments.max(1) as f64;
        scale
    }
}
