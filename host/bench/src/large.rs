//! Deliveries of many lines: the safe crate's large rooms, on one core and on two, and one call of the
//! Rust's `build_chains`, which holds any number of lines.

use crate::clock::{best, hidden, timed, Patience, Side};
use crate::workloads::Mode;
use answers::random::Random;
use answers::styles::{regions, Style};
use answers::{BuildCall, Built};
use compare::lent;
use lovasuku_chains::large::{Cores, Joined, Rooms, Way};
use oracle::{chains::without_marks, settings, Oracle};
use rayon::{ThreadPool, ThreadPoolBuilder};

/// The regions that are joined.
pub const REGIONS: [Style<BuildCall>; 3] =
    [("town", regions::town), ("coast", regions::coast), ("forest roads", regions::forest)];

/// How many lines they have.
pub const SIZES: [usize; 2] = [100_000, 1_000_000];

/// How they are joined.
pub const MODES: [Mode; 3] = [
    Mode { name: "strict", switch: 0, coarse: false },
    Mode { name: "junctions", switch: 1, coarse: false },
    Mode { name: "junctions, coarse", switch: 1, coarse: true },
];

/// A tolerance at which round two has nodes to join, and bends of up to 60 degrees.
const COARSE: f64 = 1.0;
const LIMIT: f64 = -0.5;

/// The lines of a region.
pub fn region((_, make): Style<BuildCall>, lines: usize) -> BuildCall {
    make(&mut Random::new(1), lines)
}

/// The call that joins a region in a mode.
pub fn call(region: &BuildCall, mode: &Mode) -> BuildCall {
    let tolerance = if mode.coarse { COARSE } else { 0.0 };
    BuildCall {
        tolerance: tolerance.to_bits(),
        switch: mode.switch,
        limit: LIMIT.to_bits(),
        ..region.clone()
    }
}

/// The best times of a delivery in nanoseconds: of the Rust, and of the large rooms on one core and on
/// two, if there are two.
#[derive(Clone, Copy, Debug, PartialEq)]
pub struct LargeTimes {
    pub rust: f64,
    pub one: f64,
    pub two: Option<f64>,
}

/// The times of a delivery, taken after both sides have been seen to answer alike. The error is a
/// sentence about the first difference.
pub fn compare(oracle: Oracle, call: &BuildCall, patience: Patience) -> Result<LargeTimes, String> {
    let coordinates = lent::coordinates(call);
    let pool = two_cores();
    let mut rooms = Rooms::default();
    check(&joined(call, &coordinates, &mut rooms, Cores::One)?, oracle, call)?;
    if let Some(pool) = &pool {
        pool.install(|| check(&joined(call, &coordinates, &mut rooms, Cores::All)?, oracle, call))?;
    }
    let (mut on_one, mut on_two) = (rooms, Rooms::default());
    let geometries = oracle.geometries(call);
    let ready = oracle.ready_build(&geometries, call);
    let mut rust = || timed(|| hidden(&ready).run());
    let mut one = || timed(|| joined(call, &coordinates, &mut on_one, Cores::One).is_ok());
    let mut two = || match &pool {
        Some(pool) => {
            timed(|| pool.install(|| joined(call, &coordinates, &mut on_two, Cores::All).is_ok()))
        }
        None => f64::INFINITY,
    };
    let sides: [Side; 3] = [&mut rust, &mut one, &mut two];
    let [rust, one, two] = settings::under(call, || three(sides, patience));
    Ok(LargeTimes { rust, one, two: pool.is_some().then_some(two) })
}

fn three(mut sides: [Side; 3], patience: Patience) -> [f64; 3] {
    let times = best(&mut sides, patience);
    [times[0], times[1], times[2]]
}

/// Two threads, where the machine has as many cores.
fn two_cores() -> Option<ThreadPool> {
    let cores = std::thread::available_parallelism().map_or(1, |cores| cores.get());
    (cores > 1).then(|| ThreadPoolBuilder::new().num_threads(2).build().ok())?
}

fn joined<'a>(
    call: &'a BuildCall,
    coordinates: &'a [f64],
    rooms: &'a mut Rooms,
    cores: Cores,
) -> Result<Joined<'a>, String> {
    let way = Way { cores, ..Way::default() };
    let lines = hidden(lent::lines(call, coordinates));
    rooms.build_by(lines, lent::settings(call), way).map_err(|fault| fault.to_string())
}

/// Tests that chains are the Rust's.
fn check(joined: &Joined, oracle: Oracle, call: &BuildCall) -> Result<(), String> {
    let Built { table, members, merged, .. } = without_marks(call, &oracle.chains(call));
    let chains = joined.chains();
    let bits = chains.merged().iter().map(|number| number.to_bits());
    let same = chains.table().iter().eq(table.iter().flatten())
        && chains.members() == members
        && bits.eq(merged.iter().copied());
    match same {
        true => Ok(()),
        false => Err("the chains differ from the Rust's".to_string()),
    }
}
