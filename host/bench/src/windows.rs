//! What lies in a window: the library's question, a look at all boxes in plain Rust, and GEOS's tree.

use crate::clock::{best, hidden, timed, Patience};
use crate::geos::Geos;
use crate::geos_tree::{diagonal, Tree};
use crate::times::{measured, Times};
use crate::workloads::WORKLOADS;
use answers::random::Random;
use compare::lent;
use lovasuku_chains::size::BOX;
use lovasuku_chains::{door, Dimension, Lines, Rooms, Settings, Window, PASSING};

/// The networks that are looked into, of so many chains, each line a chain of its own.
pub const NETWORKS: [&str; 3] = ["borders", "grid", "tree"];
pub const CHAINS: usize = 4_096;

/// The parts of all chains that a window meets, in thousandths.
pub const PARTS: [usize; 3] = [1, 10, 100];

/// How many windows are looked into by one call of a clock.
const WINDOWS: usize = 16;

/// Boxes as building left them, and windows that each meet about a part of the chains.
pub struct Looking {
    boxes: Vec<f64>,
    windows: Vec<Window>,
}

impl Looking {
    /// The boxes of a network by its name, with windows that meet so many thousandths of its chains.
    pub fn of(name: &str, thousandths: usize) -> Option<Looking> {
        let boxes = boxes(name)?;
        let mut random = Random::new(8);
        let wanted = (CHAINS * thousandths / 1_000).max(1);
        let windows = (0..WINDOWS).map(|_| square(&boxes, &mut random, wanted)).collect();
        Some(Looking { boxes, windows })
    }

    /// How many chains a window meets on the average: as many as asked for, or more where boxes begin at
    /// one place.
    pub fn met(&self) -> f64 {
        let mut found = vec![0; CHAINS];
        let all = self.windows.iter().map(|window| plainly(&self.boxes, window, &mut found));
        all.sum::<usize>() as f64 / WINDOWS as f64
    }

    /// The times of the library and of plain Rust, for one window, after both have been seen to find
    /// the same. The error is a sentence about the first difference.
    pub fn compare(&self, patience: Patience) -> Result<Times, String> {
        let (mut port, mut rust) = (vec![u32::MAX; CHAINS], vec![u32::MAX; CHAINS]);
        for window in &self.windows {
            let answer = ask(&self.boxes, window, &mut port);
            let count = plainly(&self.boxes, window, &mut rust);
            if answer != count as i64 || port[..count] != rust[..count] {
                return Err(format!("{window:?} finds others than a look at all boxes"));
            }
        }
        let windows = || hidden(&self.windows).iter();
        let mut ours =
            || timed(|| windows().map(|window| ask(&self.boxes, window, &mut port)).sum::<i64>());
        let mut plain = || {
            timed(|| windows().map(|window| plainly(&self.boxes, window, &mut rust)).sum::<usize>())
        };
        let times = measured(&mut [&mut ours, &mut plain], patience);
        let each = |time: f64| time / WINDOWS as f64;
        Ok(Times { port: each(times.port), rust: each(times.rust) })
    }

    /// The nanoseconds of GEOS's tree for one window, if it has one, after it has been seen to find the
    /// same.
    pub fn geos(&self, geos: &Geos, patience: Patience) -> Result<Option<f64>, String> {
        let tree = match Tree::of(geos, &self.boxes[..BOX * CHAINS]) {
            Some(tree) => tree,
            None => return Ok(None),
        };
        let corners = |window: &Window| diagonal(geos, &[window.least, window.greatest].concat());
        let windows: Vec<_> = self
            .windows
            .iter()
            .map(corners)
            .collect::<Option<_>>()
            .ok_or("GEOS does not take the windows")?;
        let (mut found, mut rust) = (Vec::with_capacity(CHAINS), vec![0; CHAINS]);
        for (window, corners) in self.windows.iter().zip(&windows) {
            found.clear();
            tree.look(corners, &mut found);
            found.sort_unstable();
            let count = plainly(&self.boxes, window, &mut rust);
            if found != rust[..count] {
                return Err(format!("GEOS finds others in {window:?}"));
            }
        }
        let mut look = || {
            timed(|| {
                for window in hidden(&windows) {
                    found.clear();
                    tree.look(window, &mut found);
                }
            })
        };
        Ok(Some(best(&mut [&mut look], patience)[0] / WINDOWS as f64))
    }
}

fn ask(boxes: &[f64], window: &Window, found: &mut [u32]) -> i64 {
    door::window(hidden(boxes), CHAINS as u64, *window, found)
}

/// Looks at every chain's own box. Gives how many chains were found.
#[inline(never)]
fn plainly(boxes: &[f64], window: &Window, found: &mut [u32]) -> usize {
    let mut count = 0;
    for (chain, it) in hidden(boxes).chunks_exact(BOX).take(CHAINS).enumerate() {
        let meets = it[0] <= window.greatest[0]
            && window.least[0] <= it[2]
            && it[1] <= window.greatest[1]
            && window.least[1] <= it[3];
        if meets {
            found[count] = chain as u32;
            count += 1;
        }
    }
    count
}

/// The boxes of a network whose lines all pass through, so that each is a chain.
fn boxes(name: &str) -> Option<Vec<f64>> {
    let workload = WORKLOADS.iter().find(|workload| workload.name == name)?;
    let call = workload.network(CHAINS).lines;
    let coordinates = lent::coordinates(&call);
    let lines = Lines {
        dimension: Dimension::Xy,
        coordinates: &coordinates,
        counts: &call.counts,
        groups: &call.groups,
        kinds: &vec![PASSING; CHAINS],
    };
    let mut rooms = Rooms::default();
    let chains = rooms.build(lines, Settings::default()).ok()?;
    (chains.len() == CHAINS).then(|| chains.boxes().to_vec())
}

/// The smallest square about the middle of some chain's box that meets so many chains, to a thousandth
/// of the side.
fn square(boxes: &[f64], random: &mut Random, wanted: usize) -> Window {
    let it = &boxes[BOX * random.below(CHAINS)..];
    let [x, y] = [(it[0] + it[2]) / 2.0, (it[1] + it[3]) / 2.0];
    let about = |half: f64| Window { least: [x - half, y - half], greatest: [x + half, y + half] };
    let mut found = vec![0; CHAINS];
    let mut enough = |half: f64| plainly(boxes, &about(half), &mut found) >= wanted;
    let mut high = 1.0;
    while !enough(high) {
        high *= 2.0;
    }
    let mut low = 0.0;
    while high - low > high / 1_000.0 {
        let middle = (low + high) / 2.0;
        if enough(middle) {
            high = middle;
        } else {
            low = middle;
        }
    }
    about(high)
}
