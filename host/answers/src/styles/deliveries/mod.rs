//! Chains made elsewhere: as building makes them, woven from lines that meet, or ambiguous ones, with what
//! contractors do to them.

mod contractors;
mod laying_out;
mod weaving;

use crate::call::{BuildCall, Built, RECORD};
use crate::delivered::CheckCall;
use crate::model;
use crate::model::plane::same;
use crate::random::Random;
pub use contractors::VARIANTS;
pub use laying_out::laid_out;
pub use weaving::{ambiguous, woven};

/// A chain in the making: its lines in the order of travel, which of them are turned, and the numbers of
/// its coordinates.
#[derive(Clone, Debug, Default, PartialEq, Eq)]
pub struct Made {
    /// Positions of lines.
    pub listing: Vec<u32>,
    /// Whether each is travelled from its last coordinate to its first.
    pub turned: Vec<bool>,
    /// All numbers of its coordinates.
    pub numbers: Vec<u64>,
}

impl Made {
    /// The chain of lines in directions: laid end to end without repeats, and a lone line as it was drawn.
    pub fn of(lines: &BuildCall, listing: Vec<u32>, turned: Vec<bool>) -> Self {
        let numbers = match listing[..] {
            [line] => lines.numbers(line as usize, lines.firsts()[line as usize]).to_vec(),
            _ => laid(lines, &listing, &turned, true),
        };
        Made { listing, turned, numbers }
    }
}

/// The numbers of lines laid end to end in directions, with repeats of x and y dropped or kept.
pub fn laid(lines: &BuildCall, listing: &[u32], turned: &[bool], dropped: bool) -> Vec<u64> {
    let (firsts, stride) = (lines.firsts(), lines.stride());
    let mut laid: Vec<&[u64]> = Vec::new();
    for (&line, &turned) in listing.iter().zip(turned) {
        let numbers = lines.numbers(line as usize, firsts[line as usize]);
        let mut run: Vec<&[u64]> = numbers.chunks(stride).collect();
        if turned {
            run.reverse();
        }
        for point in run {
            let repeats = |last: &&&[u64]| same([last[0], last[1]], [point[0], point[1]]);
            if !dropped || laid.last().filter(repeats).is_none() {
                laid.push(point);
            }
        }
    }
    laid.concat()
}

/// The chains of an accepted building call, as they would be delivered.
pub fn as_built(lines: &BuildCall, built: &Built) -> Vec<Made> {
    let chain = |record: &[u32; RECORD]| {
        let [first, count, source, from, points, _] = record.map(|number| number as usize);
        let places = first..first + count;
        let (members, marks) = (&built.members[places.clone()], &built.marks[places.clone()]);
        let mark = |line: &u32| marks[members.iter().position(|m| m == line).unwrap_or(0)] == 1;
        let listing = built.listing[places].to_vec();
        let turned = match listing.len() > MANY {
            true => vec![false; listing.len()],
            false => listing.iter().map(mark).collect(),
        };
        let all = if source == 0 { &lines.coordinates } else { &built.merged };
        let stride = lines.stride();
        Made { listing, turned, numbers: all[stride * from..stride * (from + points)].to_vec() }
    };
    built.table.iter().map(chain).collect()
}

/// Of chains with more lines the directions are not looked for.
const MANY: usize = 200;

/// Above so many lines chains are those of building, since weaving looks at all lines for each.
const MOST_WOVEN: usize = 200;

/// A delivery of a call's lines, with the name of what its chains were made by: building or weaving, by the
/// call's own tolerance, then at times one or two of a contractor's variants, and laid out somehow.
pub fn delivered(random: &mut Random, mut lines: BuildCall) -> (&'static str, CheckCall) {
    // What is refused before chains are looked at is delivered without any.
    if lines.refusal().is_some() {
        return ("refused lines", CheckCall { lines, ..CheckCall::default() });
    }
    let (style, mut chains) = match lines.lines() <= MOST_WOVEN && random.one_in(2) {
        true => ("woven", woven(random, &lines)),
        false => ("built", as_built(&lines, &model::built(&lines))),
    };
    let mut named = style;
    for _ in 0..random.pick(&[0, 1, 1, 1, 2]) {
        let (name, vary) = random.pick(&VARIANTS);
        if vary(random, &mut lines, &mut chains) {
            named = name;
        }
    }
    if random.one_in(8) {
        lines.tolerance = random.pick(&[0f64, -1.0, f64::NAN, 0.5, 1.0, 8.0]).to_bits();
    }
    if random.one_in(16) {
        lines.origin = [random.pick(&[0f64, 0.5, -0.25, 1e9]).to_bits(), 0.25f64.to_bits()];
    }
    (named, laid_out(random, lines, &chains))
}
