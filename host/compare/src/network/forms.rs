//! The same lines as they are, cut into many, and in patches that one call holds.

use answers::random::Random;
use answers::{BuildCall, MOST_DISTRICT_LINES, MOST_DISTRICT_POINTS};

/// The pieces that lines are cut into have so many points, or more where there would be too many.
const CUT: usize = 3;

/// About so many pieces are made at most.
const MOST_PIECES: usize = 1_000_000;

/// So many patches are taken at most, as far apart in a network as can be.
const PATCHES: usize = 12;

/// The forms of a network, each by its name and its calls.
pub fn all(network: &BuildCall) -> Vec<(&'static str, Vec<BuildCall>)> {
    let pieces = cut(network, points_of_a_piece(network));
    let mut of_all = patches(network);
    of_all.extend(patches(&pieces).iter().map(mixed));
    vec![("as it is", vec![network.clone()]), ("cut", vec![mixed(&pieces)]), ("patches", of_all)]
}

fn points_of_a_piece(network: &BuildCall) -> usize {
    let points = network.coordinates.len() / network.stride();
    CUT.max(1 + points / MOST_PIECES)
}

/// Cuts lines into pieces of so many points, which are at least 2. The last of a line may have fewer.
pub fn cut(network: &BuildCall, points: usize) -> BuildCall {
    let mut call = BuildCall::default();
    for (line, first) in network.firsts().into_iter().enumerate() {
        let all = network.points(line, first);
        let mut at = 0;
        while at + points < all.len() {
            call.push(&all[at..at + points], network.groups[line], 0);
            at += points - 1;
        }
        call.push(&all[at..], network.groups[line], 0);
    }
    call
}

/// The same lines in no order, and every other turned.
pub fn mixed(network: &BuildCall) -> BuildCall {
    let firsts = network.firsts();
    let mut order: Vec<usize> = (0..network.lines()).collect();
    Random::new(network.lines() as u64).shuffle(&mut order);
    let mut call = BuildCall::default();
    for (k, line) in order.into_iter().enumerate() {
        let mut points = network.points(line, firsts[line]);
        if k % 2 == 1 {
            points.reverse();
        }
        call.push(&points, network.groups[line], 0);
    }
    call
}

/// Lines that follow each other in a network, as many as one call holds.
pub fn patches(network: &BuildCall) -> Vec<BuildCall> {
    let firsts = network.firsts();
    let step = (network.lines() / PATCHES).max(MOST_DISTRICT_LINES);
    let from = |first: usize| patch(network, &firsts, first);
    (0..network.lines()).step_by(step).map(from).filter(|call| call.lines() > 0).collect()
}

fn patch(network: &BuildCall, firsts: &[usize], from: usize) -> BuildCall {
    let mut call = BuildCall::default();
    let mut points = 0;
    for line in from..network.lines().min(from + MOST_DISTRICT_LINES) {
        points += network.counts[line] as usize;
        if points > MOST_DISTRICT_POINTS {
            break;
        }
        call.push(&network.points(line, firsts[line]), network.groups[line], 0);
    }
    call
}
