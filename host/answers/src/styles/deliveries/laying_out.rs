//! How chains are laid out in table, listing and merged coordinates, and damages to these.

use super::Made;
use crate::call::{BuildCall, RECORD};
use crate::delivered::CheckCall;
use crate::random::Random;

/// One delivery in so many has records that cannot be read.
const DAMAGED: usize = 16;

/// The call that delivers chains: in their order or in another, close together or with something between
/// them, a lone line in either source.
pub fn laid_out(random: &mut Random, lines: BuildCall, chains: &[Made]) -> CheckCall {
    let mut call = CheckCall { k: chains.len() as u64, lines, ..CheckCall::default() };
    let loose = random.one_in(3);
    let mut order: Vec<usize> = (0..chains.len()).collect();
    if loose {
        random.shuffle(&mut order);
    }
    let mut records = vec![[0; RECORD]; chains.len()];
    for chain in order {
        if loose && random.one_in(2) {
            between(random, &mut call);
        }
        records[chain] = record(random, &mut call, &chains[chain], loose);
    }
    call.table = records.concat();
    if loose {
        between(random, &mut call);
        call.table.extend((0..random.below(9)).map(|_| random.bits() as u32));
    }
    if random.one_in(DAMAGED) {
        damage(random, &mut call);
    }
    call
}

/// Puts a chain at the end of listing and merged coordinates, or has it name its line's own.
fn record(random: &mut Random, call: &mut CheckCall, chain: &Made, loose: bool) -> [u32; RECORD] {
    let stride = call.lines.stride();
    let (first, count) = (call.listing.len() as u32, chain.listing.len() as u32);
    call.listing.extend(&chain.listing);
    let points = (chain.numbers.len() / stride) as u32;
    let mark = if loose { random.bits() as u32 } else { 0 };
    if let ([line], false) = (&chain.listing[..], loose && random.one_in(2)) {
        let own = call.lines.firsts()[*line as usize];
        if call.lines.numbers(*line as usize, own) == chain.numbers {
            return [first, count, 0, own as u32, points, mark];
        }
    }
    let from = (call.merged.len() / stride) as u32;
    call.merged.extend(&chain.numbers);
    [first, count, 1, from, points, mark]
}

/// Puts something between chains that no record names.
fn between(random: &mut Random, call: &mut CheckCall) {
    let stride = call.lines.stride();
    call.listing.extend((0..random.below(3)).map(|_| random.pick(&[0, 1, u32::MAX])));
    let numbers = stride * random.below(3);
    call.merged.extend((0..numbers).map(|_| random.pick(&[0, 1f64.to_bits(), u64::MAX])));
}

/// Makes a record, the number of chains or a slice such that a record cannot be read, or such that it just
/// can.
fn damage(random: &mut Random, call: &mut CheckCall) {
    let k = call.k as usize;
    match random.below(8) {
        0 => call.k = random.pick(&[call.k + 1, u64::MAX, u64::MAX / RECORD as u64 + 1]),
        1 => call.k = call.k.saturating_sub(1),
        2 => {
            call.table.pop();
        }
        3 => {
            call.listing.pop();
        }
        4 => {
            call.merged.pop();
        }
        5 => {
            let n = call.lines.lines() as u32;
            let line = random.pick(&[n, n.saturating_sub(1), u32::MAX, 0]);
            let place = random.below(call.listing.len().max(1));
            call.listing.iter_mut().skip(place).take(1).for_each(|listed| *listed = line);
        }
        _ => {
            let number = random.pick(&[0, 1, 2, 5, 1 << 31, u32::MAX - 1, u32::MAX]);
            let place = random.below((RECORD * k).max(1));
            call.table.iter_mut().skip(place).take(1).for_each(|it| *it = number);
        }
    }
}
