//! Floats at the edges of the format, and arbitrary bit patterns.

use super::junctions;
use crate::call::BuildCall;
use crate::random::Random;

/// NaN of several payloads, infinities, zeros, subnormals, and powers of two with neighbours.
pub const WORDS: [u64; 36] = [
    0x7ff8_0000_0000_0000, // NaN
    0x7ff8_0000_0000_0001, // NaN
    0xfff8_0000_0000_0000, // NaN
    0x7ff0_0000_0000_0001, // signalling NaN
    0xfff4_0000_0000_0000, // signalling NaN
    0xffff_ffff_ffff_ffff, // NaN
    0x7ff0_0000_0000_0000, // infinity
    0xfff0_0000_0000_0000, // -infinity
    0x0000_0000_0000_0000, // 0
    0x8000_0000_0000_0000, // -0
    0x0000_0000_0000_0001, // 2^-1074, the least subnormal
    0x8000_0000_0000_0001, // -2^-1074
    0x000f_ffff_ffff_ffff, // the greatest subnormal
    0x0010_0000_0000_0000, // 2^-1022, the least normal
    0x1e50_0000_0000_0000, // 2^-538
    0x1e50_0000_0000_0001, // above 2^-538
    0x1e5f_ffff_ffff_ffff, // below 2^-537
    0x1e60_0000_0000_0000, // 2^-537
    0x3fef_ffff_ffff_ffff, // below 1
    0x3ff0_0000_0000_0000, // 1
    0x3ff0_0000_0000_0001, // above 1
    0xbff0_0000_0000_0000, // -1
    0x43df_ffff_ffff_ffff, // below 2^63
    0x43e0_0000_0000_0000, // 2^63
    0xc3e0_0000_0000_0000, // -2^63
    0xc3e0_0000_0000_0001, // below -2^63
    0x5fdf_ffff_ffff_ffff, // below 2^511
    0x5fe0_0000_0000_0000, // 2^511
    0x5fe0_0000_0000_0001, // above 2^511
    0x5fef_ffff_ffff_ffff, // below 2^512
    0x5ff0_0000_0000_0000, // 2^512
    0x5ff0_0000_0000_0001, // above 2^512
    0xdfe0_0000_0000_0000, // -2^511
    0xdff0_0000_0000_0000, // -2^512
    0x7fef_ffff_ffff_ffff, // the greatest
    0xffef_ffff_ffff_ffff, // the least
];

/// Numbers so far apart that a difference of two of them overflows, beside some that are not.
pub const FAR: [u64; 8] = [
    0x7fe0_0000_0000_0000, // 2^1023
    0xffe0_0000_0000_0000, // -2^1023
    0x7fef_ffff_ffff_ffff, // the greatest
    0xffef_ffff_ffff_ffff, // the least
    0x5ff0_0000_0000_0000, // 2^512
    0x3ff0_0000_0000_0000, // 1
    0x0000_0000_0000_0000, // 0
    0x0000_0000_0000_0001, // 2^-1074, the least subnormal
];

/// One of the wild words.
pub fn word(random: &mut Random) -> u64 {
    random.pick(&WORDS)
}

/// Lines over a few wild words, so that their ends meet.
pub fn wild(random: &mut Random, lines: usize) -> BuildCall {
    over_few(random, lines, word)
}

/// Lines over a few arbitrary bit patterns.
pub fn bits(random: &mut Random, lines: usize) -> BuildCall {
    over_few(random, lines, Random::bits)
}

/// Lines over a few finite numbers that are far apart, so that directions overflow.
pub fn far(random: &mut Random, lines: usize) -> BuildCall {
    over_few(random, lines, |random| random.pick(&FAR))
}

fn over_few(random: &mut Random, lines: usize, word: fn(&mut Random) -> u64) -> BuildCall {
    let few: Vec<u64> = (0..2 + random.below(4)).map(|_| word(random)).collect();
    let mut call = BuildCall::default();
    for _ in 0..lines {
        let mut point = |_| [random.pick(&few), random.pick(&few)];
        let line = [point(0), point(1), point(2)];
        call.push(&line[..2 + random.below(2)], 0, 0);
    }
    let switch = !random.one_in(4);
    junctions(random, &mut call, switch);
    if random.one_in(2) {
        call.tolerance = word(random);
    }
    call
}
