//! Bit patterns of doubles where an operation is likely to go wrong: first every edge once, then
//! squares, whole numbers, subnormals and random bits in turn.

const SIGN: u64 = 1 << 63;
const DIGITS: u64 = (1 << 52) - 1;

/// The digits below the leading one that are tried with every exponent.
const EDGES: [u64; 10] = [
    0,
    1,
    2,
    DIGITS / 2 - 1,
    DIGITS / 2,
    DIGITS / 2 + 1,
    DIGITS - 1,
    DIGITS,
    0x5_5555_5555_5555,
    0xa_aaaa_aaaa_aaaa,
];

/// The first `count` patterns of the one endless row.
pub fn patterns(count: usize) -> impl Iterator<Item = u64> {
    exponents().chain(sizes()).chain(further()).take(count)
}

/// Every sign and exponent with the digits of `EDGES`: zeros, infinities and NaNs among them.
fn exponents() -> impl Iterator<Item = u64> {
    (0..4096).flat_map(|head| EDGES.map(|digits| (head << 52) | digits))
}

/// Each power of two from 2^-2 to 2^66 and its neighbours, 64 either way, of both signs: the ends of
/// the range of an i64, and where a double's digits end before the point.
fn sizes() -> impl Iterator<Item = u64> {
    (-2..=66i64).flat_map(|power| {
        let middle = ((power + 1023) as u64) << 52;
        (middle - 64..=middle + 64).flat_map(|bits| [bits, bits | SIGN])
    })
}

/// Without end: by turns near a square, near a whole number, a subnormal, and any bits.
fn further() -> impl Iterator<Item = u64> {
    (0u64..).map(|turn| {
        let random = mixed(turn);
        let near = |x: f64| x.to_bits().wrapping_add(random % 5).wrapping_sub(2);
        match turn % 6 {
            0 => near(square((random >> 8) as u32 as f64)),
            1 => near(square(f64::from_bits((random >> 2) & !SIGN))),
            2 => near((random as i64 >> (random % 63)) as f64),
            3 => near((random as i64 >> 13) as f64 / 4.0),
            4 => (random & SIGN) | ((random & DIGITS) >> (random % 52)),
            _ => random,
        }
    })
}

fn square(x: f64) -> f64 {
    x * x
}

/// Random bits for a number: SplitMix64, the same on every machine.
fn mixed(number: u64) -> u64 {
    let mut z = number.wrapping_add(1).wrapping_mul(0x9e37_79b9_7f4a_7c15);
    z = (z ^ (z >> 30)).wrapping_mul(0xbf58_476d_1ce4_e5b9);
    z = (z ^ (z >> 27)).wrapping_mul(0x94d0_49bb_1331_11eb);
    z ^ (z >> 31)
}
