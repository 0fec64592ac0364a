//! The leaves, and beside each the same from the processor. Each is a call that is not inlined, so
//! that a time per call compares like with like.

mod doors {
    extern "C" {
        pub fn lovasuku_probe_root(x: f64) -> f64;
        pub fn lovasuku_probe_floor(x: f64) -> i64;
        pub fn lovasuku_probe_cell(bits: u64, origin: f64, tolerance: f64) -> u64;
        pub fn lovasuku_probe_of_bits(bits: u64) -> f64;
        pub fn lovasuku_probe_bits_of(x: f64) -> u64;
    }
}

/// The root of x, correctly rounded.
pub fn root(x: f64) -> f64 {
    // SAFETY: the function takes and gives plain numbers, and is proved for all of them. So below.
    unsafe { doors::lovasuku_probe_root(x) }
}

/// The floor of x, brought into the range; 0 of a NaN.
pub fn floor(x: f64) -> i64 {
    unsafe { doors::lovasuku_probe_floor(x) }
}

/// The cell of a coordinate, given by its bits, from an origin on, and 2^63 more.
pub fn cell(bits: u64, origin: f64, tolerance: f64) -> u64 {
    unsafe { doors::lovasuku_probe_cell(bits, origin, tolerance) }
}

/// The value of 64 bits.
pub fn of_bits(bits: u64) -> f64 {
    unsafe { doors::lovasuku_probe_of_bits(bits) }
}

/// The bits of a value, with one pattern for every NaN.
pub fn bits_of(x: f64) -> u64 {
    unsafe { doors::lovasuku_probe_bits_of(x) }
}

/// The processor's sqrt.
#[inline(never)]
pub fn processor_root(x: f64) -> f64 {
    x.sqrt()
}

/// The processor's floor, and Rust's cast, which saturates.
#[inline(never)]
pub fn processor_floor(x: f64) -> i64 {
    x.floor() as i64
}

/// The processor's subtraction, division, floor and cast, and 2^63 more.
#[inline(never)]
pub fn processor_cell(bits: u64, origin: f64, tolerance: f64) -> u64 {
    (((f64::from_bits(bits) - origin) / tolerance).floor() as i64 as u64) ^ (1 << 63)
}
