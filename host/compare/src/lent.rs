//! A call's numbers as the safe crate and the door take them.

use answers::BuildCall;
use lovasuku_chains::door::RawSettings;
use lovasuku_chains::{Dimension, Lines, Settings};

/// The numbers of a call as floats.
pub fn coordinates(call: &BuildCall) -> Vec<f64> {
    floats(&call.coordinates)
}

/// The lines of a call, whose numbers are given as floats.
pub fn lines<'a>(call: &'a BuildCall, coordinates: &'a [f64]) -> Lines<'a> {
    Lines {
        dimension: Dimension::of_wkb_type(call.wkb_type).unwrap_or_default(),
        coordinates,
        counts: &call.counts,
        groups: &call.groups,
        kinds: &call.kinds,
    }
}

/// The settings of a call.
pub fn settings(call: &BuildCall) -> Settings {
    Settings {
        tolerance: f64::from_bits(call.tolerance),
        origin: call.origin.map(f64::from_bits),
        limit: (call.switch == 1).then(|| f64::from_bits(call.limit)),
    }
}

/// The settings of a call as the door takes them.
pub fn raw_settings(call: &BuildCall) -> RawSettings {
    RawSettings {
        tolerance: f64::from_bits(call.tolerance),
        origin: call.origin.map(f64::from_bits),
        switch: call.switch,
        limit: f64::from_bits(call.limit),
    }
}

/// Numbers as floats.
pub fn floats(bits: &[u64]) -> Vec<f64> {
    bits.iter().map(|&bits| f64::from_bits(bits)).collect()
}
