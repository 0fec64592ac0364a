//! A limit stated as an offset: so many millimetres per metre run. Worked out in whole numbers of 128
//! bits, by halving, apart from the library.

/// The greatest offset.
pub const MOST: u32 = 1_000;

/// The limit of an offset, minus M / 2^53, if the offset is one.
pub fn limit(offset: u32) -> Option<f64> {
    let minus = |m: u64| -(m as f64) / (1u64 << 53) as f64;
    (offset <= MOST).then(|| minus(largest(offset)))
}

/// The offset that has these bits for its limit, if one has.
pub fn of_limit(bits: u64) -> Option<u32> {
    let wanted = f64::from_bits(bits);
    let below = |offset: u32| matches!(limit(offset), Some(limit) if limit < wanted);
    let (mut first, mut end) = (0, MOST + 1);
    while first < end {
        let middle = (first + end) / 2;
        match below(middle) {
            true => first = middle + 1,
            false => end = middle,
        }
    }
    limit(first).filter(|limit| limit.to_bits() == bits).map(|_| first)
}

/// M M (1,000,000 + g g) is at most 1,000,000 * 2^106, for a g up to 1,000 and an M up to 2^53 + 1.
fn fits(offset: u32, m: u64) -> bool {
    let (g, m) = (u128::from(offset), u128::from(m));
    m * m * (1_000_000 + g * g) <= 1_000_000u128 << 106
}

/// The largest M that fits.
fn largest(offset: u32) -> u64 {
    let (mut fitting, mut beyond) = (0, (1 << 53) + 1);
    while beyond - fitting > 1 {
        let middle = fitting + (beyond - fitting) / 2;
        match fits(offset, middle) {
            true => fitting = middle,
            false => beyond = middle,
        }
    }
    fitting
}

#[cfg(test)]
mod tests {
    use super::{fits, largest, limit, of_limit, MOST};

    #[test]
    fn the_largest_fits_and_the_next_does_not() {
        for offset in 0..=MOST {
            let m = largest(offset);
            assert!(fits(offset, m) && !fits(offset, m + 1), "{offset}");
        }
    }

    #[test]
    fn limits_known_beforehand() {
        let bits = |offset| limit(offset).map(f64::to_bits);
        assert_eq!(limit(0), Some(-1.0));
        assert_eq!(bits(2), Some(0xbfef_fffb_ce42_eaed));
        assert_eq!(bits(577), Some(0xbfeb_b78e_597e_60cf));
        assert_eq!(bits(1_000), Some(0xbfe6_a09e_667f_3bcc));
        assert_eq!(limit(1_001), None);
    }

    #[test]
    fn a_limit_tells_its_offset() {
        for offset in 0..=MOST {
            let bits = limit(offset).map(f64::to_bits).unwrap();
            assert_eq!(of_limit(bits), Some(offset));
            assert_eq!([bits + 1, bits - 1].map(of_limit), [None; 2]);
        }
        assert_eq!([0, 1.0f64.to_bits(), f64::NAN.to_bits()].map(of_limit), [None; 3]);
    }
}
