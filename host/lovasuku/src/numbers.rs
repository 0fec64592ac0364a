//! Numbers in words, and ranges in parts.

use indicatif::HumanCount;
use std::ops::Range;

/// A number with its thousands parted.
pub fn parted(number: usize) -> String {
    HumanCount(number as u64).to_string()
}

/// A number of things.
pub fn count(number: usize, thing: &str) -> String {
    let ending = match (number, thing.ends_with('s')) {
        (1, _) => "",
        (_, true) => "es",
        (_, false) => "s",
    };
    format!("{} {thing}{ending}", parted(number))
}

/// A length to six digits, or to whole units where these are more.
pub fn rounded(x: f64) -> String {
    to_digits(x, 6)
}

/// A length to three digits, or to whole units where these are more.
pub fn short(x: f64) -> String {
    to_digits(x, 3)
}

fn to_digits(x: f64, digits: i32) -> String {
    let whole = x.abs().max(1e-12).log10().floor() as i32;
    to_decimals(x, (digits - 1 - whole).clamp(0, 17) as usize)
}

/// A number to so many decimals at most. A zero has no sign.
pub fn to_decimals(x: f64, decimals: usize) -> String {
    if x.abs() >= 1e15 {
        return format!("{x:.2e}");
    }
    let text = format!("{:.decimals$}", x + 0.0);
    let text = match text.contains('.') {
        true => text.trim_end_matches('0').trim_end_matches('.'),
        false => &text,
    };
    match text {
        "-0" => "0".into(),
        _ => text.to_owned(),
    }
}

/// A range in parts of so many.
pub fn parts(all: Range<usize>, part: usize) -> Vec<Range<usize>> {
    let end = all.end;
    all.step_by(part).map(|from| from..end.min(from + part)).collect()
}

#[cfg(test)]
mod tests {
    use super::{count, rounded, short};

    #[test]
    fn numbers_of_things() {
        assert_eq!(count(1, "class"), "1 class");
        assert_eq!(count(2, "class"), "2 classes");
        assert_eq!(count(4096, "line"), "4,096 lines");
    }

    #[test]
    fn lengths_to_few_digits() {
        let all = [0.0, 5.0, 4.242640687, 2310.4321, 123456789.4, 0.000123456789, 1e300];
        let wanted = ["0", "5", "4.24264", "2310.43", "123456789", "0.000123457", "1.00e300"];
        assert_eq!(all.map(rounded), wanted);
        assert_eq!([-0.0, -1e-30].map(rounded), ["0", "0"]);
        assert_eq!([7.029224, 0.565685, 2310.43].map(short), ["7.03", "0.566", "2310"]);
    }
}
