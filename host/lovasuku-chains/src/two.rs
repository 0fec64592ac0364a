//! Numbers that stand two by two.
#![allow(unsafe_code)]

use std::slice::from_raw_parts;

/// The same numbers two by two, not copied. An odd last one is left out.
pub fn by_two<T>(numbers: &[T]) -> &[[T; 2]] {
    // An array of two lies in memory as two numbers side by side, and half as many arrays as there
    // are numbers lie within the slice.
    unsafe { from_raw_parts(numbers.as_ptr().cast(), numbers.len() / 2) }
}

/// The same numbers one by one, not copied.
pub fn one_by_one<T>(numbers: &[[T; 2]]) -> &[T] {
    // As above, the other way round. A slice is no longer than the memory.
    unsafe { from_raw_parts(numbers.as_ptr().cast(), 2 * numbers.len()) }
}

#[cfg(test)]
mod tests {
    use super::{by_two, one_by_one};

    #[test]
    fn one_behind_another() {
        assert_eq!(one_by_one::<u8>(&[]), [0; 0]);
        assert_eq!(one_by_one(&[[1, 2], [3, 4]]), [1, 2, 3, 4]);
    }

    #[test]
    fn two_by_two() {
        assert_eq!(by_two::<u8>(&[]), [[0; 2]; 0]);
        assert_eq!(by_two(&[1]), [[0; 2]; 0]);
        assert_eq!(by_two(&[1, 2, 3, 4]), [[1, 2], [3, 4]]);
        assert_eq!(by_two(&[1, 2, 3, 4, 5]), [[1, 2], [3, 4]]);
    }
}
