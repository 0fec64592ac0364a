//! Memory that the calls of the Rust free stays with the process.
//!
//! Otherwise it depends on the place of a block in the heap whether it goes back to the system and
//! the next call pays for its pages again. Kept memory is the Rust's best case, and the same in
//! every run.
#![allow(unsafe_code)]

/// Tells the C library to keep freed memory, where it is one that can be told.
pub fn keep() {
    #[cfg(all(target_os = "linux", target_env = "gnu"))]
    gnu::keep();
}

#[cfg(all(target_os = "linux", target_env = "gnu"))]
mod gnu {
    use std::os::raw::c_int;

    extern "C" {
        fn mallopt(parameter: c_int, value: c_int) -> c_int;
    }

    /// How much free memory at the end of the heap stays, and from which size on a block is none
    /// of the heap's, as `malloc.h` numbers them. The second has the most that the library allows.
    const SETTINGS: [(c_int, c_int); 2] = [(-1, 1 << 30), (-3, 32 << 20)];

    pub fn keep() {
        for (parameter, value) in SETTINGS {
            // The call sets a number of the allocator's; an answer of 0 leaves it as it is.
            unsafe { mallopt(parameter, value) };
        }
    }
}
