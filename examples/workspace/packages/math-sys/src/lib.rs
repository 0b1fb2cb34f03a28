//! The C library's functions on numbers.

mod raw {
    extern "C" {
        pub fn cbrt(number: f64) -> f64;
    }
}

/// The number whose third power this one is.
pub fn cube_root(number: f64) -> f64 {
    // Safe: the C function takes every number and touches no memory.
    unsafe { raw::cbrt(number) }
}
