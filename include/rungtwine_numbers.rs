//! The library `numbers_c` for Rust: its functions, and safe names for them. They take any pattern of bits and have no further demand.
#![allow(dead_code)] // a program may use a part of it

pub mod raw {
    extern "C" {
        pub fn rungtwine_min(x: f32, y: f32) -> f32;
        pub fn rungtwine_max(x: f32, y: f32) -> f32;
        pub fn rungtwine_median(a: f32, b: f32, c: f32) -> f32;
        pub fn rungtwine_median_channel(a: f32, b: f32, c: f32) -> usize;
        pub fn rungtwine_abs32(x: f32) -> f32;
        pub fn rungtwine_abs64(x: f64) -> f64;
        pub fn rungtwine_mix(a: f32, b: f32, w: f64) -> f32;
        pub fn rungtwine_narrow(x: f64) -> f32;
        pub fn rungtwine_floor(x: f64) -> i64;
        pub fn rungtwine_sqrt(x: f64) -> f64;
        pub fn rungtwine_normal_root(b: u64) -> f64;
        pub fn rungtwine_root_count(a: f64, b: f64, c: f64) -> usize;
        pub fn rungtwine_first_root(a: f64, b: f64, c: f64) -> f64;
        pub fn rungtwine_second_root(a: f64, b: f64, c: f64) -> f64;
        pub fn rungtwine_normal_root_count(a: f64, b: f64, c: f64) -> usize;
        pub fn rungtwine_normal_first_root(a: f64, b: f64, c: f64) -> f64;
        pub fn rungtwine_normal_second_root(a: f64, b: f64, c: f64) -> f64;
    }
}

pub fn min(x: f32, y: f32) -> f32 {
    unsafe { raw::rungtwine_min(x, y) }
}

pub fn max(x: f32, y: f32) -> f32 {
    unsafe { raw::rungtwine_max(x, y) }
}

pub fn median(a: f32, b: f32, c: f32) -> f32 {
    unsafe { raw::rungtwine_median(a, b, c) }
}

/// The lowest of the channels 0, 1 and 2, with these values, whose value compares equal to their median, 0 if all three are NaN.
pub fn median_channel(a: f32, b: f32, c: f32) -> usize {
    unsafe { raw::rungtwine_median_channel(a, b, c) }
}

pub fn abs32(x: f32) -> f32 {
    unsafe { raw::rungtwine_abs32(x) }
}

pub fn abs64(x: f64) -> f64 {
    unsafe { raw::rungtwine_abs64(x) }
}

/// `(1 - w) * a + w * b` in f64, rounded to f32.
pub fn mix(a: f32, b: f32, w: f64) -> f32 {
    unsafe { raw::rungtwine_mix(a, b, w) }
}

/// The nearest f32.
pub fn narrow(x: f64) -> f32 {
    unsafe { raw::rungtwine_narrow(x) }
}

pub fn floor(x: f64) -> i64 {
    unsafe { raw::rungtwine_floor(x) }
}

pub fn sqrt(x: f64) -> f64 {
    unsafe { raw::rungtwine_sqrt(x) }
}

/// The root of the normal number that the fields of a pattern stand for, whatever the pattern: of the bits of a positive normal f64 it is that number's
/// root. The sign is not looked at, and an exponent's field of 0 or of all ones is one like any other.
pub fn normal_root(bits: u64) -> f64 {
    unsafe { raw::rungtwine_normal_root(bits) }
}

/// How many roots `a * t * t + b * t + c` has by the solver's rule, 0 to 2. Of three finite f32 values it is the exact number.
pub fn root_count(a: f64, b: f64, c: f64) -> usize {
    unsafe { raw::rungtwine_root_count(a, b, c) }
}

/// That number, and each of up to two, 0 where there is none.
pub fn roots(a: f64, b: f64, c: f64) -> (usize, f64, f64) {
    unsafe { (raw::rungtwine_root_count(a, b, c), raw::rungtwine_first_root(a, b, c), raw::rungtwine_second_root(a, b, c)) }
}

/// The same by the solver that takes a positive discriminant for a normal number. Of three finite f32 values it always is one, and both give the same.
pub fn normal_roots(a: f64, b: f64, c: f64) -> (usize, f64, f64) {
    unsafe { (raw::rungtwine_normal_root_count(a, b, c), raw::rungtwine_normal_first_root(a, b, c), raw::rungtwine_normal_second_root(a, b, c)) }
}
