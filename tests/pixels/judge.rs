//! A judge in whole numbers: what the rules say of a pattern of 32 bits and of a byte, with no float operation.

/// The pattern of 1,048,576, the largest size that is taken; patterns of one sign are ordered as their values are, and infinities and NaN come last.
pub const LIMIT: u32 = 0x4980_0000;
pub const SIGN: u32 = 1 << 31;
/// The pattern of 1.
pub const ONE: u32 = 0x3f80_0000;

/// A value with more binary places than these is below 2^-16, and its byte is 0.
const PLACES: u32 = 40;

/// Whether a sample is refused: NaN, infinite or of size above the limit.
pub fn bad(pattern: u32) -> bool {
    pattern & !SIGN > LIMIT
}

/// The number of the first check that fails of so many bytes for these samples, and its place; 0 and 0 where none does.
pub fn refusal(samples: &[u32], bytes: usize) -> (u8, usize) {
    if bytes != samples.len() {
        return (40, 0);
    }
    samples.iter().position(|&pattern| bad(pattern)).map_or((0, 0), |place| (6, place))
}

/// The value of a pattern without its sign as m * 2^e.
fn number(pattern: u32) -> (u64, i32) {
    let (exponent, digits) = (pattern >> 23 & 0xff, u64::from(pattern & 0x7f_ffff));
    if exponent == 0 { (digits, -149) } else { (digits | 1 << 23, exponent as i32 - 150) }
}

/// The value of a good pattern, held to 0..1, as a numerator and a denominator; none where it has more places than are looked at.
fn held(pattern: u32) -> Option<(u64, u64)> {
    let (m, e) = number(pattern);
    if pattern & SIGN != 0 {
        return Some((0, 1));
    }
    // Without places it is a whole number, and not 0.
    if e >= 0 {
        return Some((1, 1));
    }
    let places = e.unsigned_abs();
    if places > PLACES {
        return None;
    }
    let den = 1 << places;
    Some((m.min(den), den))
}

/// How far k is from 255 times the fraction, in parts of the denominator.
fn away((num, den): (u64, u64), k: u64) -> u64 {
    (255 * num).abs_diff(k * den)
}

/// The byte of a good pattern, by asking all 256: the nearest to 255 times the value, and of two that are as near the even one.
pub fn byte(pattern: u32) -> u8 {
    // m is below 2^24 and 255 m below 2^32, which is less than half of 2^40: 0 is the nearest.
    let Some(value) = held(pattern) else { return 0 };
    let mut nearest = 0;
    for k in 1..=255 {
        let (own, least) = (away(value, k), away(value, nearest));
        if own < least || own == least && k % 2 == 0 {
            nearest = k;
        }
    }
    nearest as u8
}

/// Whether k is within half a step of 255 times the value of a good pattern, and even where it is just half a step away. The value is within 0..1, so this is
/// the same as no byte being nearer.
pub fn is_byte(pattern: u32, k: u8) -> bool {
    let Some(value) = held(pattern) else { return k == 0 };
    let twice = 2 * away(value, u64::from(k));
    twice < value.1 || twice == value.1 && k % 2 == 0
}

/// The pattern of the f32 nearest to k / 255: as many places as give 24 digits, the quotient, and the nearest of it and its neighbours.
pub fn sample(k: u8) -> u32 {
    if k == 0 {
        return 0;
    }
    let k = u64::from(k);
    let places = (0..64).find(|&places| k << places >= 255 << 23).expect("a number above 0");
    let quotient = (k << places) / 255;
    let away = |m: u64| (255 * m).abs_diff(k << places);
    let m = (quotient - 1..=quotient + 1).min_by_key(|&m| (away(m), m % 2)).expect("three");
    // The leading digit is not stored. Were m 2^24, it would carry into the exponent, as it has to.
    ((150 - places) << 23) + (m - (1 << 23)) as u32
}

/// The pattern of the largest f32 that is not above n / 510, for n up to 510.
pub fn not_above(n: u64) -> u32 {
    let above = |pattern: u32| held(pattern).map_or(n == 0 && pattern != 0, |(num, den)| 510 * num > n * den);
    let (mut low, mut high) = (0, ONE);
    while low < high {
        let middle = (low + high).div_ceil(2);
        if above(middle) { high = middle - 1 } else { low = middle }
    }
    low
}
