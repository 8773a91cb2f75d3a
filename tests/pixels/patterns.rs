//! The patterns that are tried.

use crate::judge::{not_above, LIMIT, ONE, SIGN};
use crate::rng::Rng;

/// How many neighbours either side of a step and of half a step are tried.
const NEIGHBOURS: u32 = 64;
/// The pattern of 0.5, the only half step that an f32 stands for.
pub const HALF: u32 = 0x3f00_0000;
/// The least normal number.
pub const NORMAL: u32 = 0x0080_0000;

/// Good patterns of either sign, in every run: around each step and each half step, around 0, 0.5, 1 and the limits, and among the subnormal.
pub fn always() -> Vec<u32> {
    let steps = (0..=510).map(not_above);
    let others = [0, 1, NORMAL / 2, NORMAL, 0x0100_0000, 0x3400_0000, HALF, ONE, 0x4000_0000, LIMIT];
    let near = |at: u32| at.saturating_sub(NEIGHBOURS)..=at + NEIGHBOURS;
    let powers = (0..=LIMIT >> 23).map(|exponent| exponent << 23);
    let mut sizes: Vec<u32> = steps.chain(others).flat_map(near).chain(powers).filter(|&size| size <= LIMIT).collect();
    sizes.sort();
    sizes.dedup();
    sizes.iter().flat_map(|&size| [size, size | SIGN]).collect()
}

/// A good pattern: any size and digits, or a value from about -0.2 to 1.2, or one of few digits.
pub fn good(rng: &mut Rng) -> u32 {
    match rng.below(8) {
        0 | 1 => rng.below(LIMIT as usize + 1) as u32 | rng.next() as u32 & SIGN,
        2 => (rng.below(257) as f32 / 256.0).to_bits(),
        _ => ((rng.unit() * 1.4 - 0.2) as f32).to_bits(),
    }
}

/// Patterns that are refused: NaN of several payloads, infinities, one step beyond the limits, and the largest numbers.
pub const BAD: [u32; 13] = [
    0x7fc0_0000,
    0xffc0_0000,
    0x7f80_0001,
    0xff80_0001,
    0x7fbf_ffff,
    0x7fff_ffff,
    0xffff_ffff,
    0x7f80_0000,
    0xff80_0000,
    LIMIT + 1,
    SIGN | (LIMIT + 1),
    0x7f7f_ffff,
    0xff7f_ffff,
];

/// A pattern that is refused, one of these or any.
pub fn bad(rng: &mut Rng) -> u32 {
    if rng.one_in(2) { rng.pick(&BAD) } else { rng.range(i64::from(LIMIT) + 1, i64::from(!SIGN)) as u32 | rng.next() as u32 & SIGN }
}

/// By value, -0 before 0.
pub fn sort(patterns: &mut [u32]) {
    patterns.sort_by_key(|&pattern| if pattern & SIGN != 0 { !pattern } else { pattern | SIGN });
}

pub fn shuffle(rng: &mut Rng, patterns: &mut [u32]) {
    for at in (1..patterns.len()).rev() {
        patterns.swap(at, rng.below(at + 1));
    }
}
