//! The kinds of samples, bytes and refusals, and how often each came up.

#[path = "../kinds.rs"]
#[macro_use]
mod kinds;

use crate::judge::{bad, not_above, sample, LIMIT, ONE, SIGN};
use crate::patterns::{HALF, NORMAL};
use std::sync::OnceLock;

kinds! {
    OutNone: "out, no samples",
    OutOne: "out, one sample",
    OutEvery: "out, all 256 bytes in one slice",
    Zero: "out, 0",
    MinusZero: "out, -0",
    Subnormal: "out, subnormal",
    MinusSubnormal: "out, subnormal and below 0",
    Below: "out, below 0",
    One: "out, 1",
    Above: "out, above 1",
    Highest: "out, 1,048,576",
    Lowest: "out, -1,048,576",
    Tie: "out, 0.5, the tie",
    HalfBelow: "out, the last before half a step",
    HalfAbove: "out, the first behind half a step",
    Step: "out, the nearest to a step",
    Product: "out, the product rounded to f32 is nearest to another byte",
    Added: "out, the product and a half in f32 give another byte",
    BackNone: "in, no bytes",
    BackOne: "in, one byte",
    BackZero: "in, 0",
    BackMost: "in, 255",
    BackUp: "in, rounded up, as all but 0 and 255 are",
    BackProduct: "in, the product with 1/255 in f32 is another sample",
    OutShort: "refusal 40, a byte short",
    OutLong: "refusal 40, a byte more",
    OutNoBytes: "refusal 40, no bytes",
    OutNoSamples: "refusal 40, no samples",
    Order40And6: "refusal 40, and a bad sample besides",
    BackShort: "refusal 40 on the way in, a sample short",
    BackLong: "refusal 40 on the way in, a sample more",
    BackNoSamples: "refusal 40 on the way in, no samples",
    BackNoBytes: "refusal 40 on the way in, no bytes",
    Quiet: "refusal 6, a quiet NaN",
    MinusQuiet: "refusal 6, a quiet NaN with the sign",
    Signalling: "refusal 6, a signalling NaN",
    MinusSignalling: "refusal 6, a signalling NaN with the sign",
    Infinite: "refusal 6, infinite",
    MinusInfinite: "refusal 6, minus infinite",
    OverLimit: "refusal 6, one step above 1,048,576",
    UnderLimit: "refusal 6, one step below -1,048,576",
    BadAlone: "refusal 6, the only sample",
    BadFirst: "refusal 6, the first sample",
    BadBetween: "refusal 6, a sample between",
    BadLast: "refusal 6, the last sample",
    BadTwice: "refusal 6, another bad sample after it",
}

/// The last f32 that is not above each half step but 0.5, in order.
fn halves() -> &'static [u32] {
    static HALVES: OnceLock<Vec<u32>> = OnceLock::new();
    HALVES.get_or_init(|| (0..255).map(|k| not_above(2 * k + 1)).filter(|&pattern| pattern != HALF).collect())
}

/// The f32 nearest to each step, in order.
fn steps() -> &'static [u32] {
    static STEPS: OnceLock<Vec<u32>> = OnceLock::new();
    STEPS.get_or_init(|| (0..=255).map(sample).collect())
}

/// Which kinds a good sample is of.
pub fn see_byte(pattern: u32, seen: &mut Seen) {
    let size = pattern & !SIGN;
    let subnormal = (1..NORMAL).contains(&size);
    let held = f32::from_bits(pattern).clamp(0.0, 1.0);
    let due = (f64::from(held) * 255.0).round_ties_even() as u8;
    seen.hit_if(pattern == 0, Kind::Zero);
    seen.hit_if(pattern == SIGN, Kind::MinusZero);
    seen.hit_if(pattern == size && subnormal, Kind::Subnormal);
    seen.hit_if(pattern != size && subnormal, Kind::MinusSubnormal);
    seen.hit_if(pattern > SIGN, Kind::Below);
    seen.hit_if(pattern == ONE, Kind::One);
    seen.hit_if(pattern == size && size > ONE, Kind::Above);
    seen.hit_if(pattern == LIMIT, Kind::Highest);
    seen.hit_if(pattern == SIGN | LIMIT, Kind::Lowest);
    seen.hit_if(pattern == HALF, Kind::Tie);
    seen.hit_if(halves().binary_search(&pattern).is_ok(), Kind::HalfBelow);
    seen.hit_if(pattern > 0 && halves().binary_search(&(pattern - 1)).is_ok(), Kind::HalfAbove);
    seen.hit_if(steps().binary_search(&pattern).is_ok(), Kind::Step);
    seen.hit_if((held * 255.0).round_ties_even() as u8 != due, Kind::Product);
    seen.hit_if((held * 255.0 + 0.5) as u8 != due, Kind::Added);
}

/// Which kinds bytes on their way into so many samples are of.
pub fn see_back(bytes: &[u8], count: usize, seen: &mut Seen) {
    if bytes.len() != count {
        seen.hit_if(count + 1 == bytes.len(), Kind::BackShort);
        seen.hit_if(count == bytes.len() + 1, Kind::BackLong);
        seen.hit_if(count == 0, Kind::BackNoSamples);
        seen.hit_if(bytes.is_empty(), Kind::BackNoBytes);
        return;
    }
    seen.hit_if(bytes.is_empty(), Kind::BackNone);
    seen.hit_if(bytes.len() == 1, Kind::BackOne);
    for &k in bytes {
        let own = f32::from_bits(sample(k));
        let (exact, product) = (f64::from(k) / 255.0, f32::from(k) * (1.0 / 255.0));
        seen.hit_if(k == 0, Kind::BackZero);
        seen.hit_if(k == 255, Kind::BackMost);
        seen.hit_if(f64::from(own) > exact, Kind::BackUp);
        seen.hit_if(own != product, Kind::BackProduct);
    }
}

/// Which kind a bad sample is of.
fn see_bad(pattern: u32, seen: &mut Seen) {
    const INFINITE: u32 = 0x7f80_0000;
    const QUIET: u32 = 0x7fc0_0000;
    let (size, minus) = (pattern & !SIGN, pattern & SIGN != 0);
    let [plain, signed] = match size {
        QUIET.. => [Kind::Quiet, Kind::MinusQuiet],
        INFINITE => [Kind::Infinite, Kind::MinusInfinite],
        INFINITE.. => [Kind::Signalling, Kind::MinusSignalling],
        _ if size == LIMIT + 1 => [Kind::OverLimit, Kind::UnderLimit],
        _ => return,
    };
    seen.hit(if minus { signed } else { plain });
}

/// Which kinds a refusal of samples into so many bytes is of.
pub fn see_refusal(samples: &[u32], count: usize, (number, place): (u8, usize), seen: &mut Seen) {
    let another = |list: &[u32]| list.iter().any(|&v| bad(v));
    if number == 40 {
        seen.hit_if(count + 1 == samples.len(), Kind::OutShort);
        seen.hit_if(count == samples.len() + 1, Kind::OutLong);
        seen.hit_if(count == 0, Kind::OutNoBytes);
        seen.hit_if(samples.is_empty(), Kind::OutNoSamples);
        seen.hit_if(another(samples), Kind::Order40And6);
        return;
    }
    let last = samples.len() - 1;
    see_bad(samples[place], seen);
    seen.hit(match place {
        0 if last == 0 => Kind::BadAlone,
        0 => Kind::BadFirst,
        _ if place == last => Kind::BadLast,
        _ => Kind::BadBetween,
    });
    seen.hit_if(another(&samples[place + 1..]), Kind::BadTwice);
}
