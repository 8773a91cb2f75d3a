//! Cases that are accepted: letters with holes, noise, few values so that medians lie on the zero value, values next to it, huge ones, zeros and flat bitmaps.

use crate::glyphs;
use crate::rng::Rng;

/// Samples and the zero value are at most so large in size.
pub const LIMIT: f32 = 1_048_576.0;
/// The next value above.
pub const ABOVE: f32 = f32::from_bits(LIMIT.to_bits() + 1);

#[derive(Clone)]
pub struct Case {
    pub kind: &'static str,
    pub width: usize,
    pub height: usize,
    pub channels: usize,
    pub samples: Vec<f32>,
    pub zero: f32,
    pub filled: Vec<u8>,
    /// What the match map holds before.
    pub matches: Vec<i8>,
    /// The number of the fill rule by which the original is told the filled map.
    #[cfg_attr(not(oracle), allow(dead_code))]
    pub rule: usize,
}

/// Width and height: mostly small, a row or a column at times, seldom large.
fn size(rng: &mut Rng) -> (usize, usize) {
    let long = 1 + rng.below(40);
    match rng.below(80) {
        0 => (64, 64),
        1..=6 => (1, long),
        7..=12 => (long, 1),
        _ => (1 + rng.below(9), 1 + rng.below(9)),
    }
}

/// A value of any size up to the limit, by its bits.
fn any(rng: &mut Rng) -> f32 {
    let bits = rng.below(LIMIT.to_bits() as usize + 1) as u32;
    f32::from_bits(bits | (rng.next() as u32 & 0x8000_0000))
}

fn within(v: f32) -> f32 {
    v.clamp(-LIMIT, LIMIT)
}

fn zero_value(rng: &mut Rng) -> f32 {
    let subnormal = f32::from_bits(1 + rng.below(0x007F_FFFF) as u32);
    let unit = rng.unit() as f32;
    match rng.below(14) {
        0..=3 => 0.5,
        4 => 0.0,
        5 => -0.0,
        6 => -unit,
        7 => rng.pick(&[LIMIT, -LIMIT]),
        8 => rng.pick(&[subnormal, -subnormal, f32::from_bits(1), f32::from_bits(0x007F_FFFF)]),
        9 => rng.pick(&[1.0, 2.0, 0.25, -1.0, 1024.0, f32::MIN_POSITIVE]),
        10 => unit,
        _ => any(rng),
    }
}

/// The value that is so many steps above v, below it where `steps` is negative.
fn stepped(v: f32, steps: i64) -> f32 {
    let key = |v: f32| if v.to_bits() >> 31 == 0 { i64::from(v.to_bits()) } else { -i64::from(v.to_bits() & 0x7FFF_FFFF) };
    let to = key(v) + steps;
    let size = f32::from_bits(to.unsigned_abs() as u32);
    within(if to < 0 { -size } else { size })
}

/// Few values: the zero value, often, and one or two on each side of it.
fn palette(rng: &mut Rng, zero: f32) -> Vec<f32> {
    let far = rng.pick(&[0.25, 0.5, 1.0, 1000.0]) * rng.pick(&[1.0, zero.abs().max(f32::MIN_POSITIVE)]);
    let sides = [within(zero - far), within(zero + far), within(zero - 3.0 * far), within(zero + 2.0 * far)];
    let mut values = vec![zero; rng.pick(&[1, 1, 2, 4])];
    values.extend(&sides[..2 + rng.below(3)]);
    values
}

/// A filled map with no regard to any sample: at random, all alike, or a part filled.
fn any_filled(rng: &mut Rng, width: usize, height: usize) -> Vec<u8> {
    let (way, x, y) = (rng.below(5), rng.below(width + 1), rng.below(height + 1));
    let texel = |rng: &mut Rng, k: usize| match way {
        0 => 0,
        1 => 1,
        2 => u8::from(k % width < x && k / width >= y),
        _ => rng.below(2) as u8,
    };
    (0..width * height).map(|k| texel(rng, k)).collect()
}

/// 1 for each texel whose median, or only value, lies above the zero value.
fn filled_by(samples: &[f32], channels: usize, zero: f32) -> Vec<u8> {
    let above = |texel: &[f32]| texel.iter().take(3).filter(|&&v| v > zero).count() > channels.min(3) / 2;
    samples.chunks(channels).map(|texel| u8::from(above(texel))).collect()
}

/// Turns islands of texels inside out, all channels of a texel or some.
fn holes(rng: &mut Rng, case: &mut Case) {
    let (w, h) = (case.width as i64, case.height as i64);
    for _ in 0..1 + rng.below(3) {
        let (x, y, radius) = (rng.range(0, w - 1), rng.range(0, h - 1), rng.range(0, 2));
        let all = !rng.one_in(4);
        for k in 0..case.width * case.height {
            let (dx, dy) = (k as i64 % w - x, k as i64 / w - y);
            if dx * dx + dy * dy <= radius * radius {
                for v in &mut case.samples[k * case.channels..(k + 1) * case.channels] {
                    if all || rng.one_in(2) {
                        *v = within(case.zero + case.zero - *v);
                    }
                }
            }
        }
    }
}

/// The samples of a glyph; one channel is its fourth.
fn glyph(rng: &mut Rng, width: usize, height: usize, channels: usize) -> Vec<f32> {
    let drawn = glyphs::glyph(rng, width, height);
    let range = rng.pick(&[1.0, 2.0, 4.0]);
    let samples = glyphs::field(&drawn, width, height, if channels == 1 { 4 } else { channels }, range);
    if channels == 1 { samples.chunks(4).map(|texel| texel[3]).collect() } else { samples }
}

/// Three values with the zero value in the middle, in any order, and a fourth.
fn balanced(rng: &mut Rng, zero: f32, channels: usize) -> Vec<f32> {
    let [a, b] = [rng.below(4) as f32, rng.below(4) as f32];
    let mut texel = vec![within(zero - a), zero, within(zero + b), within(zero + a - b)];
    let at = rng.below(3);
    texel.swap(at, 1);
    texel.truncate(channels);
    texel
}

/// The samples of one kind, and its name.
fn samples(rng: &mut Rng, case: &Case) -> (&'static str, Vec<f32>) {
    let (zero, count) = (case.zero, case.width * case.height * case.channels);
    let mut list = |of: &mut dyn FnMut(&mut Rng) -> f32| (0..count).map(|_| of(rng)).collect::<Vec<f32>>();
    match case.kind {
        "glyph" => ("glyph", glyph(rng, case.width, case.height, case.channels)),
        "noise" => ("noise", list(&mut |rng| within(zero + (rng.unit() - 0.5) as f32 * zero.abs().max(1.0)))),
        "few" => {
            let values = palette(rng, zero);
            ("few", (0..count).map(|_| rng.pick(&values)).collect())
        }
        "near" => ("near", list(&mut |rng| stepped(zero, rng.range(-2, 2)))),
        "huge" => ("huge", list(&mut |rng| if rng.one_in(3) { rng.pick(&[LIMIT, -LIMIT, stepped(LIMIT, -1)]) } else { any(rng) })),
        "zeros" => ("zeros", list(&mut |rng| rng.pick(&[0.0, -0.0, 0.0, -0.0, f32::from_bits(1), -f32::from_bits(1), 1.0]))),
        "flat" => ("flat", balanced(rng, zero, case.channels).repeat(case.width * case.height)),
        _ => {
            // Texels on the zero value among others that are not.
            let often = 1 + rng.below(3);
            let texel = |rng: &mut Rng| {
                let v = within(zero + rng.pick(&[-2.0, -1.0, 1.0, 2.0]));
                if rng.below(4) < often { balanced(rng, zero, case.channels) } else { (0..case.channels).map(|_| if rng.one_in(6) { zero } else { v }).collect() }
            };
            ("votes", (0..case.width * case.height).flat_map(|_| texel(rng)).collect())
        }
    }
}

const NAMES: [&str; 8] = ["glyph", "noise", "few", "near", "huge", "zeros", "flat", "votes"];

/// A case of this size.
pub fn sized(rng: &mut Rng, (width, height): (usize, usize), channels: usize) -> Case {
    let kind = rng.pick(&NAMES);
    let zero = match kind {
        "glyph" => 0.5,
        "zeros" => rng.pick(&[0.0, -0.0, f32::from_bits(1)]),
        _ => zero_value(rng),
    };
    let rule = rng.below(4);
    let mut case = Case { kind, width, height, channels, samples: vec![], zero, filled: vec![], matches: vec![], rule };
    (case.kind, case.samples) = samples(rng, &case);
    case.filled = if kind != "glyph" && rng.one_in(2) { any_filled(rng, width, height) } else { filled_by(&case.samples, channels, zero) };
    if rng.one_in(2) {
        holes(rng, &mut case);
    }
    case.matches = (0..width * height).map(|_| rng.next() as i8).collect();
    case
}

pub fn accepted(rng: &mut Rng) -> Case {
    let (size, channels) = (size(rng), rng.pick(&[1, 3, 3, 4, 4]));
    sized(rng, size, channels)
}
