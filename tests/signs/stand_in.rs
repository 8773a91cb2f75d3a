//! A stand-in for the library's correction of signs, right or wrong in one way: SIGNS_WRONG names the way. tests/signs/wrong has them all.

#[path = "../ways.rs"]
mod ways;

/// The ways to be wrong, each by its name.
const WAYS: [&str; 16] = [
    "right",
    "at-least",
    "vote-flipped-only",
    "vote-voted",
    "vote-at-zero",
    "fourth-with-three",
    "fourth-by-median",
    "matches-voted",
    "matches-stay",
    "flip-twice-rounded",
    "border-wraps",
    "limit-refused",
    "place-last",
    "filled-after-matches",
    "zero-before-samples",
    "refusal-writes",
];

fn wrong(way: &str) -> bool {
    ways::wrong("SIGNS_WRONG", &WAYS, way)
}

const LIMIT: f32 = 1_048_576.0;

fn bad(v: f32) -> bool {
    if wrong("limit-refused") { !(v.abs() < LIMIT) } else { !(v.abs() <= LIMIT) }
}

struct Bitmap {
    width: usize,
    height: usize,
    channels: usize,
}

fn refusal(b: &Bitmap, samples: &[f32], zero: f32, filled: &[u8], matches: &[i8]) -> (u8, usize) {
    let sides = 1..=4096;
    if ![1, 3, 4].contains(&b.channels) {
        return (1, 0);
    }
    if !sides.contains(&b.width) || !sides.contains(&b.height) {
        return (2, 0);
    }
    let texels = b.width * b.height;
    if samples.len() != texels * b.channels {
        return (3, 0);
    }
    if wrong("zero-before-samples") && bad(zero) {
        return (10, 0);
    }
    let place = if wrong("place-last") { samples.iter().rposition(|&v| bad(v)) } else { samples.iter().position(|&v| bad(v)) };
    if let Some(place) = place {
        return (6, place);
    }
    if bad(zero) {
        return (10, 0);
    }
    if wrong("filled-after-matches") && matches.len() != texels {
        return (12, 0);
    }
    if filled.len() != texels || filled.iter().any(|&byte| byte > 1) {
        return (11, 0);
    }
    (if matches.len() != texels { 12 } else { 0 }, 0)
}

fn flip(zero: f32, v: f32) -> f32 {
    if wrong("flip-twice-rounded") { zero + (zero - v) } else { zero + zero - v }
}

fn amiss(zero: f32, filled: u8, v: f32) -> bool {
    let above = if wrong("at-least") { v >= zero } else { v > zero };
    above != (filled == 1)
}

fn vote(matches: &[i8], b: &Bitmap, k: usize) -> i32 {
    let (x, y) = (k % b.width, k / b.width);
    let wraps = wrong("border-wraps");
    let counted = |n: usize| {
        let m = i32::from(matches[n]);
        if wrong("vote-flipped-only") { m.min(0) } else { m }
    };
    let mut sum = 0;
    if if wraps { k > 0 } else { x > 0 } {
        sum += counted(k - 1);
    }
    if if wraps { k + 1 < matches.len() } else { x + 1 < b.width } {
        sum += counted(k + 1);
    }
    if y > 0 {
        sum += counted(k - b.width);
    }
    if y + 1 < b.height {
        sum += counted(k + b.width);
    }
    sum
}

fn correct(b: &Bitmap, samples: &mut [f32], zero: f32, filled: &[u8], matches: &mut [i8]) {
    if b.channels == 1 {
        if !wrong("matches-stay") {
            matches.fill(0);
        }
        for (v, &filled) in samples.iter_mut().zip(filled) {
            if amiss(zero, filled, *v) {
                *v = flip(zero, *v);
            }
        }
        return;
    }
    let median = |v: &[f32]| v[0].min(v[1]).max(v[0].max(v[1]).min(v[2]));
    for (k, texel) in samples.chunks(b.channels).enumerate() {
        let m = median(texel);
        matches[k] = if m == zero { 0 } else if amiss(zero, filled[k], m) { -1 } else { 1 };
    }
    let mut voted = matches.to_vec();
    for (k, texel) in samples.chunks_mut(b.channels).enumerate() {
        let m = median(texel);
        let turns = match matches[k] {
            0 => {
                let sum = vote(if wrong("vote-voted") { &voted } else { matches }, b, k);
                sum < 0 || (sum == 0 && wrong("vote-at-zero"))
            }
            m => m < 0,
        };
        if turns {
            voted[k] = -1;
            texel[..3].iter_mut().for_each(|v| *v = flip(zero, *v));
        }
        if b.channels == 4 {
            let own = amiss(zero, filled[k], if wrong("fourth-by-median") { m } else { texel[3] });
            if if wrong("fourth-with-three") { turns } else { own } {
                texel[3] = flip(zero, texel[3]);
            }
        }
    }
    if wrong("matches-voted") {
        matches.copy_from_slice(&voted);
    }
}

/// # Safety
/// As include/rungtwine.h says.
#[no_mangle]
pub unsafe extern "C" fn rungtwine_sign_correction(
    width: usize,
    height: usize,
    channels: usize,
    samples: *mut f32,
    samples_len: usize,
    zero: f32,
    filled: *const u8,
    filled_len: usize,
    matches: *mut i8,
    matches_len: usize,
    place: *mut usize,
) -> u8 {
    let b = Bitmap { width, height, channels };
    let (samples, filled, matches) = unsafe {
        (std::slice::from_raw_parts_mut(samples, samples_len), std::slice::from_raw_parts(filled, filled_len), std::slice::from_raw_parts_mut(matches, matches_len))
    };
    let (number, at) = refusal(&b, samples, zero, filled, matches);
    if number == 0 {
        correct(&b, samples, zero, filled, matches);
    } else if wrong("refusal-writes") {
        matches.fill(0);
    }
    unsafe { *place = at };
    number
}
