//! A stand-in for the library's samples as bytes and bytes as samples, right or wrong in one way: PIXELS_WRONG names the way. tests/pixels/wrong has them all.

#[path = "../ways.rs"]
mod ways;

/// The ways to be wrong, each by its name.
const WAYS: [&str; 25] = [
    "right",
    "tie-down",
    "truncated",
    "product-rounded",
    "product-away",
    "half-added",
    "factor-256",
    "one-wraps",
    "zero-wraps",
    "limit-refused",
    "limit-passed",
    "nan-taken",
    "refusal-writes",
    "samples-first",
    "place-last",
    "place-unwritten",
    "longer-taken",
    "last-left-out",
    "writes-beyond",
    "samples-held",
    "in-length-unasked",
    "in-refusal-writes",
    "in-reciprocal",
    "in-256",
    "in-last-left-out",
];

fn wrong(way: &str) -> bool {
    ways::wrong("PIXELS_WRONG", &WAYS, way)
}

const LIMIT: f32 = 1_048_576.0;

fn bad(v: f32) -> bool {
    if wrong("limit-refused") {
        !(v.abs() < LIMIT)
    } else if wrong("limit-passed") {
        !(v.abs() <= LIMIT.next_up())
    } else if wrong("nan-taken") {
        v.abs() > LIMIT
    } else {
        !(v.abs() <= LIMIT)
    }
}

/// The byte of a sample: 255 times it is exact in f64.
fn byte(v: f32) -> u8 {
    let held = v.clamp(0.0, 1.0);
    let wide = f64::from(held) * 255.0;
    if wrong("tie-down") && held == 0.5 {
        127
    } else if wrong("truncated") {
        wide as u8
    } else if wrong("product-rounded") {
        (held * 255.0).round_ties_even() as u8
    } else if wrong("product-away") {
        (held * 255.0).round() as u8
    } else if wrong("half-added") {
        (held * 255.0 + 0.5) as u8
    } else if wrong("factor-256") {
        (f64::from(held) * 256.0).round_ties_even() as u8
    } else if wrong("one-wraps") {
        (f64::from(v.max(0.0)) * 255.0).round_ties_even() as i64 as u8
    } else if wrong("zero-wraps") {
        (f64::from(v.min(1.0)) * 255.0).round_ties_even() as i64 as u8
    } else {
        wide.round_ties_even() as u8
    }
}

fn sample(k: u8) -> f32 {
    if wrong("in-reciprocal") {
        f32::from(k) * (1.0 / 255.0)
    } else if wrong("in-256") {
        f32::from(k) / 256.0
    } else {
        f32::from(k) / 255.0
    }
}

fn refusal(samples: &[f32], bytes: &[u8]) -> (u8, usize) {
    let place = if wrong("place-last") { samples.iter().rposition(|&v| bad(v)) } else { samples.iter().position(|&v| bad(v)) };
    let differ = if wrong("longer-taken") { bytes.len() < samples.len() } else { bytes.len() != samples.len() };
    match (differ, place) {
        (true, Some(place)) if wrong("samples-first") => (6, place),
        (true, _) => (40, 0),
        (false, Some(place)) => (6, place),
        (false, None) => (0, 0),
    }
}

/// How many of so many are written: where the way is wrong, not the last of some.
fn written(way: &str, count: usize) -> usize {
    if wrong(way) && count % 8 == 7 { count - 1 } else { count }
}

/// # Safety
/// As include/rungtwine.h says.
#[no_mangle]
pub unsafe extern "C" fn rungtwine_samples_to_bytes(samples: *const f32, samples_len: usize, bytes: *mut u8, bytes_len: usize, place: *mut usize) -> u8 {
    let (list, into) = unsafe { (std::slice::from_raw_parts(samples, samples_len), std::slice::from_raw_parts_mut(bytes, bytes_len)) };
    let (number, at) = refusal(list, into);
    if number == 0 || wrong("refusal-writes") {
        let good = list.iter().take_while(|&&v| !bad(v)).take(written("last-left-out", samples_len));
        into.iter_mut().zip(good).for_each(|(byte_of, &v)| *byte_of = byte(v));
    }
    if number == 0 && samples_len % 16 != 0 && wrong("writes-beyond") {
        unsafe { *bytes.add(bytes_len) = 0 };
    }
    if number == 0 && wrong("samples-held") {
        (0..samples_len).for_each(|k| unsafe { *samples.cast_mut().add(k) = (*samples.add(k)).clamp(0.0, 1.0) });
    }
    if number != 0 || !wrong("place-unwritten") {
        unsafe { *place = at };
    }
    number
}

/// # Safety
/// As include/rungtwine.h says.
#[no_mangle]
pub unsafe extern "C" fn rungtwine_bytes_to_samples(bytes: *const u8, bytes_len: usize, samples: *mut f32, samples_len: usize, place: *mut usize) -> u8 {
    let (list, into) = unsafe { (std::slice::from_raw_parts(bytes, bytes_len), std::slice::from_raw_parts_mut(samples, samples_len)) };
    let number = if samples_len != bytes_len && !wrong("in-length-unasked") { 40 } else { 0 };
    if number == 0 || wrong("in-refusal-writes") {
        into.iter_mut().zip(list).take(written("in-last-left-out", bytes_len)).for_each(|(sample_of, &k)| *sample_of = sample(k));
    }
    unsafe { *place = 0 };
    number
}
