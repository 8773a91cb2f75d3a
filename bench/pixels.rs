//! Samples as bytes and bytes as samples beside straightforward Rust loops, on letters of two ranges.

use crate::measure::now;
use crate::rungtwine::{bytes_to_samples, samples_to_bytes};
use crate::shapes::{letter_sheet, RANGE};
use std::hint::black_box;

/// The side of a letter's cell, and the ranges in pixels from 0 to 1: a wide one, and the one of the other tables, with which most samples lie outside.
const CELL: usize = 32;
const RANGES: [f64; 2] = [16.0, RANGE];
/// The limit of a sample's size.
const LIMIT: f32 = 1_048_576.0;
/// How often a row is measured, and how many samples are in one measure at least.
const ROUNDS: usize = 25;
const SAMPLES: usize = 1 << 20;

/// The loops, none of them inlined where it is measured.
mod loops {
    use super::LIMIT;

    #[inline(never)]
    pub fn round(samples: &[f32], bytes: &mut [u8]) {
        bytes.iter_mut().zip(samples).for_each(|(k, v)| *k = (v.clamp(0.0, 1.0) * 255.0).round() as u8);
    }

    #[inline(never)]
    pub fn quick(samples: &[f32], bytes: &mut [u8]) {
        bytes.iter_mut().zip(samples).for_each(|(k, v)| *k = (v.clamp(0.0, 1.0) * 255.0 + 0.5) as u8);
    }

    #[inline(never)]
    pub fn exact(samples: &[f32], bytes: &mut [u8]) {
        bytes.iter_mut().zip(samples).for_each(|(k, v)| *k = (f64::from(v.clamp(0.0, 1.0)) * 255.0).round_ties_even() as u8);
    }

    /// What ours checks too. It asks all samples whatever it finds, so that the compiler takes several at once.
    #[inline(never)]
    pub fn check(samples: &[f32]) {
        assert!(samples.iter().fold(true, |good, v| good & (v.abs() <= LIMIT)), "refused");
    }

    #[inline(never)]
    pub fn division(bytes: &[u8], samples: &mut [f32]) {
        samples.iter_mut().zip(bytes).for_each(|(v, k)| *v = f32::from(*k) / 255.0);
    }
}

fn checked_quick(samples: &[f32], bytes: &mut [u8]) {
    loops::check(samples);
    loops::quick(samples, bytes);
}

fn checked_exact(samples: &[f32], bytes: &mut [u8]) {
    loops::check(samples);
    loops::exact(samples, bytes);
}

fn ours_out(samples: &[f32], bytes: &mut [u8]) {
    samples_to_bytes(samples, bytes).expect("refused");
}

fn ours_in(bytes: &[u8], samples: &mut [f32]) {
    bytes_to_samples(bytes, samples).expect("refused");
}

/// The sides by turns: the best nanoseconds an element of each, and what each left.
fn measure<S, T: Copy + Default, const N: usize>(sides: [fn(&[S], &mut [T]); N], from: &[S]) -> ([f64; N], [Vec<T>; N]) {
    let calls = SAMPLES.div_ceil(from.len());
    let mut best = [f64::INFINITY; N];
    let mut left = [(); N].map(|_| vec![T::default(); from.len()]);
    for _ in 0..ROUNDS {
        for ((side, into), best) in sides.iter().zip(&mut left).zip(&mut best) {
            let start = now();
            for _ in 0..calls {
                side(black_box(from), black_box(into));
            }
            *best = best.min((now() - start) * 1e9 / (calls * from.len()) as f64);
        }
    }
    (best, left)
}

/// Letters of three channels, as they are with this range.
fn field(size: usize, range: f64) -> Vec<f32> {
    let wider = (RANGE / range) as f32;
    letter_sheet(size, CELL.min(size)).samples().iter().map(|v| 0.5 + (v - 0.5) * wider).collect()
}

/// Prints a field's line of the table and answers whether ours and the exact loops agree in every bit.
fn row(size: usize, range: f64) -> bool {
    let samples = field(size, range);
    let outside = samples.iter().filter(|v| !(0.0..=1.0).contains(*v)).count();
    let (out, bytes) = measure([loops::round, loops::quick, loops::exact, checked_quick, checked_exact, ours_out], &samples);
    let (back, again) = measure([loops::division, ours_in], &bytes[5]);
    let [round, quick, exact, with_quick, with_exact, ours] = out;
    println!(
        "| {} | {range} | {:.1} | {round:.2} | {quick:.2} | {exact:.2} | {with_quick:.2} | {with_exact:.2} | {ours:.2} | {:.2} | {:.2} | {:.2} | {:.2} |",
        samples.len(),
        100.0 * outside as f64 / samples.len() as f64,
        with_quick / ours,
        with_exact / ours,
        back[0],
        back[1],
    );
    bytes[2] == bytes[5] && again[0].iter().map(|v| v.to_bits()).eq(again[1].iter().map(|v| v.to_bits()))
}

/// Prints the table of each size and answers whether the sides agree.
pub fn table(sizes: &[usize]) -> bool {
    println!(
        "| samples | range | outside in 100 | rounded in f32, ns/sample | half added in f32 | rounded in f64 | checked, half added in f32 | checked, rounded in f64 | ours \
         | half added/ours | f64/ours | in, division | in, ours |"
    );
    println!("|---|---|---|---|---|---|---|---|---|---|---|---|---|");
    let mut same = true;
    for &size in sizes {
        for range in RANGES {
            same &= row(size, range);
        }
    }
    same
}
