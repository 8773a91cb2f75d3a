//! One field measured: the original and the proved pass by turns, in one thread.

use crate::fields::{Field, RATIO};
use crate::rungtwine::{error_correction, Counts, Mode, Outlines, Settings};

extern "C" {
    fn clock_gettime(clock: i32, time: *mut [i64; 2]) -> i32;
}

/// Seconds of processor time of this thread.
pub fn now() -> f64 {
    const THREAD_CPU_TIME: i32 = 3;
    let mut time = [0i64; 2];
    assert!(unsafe { clock_gettime(THREAD_CPU_TIME, &mut time) } == 0);
    time[0] as f64 + time[1] as f64 * 1e-9
}

pub fn median(times: &mut [f64]) -> f64 {
    times.sort_by(|a, b| a.partial_cmp(b).unwrap());
    times[times.len() / 2]
}

/// How often so many texels are measured.
pub fn runs(texels: usize) -> usize {
    (7_000_000 / texels).clamp(3, 15)
}

/// What is lent to a pass: samples, a stencil and a room of two rows.
pub struct Lent {
    pub samples: Vec<f32>,
    pub stencil: Vec<u8>,
    pub room: Vec<f32>,
}

impl Lent {
    pub fn new(samples: &[f32], width: usize) -> Lent {
        Lent { samples: samples.to_vec(), stencil: vec![0xA5; samples.len() / 3], room: vec![0.0; 2 * width] }
    }
}

/// The settings and the outlines of a field.
pub fn given(field: &Field) -> (Settings, Outlines<'_>) {
    let [horizontal, vertical, diagonal] = field.lengths;
    (Settings { ratio: RATIO, horizontal, vertical, diagonal }, Outlines { colours: &field.colours, coords: &field.coords, ends: &field.ends })
}

/// One run of the proved pass: seconds, and what it counted.
pub fn ours(field: &Field, mode: Mode, lent: &mut Lent) -> (f64, Counts) {
    lent.samples.copy_from_slice(&field.samples);
    let (settings, outlines) = given(field);
    let start = now();
    let answer = error_correction((field.size, field.size, 3), &mut lent.samples, &mut lent.stencil, &mut lent.room, mode, settings, outlines);
    let seconds = now() - start;
    (seconds, answer.expect("refused"))
}

pub struct Measured {
    pub runs: usize,
    /// Nanoseconds a texel.
    pub original: f64,
    pub ours: f64,
    /// What the proved pass counted and left.
    pub counts: Counts,
    pub left: Lent,
    /// Whether the two sides agree in every sample, a zero's sign aside, and in the number of range tests.
    pub same: bool,
}

pub fn measure(field: &Field, mode: Mode) -> Measured {
    let texels = field.size * field.size;
    let task = oracle::Task::new(mode as u8, RATIO, field.lengths, &field.colours, &field.coords, &field.ends);
    let mut left = Lent::new(&field.samples, field.size);
    // Counted once and apart from what is timed: the original's own entry counts nothing.
    let tests = oracle::answer(field.size, field.size, 3, &mut left.samples, &task).tests.iter().map(|&n| n as usize).sum::<usize>();
    let mut bitmap = oracle::bitmap_of::<3>(field.size, field.size, &field.samples);
    let runs = runs(texels);
    let (mut original, mut proved) = (Vec::new(), Vec::new());
    let (mut counted, mut same) = (None, true);
    // The first round warms both up and is not counted.
    for round in 0..=runs {
        bitmap.data_mut().copy_from_slice(&field.samples);
        let start = now();
        oracle::correct(&mut bitmap, &task);
        let seconds = now() - start;
        let (own, counts) = ours(field, mode, &mut left);
        same &= counts.tests == tests;
        counted = Some(counts);
        if round > 0 {
            original.push(seconds);
            proved.push(own);
        }
    }
    same &= left.samples.iter().zip(bitmap.data()).all(|(a, b)| a == b);
    let ns = |times: &mut [f64]| median(times) * 1e9 / texels as f64;
    Measured { runs, original: ns(&mut original), ours: ns(&mut proved), counts: counted.expect("a run"), left, same }
}
