//! A flipped value beyond 1,048,576, and what the error correction behind it then answers: `Laws/Beyond.antt` of crate signs has the same, evaluated.

use crate::rungtwine::{error_correction, sign_correction, Mode, Outlines, Refusal, Settings};

const LIMIT: f32 = 1_048_576.0;

/// One texel of three channels at the lower limit, filled: its samples and its match after the correction of signs, and what the error correction answers.
fn after(zero: f32) -> ([f32; 3], i8, Option<Refusal>) {
    let (mut samples, mut matches) = ([-LIMIT; 3], [5i8]);
    sign_correction((1, 1, 3), &mut samples, zero, &[1], &mut matches).expect("the texel is accepted");
    let settings = Settings { ratio: 1.0, horizontal: 0.25, vertical: 0.25, diagonal: 0.25 };
    let outlines = Outlines { colours: &[], coords: &[], ends: &[] };
    let mut corrected = samples;
    let answer = error_correction((1, 1, 3), &mut corrected, &mut [0], &mut [0.0; 2], Mode::Indiscriminate, settings, outlines);
    (samples, matches[0], answer.err())
}

/// Whether the smallest example and its neighbours come out as they are proved.
pub fn as_proved() -> bool {
    let step_above = f32::from_bits(LIMIT.to_bits() + 1);
    let refused = Some(Refusal { number: 6, place: 0 });
    let half = 1.0 / 32.0;
    after(1.0 / 16.0) == ([step_above; 3], -1, refused)
        && after(half) == ([LIMIT; 3], -1, None)
        && after(f32::from_bits(half.to_bits() + 1)) == ([step_above; 3], -1, refused)
}
