//! The fields that are measured: squares, all samples of three channels.

use crate::glyphs;
use crate::rng::Rng;

pub struct Field {
    pub name: String,
    pub size: usize,
    pub samples: Vec<f32>,
    pub lengths: [f64; 3],
    pub colours: Vec<u8>,
    pub coords: Vec<f64>,
    pub ends: Vec<usize>,
}

pub const RATIO: f64 = 10.0 / 9.0;

fn glyph_field(size: usize) -> Field {
    let mut rng = Rng::new(11, size as u64);
    let glyph = glyphs::glyph(&mut rng, size, size);
    let range = 4.0;
    let samples = glyphs::field(&glyph, size, size, 3, range);
    let step = 1.0 / range;
    let mut field = Field {
        name: "glyph".into(),
        size,
        samples,
        lengths: [step, step, std::f64::consts::SQRT_2 * step],
        colours: vec![],
        coords: vec![],
        ends: vec![],
    };
    for contour in &glyph.contours {
        for &(colour, x, y) in contour {
            field.colours.push(colour);
            field.coords.extend([x, y]);
        }
        field.ends.push(field.colours.len());
    }
    field
}

pub fn noise_field(size: usize) -> Field {
    let mut rng = Rng::new(12, size as u64);
    let samples = (0..size * size * 3).map(|_| rng.unit() as f32).collect();
    Field { name: "noise".into(), size, samples, lengths: [0.25, 0.25, 0.35], colours: vec![], coords: vec![], ends: vec![] }
}

/// Figure C13 in every direction: each second texel takes all the range tests that a texel can, but at the border.
fn checkered_field(size: usize) -> Field {
    let samples = (0..size * size).flat_map(|k| if (k % size + k / size) % 2 == 0 { [0.5, 1.0, 1.5] } else { [2.5, 0.75, -0.5] }).collect();
    Field { name: "checkered".into(), size, samples, lengths: [16.0; 3], colours: vec![], coords: vec![], ends: vec![] }
}

pub fn fields(size: usize) -> [Field; 3] {
    [glyph_field(size), noise_field(size), checkered_field(size)]
}
