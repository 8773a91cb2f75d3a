//! Cases for the runs: accepted ones that reach every branch, and faults put into them.

use crate::glyphs;
use crate::judge::{Input, LIMIT};
use crate::rng::Rng;

#[derive(Clone, Debug)]
pub struct Case {
    pub kind: &'static str,
    pub input: Input,
    pub samples: Vec<f32>,
    /// The stencil's old contents.
    pub stencil: Vec<u8>,
    /// The room's old contents.
    pub room: Vec<f32>,
}

// Values.

fn ulps(v: f32, k: i64) -> f32 {
    f32::from_bits((i64::from(v.to_bits()) + k) as u32)
}

fn value(rng: &mut Rng, class: usize) -> f32 {
    match class {
        0 => rng.range(-2, 10) as f32 / 8.0,
        1 => ulps(0.5, rng.range(-3, 3)),
        2 => rng.unit() as f32,
        3 => loop {
            let v = f32::from_bits(rng.next() as u32);
            if f64::from(v).abs() <= LIMIT {
                return v;
            }
        },
        4 => {
            let v = rng.pick(&[0.0, f32::from_bits(1), f32::from_bits(3), 1e-40, f32::MIN_POSITIVE, 1e-30, 0.25, 5.0]);
            if rng.one_in(2) { v } else { -v }
        }
        5 => {
            let v = rng.pick(&[1_048_576.0, 1_048_575.9, 524_288.0, 1_048_575.0, 1.0, 3.0]);
            if rng.one_in(2) { v } else { -v }
        }
        6 => rng.range(0, 1024) as f32 / 1024.0,
        7 => 0.5 + rng.range(-4, 4) as f32 / 16.0,
        _ => ulps(rng.range(1, 7) as f32 / 8.0, rng.range(-1, 1)),
    }
}

const CLASSES: usize = 9;

pub fn ratio(rng: &mut Rng) -> f64 {
    match rng.below(12) {
        0 => 0.0,
        1 => -0.0,
        2 => LIMIT,
        3 => rng.pick(&[1e-300, f64::from_bits(1), 0.5, 2.0]),
        4 => 2.0 * rng.unit(),
        5..=7 => 10.0 / 9.0,
        _ => 1.0,
    }
}

fn length(rng: &mut Rng) -> f64 {
    match rng.below(14) {
        0 => 0.0,
        1 => -0.0,
        2 => rng.pick(&[f64::from_bits(1), 1e-300, 1e-160, 1e-45, 1e-30, 1e-8]),
        3 => rng.pick(&[LIMIT, LIMIT - 1.0, 1000.0, 4.0]),
        4 => rng.unit(),
        5 => 0.249,
        6 => 0.25,
        7 => rng.pick(&[0.2497, 0.25 / 1.001, 0.5 / 1.001, 0.125 / 1.001, 0.25 / 1.001 * (1.0 - 1e-7)]),
        8 => rng.range(0, 64) as f64 / 1024.0,
        _ => rng.range(0, 16) as f64 / 16.0,
    }
}

pub fn lengths(rng: &mut Rng) -> [f64; 3] {
    let all = length(rng);
    if rng.one_in(3) { [all; 3] } else { [length(rng), length(rng), length(rng)] }
}

fn coordinate(rng: &mut Rng, side: usize) -> f64 {
    let s = side as f64;
    match rng.below(12) {
        0 => rng.pick(&[LIMIT, -LIMIT, -LIMIT + 0.25, LIMIT - 0.5, 1e6]),
        1 => rng.pick(&[0.0, -0.0, f64::from_bits(1), -f64::from_bits(1), 0.5, -0.5, 0.49999999999999994, -0.5000000000000001]),
        2 => rng.pick(&[s, s + 0.5, s - 0.5, s + 0.49999999999999994, s + 1.0, s + 1.5]),
        3 => rng.pick(&[-1.5, -1.0, -2.5, -0.75, -3.0]),
        4 | 5 => rng.range(-2, side as i64 + 2) as f64 + 0.5,
        6 => rng.range(-2, side as i64 + 2) as f64,
        _ => (s + 3.0) * rng.unit() - 1.5,
    }
}

pub fn contour(rng: &mut Rng, width: usize, height: usize) -> Vec<(u8, f64, f64)> {
    let count = if rng.one_in(6) { 0 } else { 1 + rng.below(5) };
    (0..count).map(|_| (rng.below(8) as u8, coordinate(rng, width), coordinate(rng, height))).collect()
}

pub fn set_contours(input: &mut Input, contours: &[Vec<(u8, f64, f64)>]) {
    input.colours.clear();
    input.coords.clear();
    input.ends.clear();
    for contour in contours {
        for &(colour, x, y) in contour {
            input.colours.push(colour);
            input.coords.extend([x, y]);
        }
        input.ends.push(input.colours.len());
    }
}

pub fn contours_of(input: &Input) -> Vec<Vec<(u8, f64, f64)>> {
    let mut start = 0;
    let mut contours = Vec::new();
    for &end in &input.ends {
        contours.push((start..end).map(|s| (input.colours[s], input.coords[2 * s], input.coords[2 * s + 1])).collect());
        start = end;
    }
    contours
}

// Fields.

fn size(rng: &mut Rng) -> (usize, usize) {
    match rng.below(1000) {
        0 => rng.pick(&[(4096, 1), (1, 4096), (96, 80), (70, 130)]),
        1..=8 => (1 + rng.below(64), 1 + rng.below(64)),
        9..=100 => (5 + rng.below(9), 5 + rng.below(9)),
        101..=200 => rng.pick(&[(1, 1), (1, 2), (2, 1), (1, 5), (6, 1)]),
        _ => (1 + rng.below(5), 1 + rng.below(5)),
    }
}

/// A second texel that lies near the first in some channels.
fn near(rng: &mut Rng, texel: [f32; 3], class: usize) -> [f32; 3] {
    let mut t = texel;
    match rng.below(5) {
        0 => t.swap(rng.below(3), rng.below(3)),
        1 => t[rng.below(3)] = value(rng, class),
        2 => {
            let c = rng.below(3);
            t[c] = 1.0 - t[c];
        }
        3 => {
            let c = rng.below(3);
            t[c] = t[(c + 1) % 3];
        }
        _ => t = [value(rng, class), value(rng, class), value(rng, class)],
    }
    t
}

/// Texels of the scope document's figures.
const FIGURES: [[f32; 3]; 10] = [
    [1.0, 0.0, 0.75],
    [0.0, 1.0, 0.75],
    [1.0, 0.625, 0.75],
    [0.625, 1.0, 0.75],
    [0.75, 0.25, 0.625],
    [0.25, 0.75, 0.375],
    [0.5, 0.5, 0.75],
    [-0.0, 0.0, 5.0],
    [0.0, 0.25, 0.0],
    [0.0, -0.0, 5.0],
];

/// Four texels whose pair (i, j) has the given differences at a, over b and c together, and at d.
fn with_differences(rng: &mut Rng, class: usize, d_a: f32, d_bc: f32, d_d: f32) -> [[f32; 3]; 4] {
    let (i, j) = rng.pick(&[(1, 0), (2, 1), (0, 2)]);
    let part = d_bc * rng.pick(&[0.0, 0.5, 1.0, 0.25]);
    let mut texels = [[0f32; 3]; 4];
    for (texel, d) in texels.iter_mut().zip([d_a, part, d_bc - part, d_d]) {
        *texel = [value(rng, class), value(rng, class), value(rng, class)];
        texel[i] = texel[j] + d;
    }
    texels
}

/// Differences with roots in chosen places, exact where the numbers are small enough.
fn quadratic(rng: &mut Rng) -> (f32, f32, f32) {
    let k = rng.pick(&[1.0f32, 2.0, -1.0, 3.0, -5.0]) / rng.pick(&[64.0f32, 128.0, 1024.0, 16.0]);
    match rng.below(9) {
        // the line's root at 1/100 and at 99/100
        0 => (k, -98.0 * k, -99.0 * k),
        1 => (99.0 * k, 98.0 * k, -k),
        // a double root at 1/2, 1/4, 3/4
        2 => (k, -2.0 * k, k),
        3 => (k, -6.0 * k, 9.0 * k),
        4 => (9.0 * k, -6.0 * k, k),
        // too steep, and nothing at all
        5 => (1e-20, rng.pick(&[1.0, 0.5, -0.25]), 0.0),
        6 => (rng.pick(&[0.0, k]), 0.0, 0.0),
        // two roots r / 16 and s / 16, or one of them outside
        _ => {
            let (r, s) = (rng.range(-4, 20) as f32, rng.range(-4, 20) as f32);
            let c = k * r * s / 256.0;
            let b = -k * (r + s) / 16.0;
            let d_bc = b + 2.0 * c;
            (c, d_bc, k + d_bc - c)
        }
    }
}

pub fn fill_field(rng: &mut Rng, kind: usize, w: usize, h: usize, n: usize) -> Vec<f32> {
    let class = rng.below(CLASSES);
    let mut texels: Vec<[f32; 3]> = vec![[0.0; 3]; w * h];
    match kind {
        0 => texels.iter_mut().flatten().for_each(|v| *v = value(rng, class)),
        1 => texels.iter_mut().flatten().for_each(|v| {
            let class = rng.below(CLASSES);
            *v = value(rng, class);
        }),
        2 => {
            let mut last = [value(rng, class), value(rng, class), value(rng, class)];
            for t in &mut texels {
                *t = last;
                last = near(rng, last, class);
            }
        }
        3 => {
            let palette: Vec<[f32; 3]> = (0..2 + rng.below(3)).map(|_| [value(rng, class), value(rng, class), value(rng, class)]).collect();
            texels.iter_mut().for_each(|t| *t = rng.pick(&palette));
        }
        4 => {
            let one_in = 2 + rng.below(6);
            for t in &mut texels {
                *t = rng.pick(&FIGURES);
                if rng.one_in(one_in) {
                    t[rng.below(3)] = value(rng, class);
                }
            }
        }
        5 => {
            // Linear quotients at 1/100, 99/100 and beside them.
            let k = 1.0 / rng.pick(&[128.0f32, 256.0, 1024.0]);
            let low = rng.one_in(2);
            let (i, j) = rng.pick(&[(1, 0), (2, 1), (0, 2)]);
            for (at, t) in texels.iter_mut().enumerate() {
                *t = [value(rng, class), value(rng, class), value(rng, class)];
                let d = if (at % w + at / w) % 2 == 0 { if low { k } else { 99.0 * k } } else if low { -99.0 * k } else { -k };
                t[j] = value(rng, 0);
                t[i] = t[j] + d;
                if rng.one_in(8) {
                    t[i] = ulps(t[i], 1);
                }
            }
        }
        6 => {
            // Blocks of four with a quadratic in view.
            for by in (0..h).step_by(2) {
                for bx in (0..w).step_by(2) {
                    let (d_a, d_bc, d_d) = quadratic(rng);
                    let class = rng.pick(&[0, 6, 7, class]);
                    let block = with_differences(rng, class, d_a, d_bc, d_d);
                    let turn = rng.below(4);
                    for (k, t) in block.into_iter().enumerate() {
                        let (dx, dy) = ((k % 2) ^ (turn % 2), (k / 2) ^ (turn / 2));
                        if bx + dx < w && by + dy < h {
                            texels[(by + dy) * w + bx + dx] = t;
                        }
                    }
                }
            }
        }
        _ => {
            // Grey with a few coloured texels.
            for t in &mut texels {
                *t = [value(rng, class); 3];
                if rng.one_in(4) {
                    *t = near(rng, *t, class);
                }
            }
        }
    }
    let mut samples = Vec::with_capacity(w * h * n);
    for t in texels {
        for v in t {
            samples.push(v.clamp(-1_048_576.0, 1_048_576.0));
        }
        if n == 4 {
            samples.push(value(rng, class));
        }
    }
    samples
}

const KINDS: [&str; 10] =
    ["one class", "mixed classes", "neighbours near", "palette", "figures", "quotients", "quadratics", "grey", "glyph", "checkered"];

/// A room for two rows of a bitmap so wide, or as wide as one can be, with some of these bits in each element.
pub fn room(width: usize, old: u64) -> Vec<f32> {
    (0..2 * width.min(4096)).map(|i| f32::from_bits(old.rotate_left(i as u32 % 64) as u32)).collect()
}

pub fn finish(rng: &mut Rng, kind: &'static str, input: Input, samples: Vec<f32>) -> Case {
    let old = rng.next();
    let stencil = (0..input.width * input.height).map(|i| (old.rotate_left(i as u32 % 64) & 0xFF) as u8).collect();
    let room = room(input.width, old);
    Case { kind, input, samples, stencil, room }
}

pub fn glyph_case(rng: &mut Rng) -> Case {
    let (width, height) = if rng.one_in(8) { (8 + rng.below(40), 8 + rng.below(40)) } else { (4 + rng.below(8), 4 + rng.below(8)) };
    let channels = 3 + rng.below(2);
    let glyph = glyphs::glyph(rng, width, height);
    let range = rng.pick(&[1.0, 2.0, 4.0, 6.5, 0.5]);
    let mut samples = glyphs::field(&glyph, width, height, channels, range);
    if rng.one_in(2) {
        let amount = rng.pick(&[0.001, 0.01, 0.1, 0.5]);
        glyphs::noise(rng, &mut samples, amount);
    }
    if rng.one_in(2) {
        let every = 2 + rng.below(20);
        glyphs::invert(rng, &mut samples, channels, every);
    }
    let step = 1.0 / range;
    let mut input = Input {
        width,
        height,
        channels,
        mode: if rng.one_in(3) { 1 + rng.below(3) as u8 } else { 2 },
        ratio: if rng.one_in(3) { ratio(rng) } else { 10.0 / 9.0 },
        lengths: [step, step, std::f64::consts::SQRT_2 * step],
        colours: vec![],
        coords: vec![],
        ends: vec![],
    };
    set_contours(&mut input, &glyph.contours);
    finish(rng, KINDS[8], input, samples)
}

/// Two texels by turns, like the fields of a chessboard, whose channels lie this far from 0.5. At each side of the first every pair crosses; at each diagonal
/// every pair has two roots inside and two turning points between them. Where no artifact ends it, an inner texel of the first kind has 84 range tests.
pub fn checkered(width: usize, height: usize) -> Vec<[f32; 3]> {
    (0..width * height).map(|k| if (k % width + k / width) % 2 == 0 { [0.0, 0.5, 1.0] } else { [2.0, 0.25, -1.0] }).collect()
}

/// Many range tests: such a field at another scale, its channels in another order and some of its samples a little off; with lengths that stop nothing, or stop it somewhere.
fn checkered_case(rng: &mut Rng) -> Case {
    let (width, height) = if rng.one_in(3) { (3, 3) } else { (2 + rng.below(6), 2 + rng.below(6)) };
    let channels = 3 + usize::from(rng.one_in(3));
    let scale = rng.pick(&[1.0f32, 1.0, 0.5, 0.25, 2.0, 16.0, 0.75, -0.5, -1.0, -3.0]);
    let (centre, first) = (0.5 + scale * rng.pick(&[0.0, 0.0, 0.25, 1.0]), rng.below(3));
    let (off, often) = (rng.pick(&[0.0, 0.0, 0.015_625, 0.25, 1.0]), 1 + rng.below(8));
    let mut samples = Vec::with_capacity(width * height * channels);
    for texel in checkered(width, height) {
        for c in 0..channels {
            let moved = if rng.one_in(often) { off * (2.0 * rng.unit() - 1.0) as f32 } else { 0.0 };
            samples.push(centre + scale * (texel[(first + c) % 3] + moved));
        }
    }
    let long = rng.pick(&[64.0, 100.0, LIMIT, 16.0 * f64::from(scale.abs())]);
    let mut lengths = [long; 3];
    match rng.below(6) {
        0 => lengths[rng.below(3)] = 0.0,
        1 => lengths[rng.below(3)] = length(rng),
        2 => lengths = [0; 3].map(|_| f64::from(scale.abs()) * rng.unit()),
        _ => {}
    }
    let mode = rng.pick(&[1, 1, 1, 1, 2, 2, 3, 0]);
    let ratio = rng.pick(&[1.0, 1.0, 10.0 / 9.0, 0.5]);
    let mut input = Input { width, height, channels, mode, ratio, lengths, colours: vec![], coords: vec![], ends: vec![] };
    let contours: Vec<_> = (0..rng.below(3)).map(|_| contour(rng, width, height)).collect();
    set_contours(&mut input, &contours);
    finish(rng, KINDS[9], input, samples)
}

/// A case that the pass accepts.
pub fn accepted(rng: &mut Rng) -> Case {
    let kind = rng.below(KINDS.len());
    if kind == 8 {
        return glyph_case(rng);
    }
    if kind == 9 {
        return checkered_case(rng);
    }
    let (width, height) = size(rng);
    let channels = 3 + usize::from(rng.one_in(3));
    let samples = fill_field(rng, kind, width, height, channels);
    let mode = if rng.one_in(40) { 0 } else { rng.pick(&[1, 1, 2, 2, 2, 3]) };
    let mut input =
        Input { width, height, channels, mode, ratio: ratio(rng), lengths: lengths(rng), colours: vec![], coords: vec![], ends: vec![] };
    let count = if rng.one_in(2) { 0 } else { rng.below(4) };
    let contours: Vec<_> = (0..count).map(|_| contour(rng, width, height)).collect();
    set_contours(&mut input, &contours);
    finish(rng, KINDS[kind], input, samples)
}

// Faults.

fn bad_setting(rng: &mut Rng) -> f64 {
    rng.pick(&[
        f64::NAN,
        f64::from_bits(0xFFF0_0000_0000_0001),
        f64::INFINITY,
        f64::NEG_INFINITY,
        -1.0,
        -f64::from_bits(1),
        1_048_576.000_000_000_2,
        1e300,
    ])
}

fn bad_coordinate(rng: &mut Rng) -> f64 {
    rng.pick(&[
        f64::NAN,
        f64::from_bits(0x7FF0_0000_0000_0001),
        f64::INFINITY,
        f64::NEG_INFINITY,
        1_048_576.000_000_000_2,
        -1_048_576.000_000_000_2,
        -1e300,
    ])
}

pub fn bad_sample(rng: &mut Rng) -> f32 {
    rng.pick(&[
        f32::NAN,
        f32::from_bits(0xFF80_0001),
        f32::INFINITY,
        f32::NEG_INFINITY,
        1_048_576.1,
        -1_048_576.1,
        3e38,
    ])
}

/// Puts one fault of kind `fault` (below `FAULTS`) into the case, where there is room for it.
pub fn break_it(rng: &mut Rng, case: &mut Case, fault: usize) {
    let input = &mut case.input;
    let over = [4097, 65_536, 1 << 32, 1 << 63, usize::MAX];
    match fault {
        0 => input.channels = rng.pick(&[0, 1, 2, 5, 7, 256, 1 << 32, usize::MAX]),
        1 => input.width = if rng.one_in(2) { 0 } else { rng.pick(&over) },
        2 => input.height = if rng.one_in(2) { 0 } else { rng.pick(&over) },
        3 => case.samples.push(0.5),
        4 => drop(case.samples.pop()),
        5 => case.stencil.push(7),
        6 => drop(case.stencil.pop()),
        7 => input.mode = rng.pick(&[4, 5, 128, 255]),
        8 => input.ratio = bad_setting(rng),
        9..=11 => input.lengths[fault - 9] = bad_setting(rng),
        12 | 13 => {
            if !case.samples.is_empty() {
                let last = case.samples.len() - 1;
                let at = if rng.one_in(3) { rng.pick(&[0, last]) } else { rng.below(last + 1) };
                case.samples[at] = bad_sample(rng);
            }
        }
        14 => input.coords.push(0.0),
        15 => {
            if input.coords.pop().is_none() {
                input.colours.push(3);
            }
        }
        16 => input.colours.push(1),
        17 => {
            if !input.ends.is_empty() {
                let at = rng.below(input.ends.len());
                input.ends[at] = if rng.one_in(3) { usize::MAX } else { input.colours.len() + 1 };
            }
        }
        18 => {
            if !input.ends.is_empty() {
                let at = rng.below(input.ends.len());
                input.ends[at] = if rng.one_in(2) { 0 } else { input.ends[at].saturating_sub(1) };
            }
        }
        19 => input.ends.push(if rng.one_in(2) { 0 } else { input.colours.len() + rng.below(2) }),
        20 => {
            if rng.one_in(2) {
                input.ends.clear();
            } else {
                input.ends.pop();
            }
        }
        21 => {
            if !input.colours.is_empty() {
                let at = rng.below(input.colours.len());
                input.colours[at] = rng.pick(&[8, 9, 128, 255]);
            }
        }
        _ => {
            if !input.coords.is_empty() {
                let at = rng.below(input.coords.len());
                input.coords[at] = bad_coordinate(rng);
            }
        }
    }
}

pub const FAULTS: usize = 24;

/// One to four faults in a case that was accepted before.
pub fn broken(rng: &mut Rng) -> Case {
    let mut case = accepted(rng);
    while case.samples.len() > 400 {
        case = accepted(rng);
    }
    if rng.one_in(2) {
        let contours: Vec<_> = (0..1 + rng.below(4)).map(|_| contour(rng, case.input.width, case.input.height)).collect();
        set_contours(&mut case.input, &contours);
    }
    for _ in 0..rng.pick(&[1, 1, 1, 2, 3, 4]) {
        let fault = rng.below(FAULTS);
        break_it(rng, &mut case, fault);
    }
    case.kind = "broken";
    case
}

/// Case `index` of the run `seed`, with room for two rows.
pub fn case(seed: u64, index: u64) -> Case {
    let mut rng = Rng::new(seed, index);
    if rng.one_in(6) { broken(&mut rng) } else { accepted(&mut rng) }
}

// What is tried in every run, whatever the seed.

fn plain(width: usize, height: usize, channels: usize, contours: &[Vec<(u8, f64, f64)>]) -> Case {
    let mut rng = Rng::new(7, (width * 100 + height * 10 + channels) as u64);
    let samples = fill_field(&mut rng, 0, width, height, channels);
    let mut input =
        Input { width, height, channels, mode: 2, ratio: 1.0, lengths: [0.25; 3], colours: vec![], coords: vec![], ends: vec![] };
    set_contours(&mut input, contours);
    finish(&mut rng, "every place", input, samples)
}

/// A few small cases with contours.
pub fn small() -> [Case; 3] {
    let contours = [vec![(3, 0.5, 0.5), (6, 1.5, 1.0)], vec![], vec![(7, 2.0, 2.0)], vec![(1, 0.0, 3.0), (5, -1.0, 0.0), (2, 9.0, 9.0)]];
    [(1, 1, 3), (2, 3, 4), (3, 2, 3)].map(|(w, h, n)| plain(w, h, n, &contours))
}

/// Every refusal at every place that it can name in a few small cases, lengths one short and one long, the limits themselves, and the example.
pub fn every_place() -> Vec<Case> {
    let mut rng = Rng::new(1, 1);
    let mut cases = Vec::new();
    for base in small() {
        cases.push(base.clone());
        for fault in 0..FAULTS {
            for _ in 0..12 {
                let mut c = base.clone();
                break_it(&mut rng, &mut c, fault);
                cases.push(c);
            }
        }
        for at in 0..base.samples.len() {
            for _ in 0..7 {
                let mut c = base.clone();
                c.samples[at] = bad_sample(&mut rng);
                if rng.one_in(2) {
                    let last = c.samples.len() - 1;
                    c.samples[last] = bad_sample(&mut rng);
                }
                cases.push(c);
            }
        }
        for at in 0..base.input.ends.len() {
            for end in (0..9).chain([usize::MAX]) {
                let mut c = base.clone();
                c.input.ends[at] = end;
                cases.push(c);
            }
            let mut c = base.clone();
            c.input.ends.truncate(at);
            cases.push(c);
        }
        for at in 0..base.input.colours.len() {
            for _ in 0..7 {
                let mut c = base.clone();
                match rng.below(3) {
                    0 => c.input.colours[at] = 8 + rng.below(248) as u8,
                    k => c.input.coords[2 * at + k - 1] = bad_coordinate(&mut rng),
                }
                if rng.one_in(2) {
                    let last = c.input.coords.len() - 1;
                    c.input.coords[last] = bad_coordinate(&mut rng);
                }
                cases.push(c);
            }
        }
    }
    cases.extend(limits());
    cases.push(example_case());
    cases
}

/// The largest sizes and counts that are accepted, and one more.
fn limits() -> Vec<Case> {
    let mut cases = Vec::new();
    for (w, h) in [(4096, 1), (1, 4096), (4096, 2)] {
        cases.push(plain(w, h, 3, &[]));
        let mut c = plain(w, h, 4, &[]);
        if w == 4096 {
            c.input.width = 4097;
        } else {
            c.input.height = 4097;
        }
        cases.push(c);
    }
    for count in [65_536usize, 65_537] {
        let mut c = plain(4, 4, 3, &[]);
        let mut rng = Rng::new(2, count as u64);
        let ring: Vec<_> = (0..count).map(|_| (rng.below(8) as u8, coordinate(&mut rng, 4), coordinate(&mut rng, 4))).collect();
        set_contours(&mut c.input, &[ring]);
        cases.push(c.clone());
        c.input.coords.pop();
        cases.push(c);
    }
    cases
}

/// A glyph of 20 x 16 texels with a few of them inside out: the one in examples/.
fn example_case() -> Case {
    let mut rng = Rng::new(20, 16);
    let (width, height, channels, range) = (20, 16, 3, 4.0);
    let glyph = glyphs::glyph(&mut rng, width, height);
    let mut samples = glyphs::field(&glyph, width, height, channels, range);
    glyphs::invert(&mut rng, &mut samples, channels, 40);
    let lengths = [1.0 / range, 1.0 / range, std::f64::consts::SQRT_2 / range];
    let mut input =
        Input { width, height, channels, mode: 2, ratio: 10.0 / 9.0, lengths, colours: vec![], coords: vec![], ends: vec![] };
    set_contours(&mut input, &glyph.contours);
    finish(&mut rng, "example", input, samples)
}

/// The example as text: size; mode, ratio and lengths; the numbers of segments and contours; colour, x and y of each segment; the ends;
/// the samples, a texel to a line.
pub fn example() -> String {
    let Case { input, samples, .. } = example_case();
    let [h, v, d] = input.lengths;
    let mut text = format!("{} {} {}\n{} {:?} {h:?} {v:?} {d:?}\n", input.width, input.height, input.channels, input.mode, input.ratio);
    text += &format!("{} {}\n", input.colours.len(), input.ends.len());
    for (colour, point) in input.colours.iter().zip(input.coords.chunks(2)) {
        text += &format!("{colour} {:?} {:?}\n", point[0], point[1]);
    }
    for end in &input.ends {
        text += &format!("{end}\n");
    }
    for texel in samples.chunks(input.channels) {
        let values: Vec<String> = texel.iter().map(|v| format!("{v:?}")).collect();
        text += &format!("{}\n", values.join(" "));
    }
    text
}
