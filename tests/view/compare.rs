//! Runs the texel view over all its cases and holds each answer, the pointer too, to a plain reading of docs/RULES.md; and the channel of a texel's median
//! over every three of some values.

#[path = "../../include/rungtwine.rs"]
mod rungtwine;

use rungtwine::raw::{rungtwine_texel_view, Texel};
use rungtwine::Bitmap;

const FAR: usize = usize::MAX;

/// Of six cells with three or four channels, of one bitmap or the other wrong, and of six cells with one, two or five channels.
const LENGTHS: [(usize, usize); 13] =
    [(18, 18), (24, 24), (18, 17), (17, 18), (18, 24), (24, 18), (24, 25), (25, 24), (19, 19), (0, 0), (6, 6), (12, 12), (30, 30)];

#[derive(Clone, Copy)]
struct Case<'a> {
    size: (usize, usize, usize),
    original: &'a [f32],
    corrected: &'a [f32],
    stencil: &'a [u8],
    at: (usize, usize),
}

/// Which bitmap, the first sample there and how many: what docs/RULES.md says.
fn expected(c: &Case) -> (Bitmap, usize, usize) {
    let ((w, h, ch), (x, y)) = (c.size, c.at);
    let cells = w as u128 * h as u128;
    let sized = (ch == 3 || ch == 4)
        && (1..=4096).contains(&w)
        && (1..=4096).contains(&h)
        && [c.original, c.corrected].iter().all(|b| b.len() as u128 == cells * ch as u128)
        && c.stencil.len() as u128 == cells;
    if !sized || x >= w || y >= h {
        return (Bitmap::Original, 0, 0);
    }
    let k = y * w + x;
    (if c.stencil[k] & 1 == 1 { Bitmap::Corrected } else { Bitmap::Original }, k * ch, ch)
}

/// What the library leaves, over a part that no answer is.
fn answered(c: &Case) -> (usize, usize) {
    let before = [0f32; 9];
    let mut texel = Texel { samples: before.as_ptr(), length: before.len() };
    let ((w, h, ch), (x, y)) = (c.size, c.at);
    // Every pointer comes from a slice with its own length or from a local.
    unsafe {
        rungtwine_texel_view(
            w,
            h,
            ch,
            c.original.as_ptr(),
            c.original.len(),
            c.corrected.as_ptr(),
            c.corrected.len(),
            c.stencil.as_ptr(),
            c.stencil.len(),
            x,
            y,
            &mut texel,
        );
    }
    (texel.samples as usize, texel.length)
}

#[derive(Default)]
struct Tally {
    cases: u64,
    differ: u64,
}

impl Tally {
    /// Holds the library's place and length, and the wrapper's bitmap and samples, to what is expected.
    fn hold(&mut self, c: &Case) {
        self.cases += 1;
        let (bitmap, start, length) = expected(c);
        let whole = if bitmap == Bitmap::Original { c.original } else { c.corrected };
        let place = whole.as_ptr() as usize + start * std::mem::size_of::<f32>();
        let got = answered(c);
        let (named, samples) = rungtwine::texel_view(c.size, c.original, c.corrected, c.stencil, c.at);
        let same = whole[start..start + length].iter().map(|v| v.to_bits()).eq(samples.iter().map(|v| v.to_bits()));
        let one = c.original.as_ptr() == c.corrected.as_ptr();
        if got != (place, length) || samples.as_ptr() as usize != place || !same || !(named == bitmap || one) {
            self.differ += 1;
            if self.differ <= 10 {
                let lengths = (c.original.len(), c.corrected.len(), c.stencil.len());
                println!("size {:?} lengths {lengths:?} at {:?}: {bitmap:?} {start} {length} expected, {named:?} and {got:?} found", c.size, c.at);
            }
        }
    }
}

/// Samples of every kind: the view reads none of them.
fn bitmap(count: usize, seed: usize) -> Vec<f32> {
    let odd = [f32::NAN, f32::INFINITY, f32::NEG_INFINITY, -0.0, f32::MAX];
    (0..count).map(|i| if (i + seed) % 7 == 0 { odd[(i + seed) / 7 % 5] } else { (i * 31 + seed * 17) as f32 / 64.0 }).collect()
}

/// Every texel of small bitmaps under every byte of its cell, the other cells flagged where this one is not; with other numbers, with the same and with one bitmap as both.
fn bytes(tally: &mut Tally) {
    for (w, h) in [(1, 1), (2, 3), (5, 4), (1, 7), (7, 1)] {
        for ch in [3, 4] {
            let original = bitmap(w * h * ch, 1);
            let (equal, other) = (original.clone(), bitmap(w * h * ch, 5));
            for k in 0..w * h {
                for byte in 0..=255u8 {
                    let mut stencil = vec![!byte; w * h];
                    stencil[k] = byte;
                    for corrected in [&equal, &other, &original] {
                        tally.hold(&Case { size: (w, h, ch), original: &original, corrected, stencil: &stencil, at: (k % w, k / w) });
                    }
                }
            }
        }
    }
}

/// The positions from far outside to both ends, under every mixture of the three bits.
fn positions(tally: &mut Tally, size: (usize, usize, usize), original: &[f32], corrected: &[f32], cells: usize) {
    let (w, h, _) = size;
    for byte in 0..8 {
        let stencil = vec![byte; cells];
        for x in [0, w.saturating_sub(1), w, 3, FAR] {
            for y in [0, h.saturating_sub(1), h, 2, FAR] {
                tally.hold(&Case { size, original, corrected, stencil: &stencil, at: (x, y) });
            }
        }
    }
}

/// Checks 1 to 4 failing and passing in every mixture, for either bitmap and for both, the texel inside and outside.
fn refusals(tally: &mut Tally) {
    let original = bitmap(30, 1);
    let (equal, other) = (original.clone(), bitmap(30, 5));
    for ch in [3, 4, 0, 1, 2, 5, FAR] {
        for w in [3, 2, 0, 1, 4, 4096, 4097, 1 << 32, FAR] {
            for h in [2, 3, 0, 1, 4096, 4097, 1 << 32, FAR] {
                for (a, b) in LENGTHS {
                    for cells in [6, 5, 7, 0] {
                        positions(tally, (w, h, ch), &original[..a], &equal[..b], cells);
                        positions(tally, (w, h, ch), &original[..a], &other[..b], cells);
                    }
                }
            }
        }
    }
}

/// The first and the last texel of the largest bitmaps, and those beside them; and of bitmaps that are one too large.
fn largest(tally: &mut Tally) {
    for (w, h) in [(4096, 1), (1, 4096), (4096, 4096), (4097, 1), (1, 4097)] {
        for ch in [3, 4] {
            let (original, corrected) = (vec![0f32; w * h * ch], vec![0f32; w * h * ch]);
            let mut stencil = vec![0u8; w * h];
            for byte in 0..8 {
                (stencil[0], stencil[w * h - 1]) = (byte, byte);
                for (x, y) in [(0, 0), (w - 1, h - 1), (w, h - 1), (w - 1, h), (w, 0), (0, h)] {
                    tally.hold(&Case { size: (w, h, ch), original: &original, corrected: &corrected, stencil: &stencil, at: (x, y) });
                }
            }
        }
    }
}

/// The value that is the median of three, a zero's sign aside: by a sort, and with a NaN as docs/RULES.md says.
fn median([a, b, c]: [f32; 3]) -> f32 {
    match (a.is_nan(), b.is_nan(), c.is_nan()) {
        (true, true, _) => c,
        (true, false, _) => b,
        (false, true, _) => a,
        (false, false, true) => if a < b { b } else { a },
        (false, false, false) => {
            let mut all = [a, b, c];
            all.sort_by(f32::total_cmp);
            all[1]
        }
    }
}

/// Every three of these values as a texel.
fn carriers(tally: &mut Tally) {
    let values = [0.0, -0.0, 1e-45, -1e-45, 0.5, 0.50000006, -0.5, 1.0, 1048576.0, f32::MAX, f32::INFINITY, f32::NEG_INFINITY, f32::NAN];
    for a in values {
        for b in values {
            for c in values {
                let texel = [a, b, c];
                let m = median(texel);
                let lowest = (0..3).find(|&i| texel[i] == m).unwrap_or(0);
                let found = rungtwine::texel_channel(texel);
                tally.cases += 1;
                if found != lowest {
                    tally.differ += 1;
                    println!("texel {texel:?}: channel {lowest} expected, {found} found");
                }
            }
        }
    }
}

fn main() {
    let mut tally = Tally::default();
    carriers(&mut tally);
    bytes(&mut tally);
    refusals(&mut tally);
    largest(&mut tally);
    println!("{} cases, {} differ", tally.cases, tally.differ);
    std::process::exit(i32::from(tally.differ > 0));
}
