//! The correction of signs beside the original's: letters with few holes, letters with every texel amiss, and a constant field on the zero value.

use crate::measure::{median, now, runs};
use crate::rng::Rng;
use crate::rungtwine::sign_correction;
use crate::shapes::letter_sheet;
use oracle::bitmap::Bitmap;
use oracle::signs::{correct_multi, correct_one, rasterize, Task};

const ZERO: f32 = 0.5;
/// The side of a letter's cell, and how many texels there are for one hole.
const CELL: usize = 32;
const TEXELS_A_HOLE: usize = 2000;
/// A hole is a square of so many texels a side.
const HOLE: usize = 3;

struct Field {
    name: &'static str,
    size: usize,
    channels: usize,
    samples: Vec<f32>,
    filled: Vec<u8>,
}

fn middle(texel: &[f32]) -> f32 {
    texel[0].min(texel[1]).max(texel[0].max(texel[1]).min(texel[2]))
}

/// Letters, one channel or the fourth being the median of the three; and the map of what they fill.
fn letters(size: usize, channels: usize) -> Field {
    let sheet = letter_sheet(size, CELL.min(size));
    let three = sheet.samples();
    let texels = || three.chunks(3);
    let samples = match channels {
        1 => texels().map(middle).collect(),
        3 => three.clone(),
        _ => texels().flat_map(|texel| [texel[0], texel[1], texel[2], middle(texel)]).collect(),
    };
    let filled = texels().map(|texel| u8::from(middle(texel) > ZERO)).collect();
    Field { name: "letters", size: sheet.width(), channels, samples, filled }
}

/// Few squares of texels inside out.
fn with_holes(mut field: Field) -> Field {
    let mut rng = Rng::new(13, field.size as u64);
    for _ in 0..field.filled.len() / TEXELS_A_HOLE {
        let (x, y) = (rng.below(field.size - HOLE), rng.below(field.size - HOLE));
        for row in y..y + HOLE {
            let at = (row * field.size + x) * field.channels;
            field.samples[at..at + HOLE * field.channels].iter_mut().for_each(|v| *v = ZERO + ZERO - *v);
        }
    }
    Field { name: "letters, few holes", ..field }
}

/// The map says the contrary of every texel.
fn all_amiss(mut field: Field) -> Field {
    field.filled.iter_mut().for_each(|byte| *byte = 1 - *byte);
    Field { name: "letters, all amiss", ..field }
}

/// Every sample is the zero value, and so every median.
fn constant(mut field: Field) -> Field {
    field.samples.fill(ZERO);
    Field { name: "constant", ..field }
}

/// Measures a field whose channels are `N`, prints its line of the table and answers whether the sides agree.
fn row<const N: usize>(field: &Field, correct: impl Fn(&mut Bitmap<f32, N>, f32, &Task)) -> bool {
    let (size, texels) = (field.size, field.size * field.size);
    let task = Task::new(size, size, &field.filled, 0);
    let mut bitmap = oracle::bitmap_of::<N>(size, size, &field.samples);
    let mut coverage = Bitmap::new(size, size);
    let (mut samples, mut matches) = (field.samples.clone(), vec![0; texels]);
    let mut times = [vec![], vec![], vec![]];
    // The first round warms all up and is not counted.
    for round in 0..=runs(texels) {
        bitmap.data_mut().copy_from_slice(&field.samples);
        let start = now();
        correct(&mut bitmap, ZERO, &task);
        let original = now() - start;
        samples.copy_from_slice(&field.samples);
        let start = now();
        let answer = sign_correction((size, size, N), &mut samples, ZERO, &field.filled, &mut matches);
        let ours = now() - start;
        answer.expect("refused");
        let start = now();
        rasterize(&mut coverage, &task);
        let scanned = now() - start;
        if round > 0 {
            times.iter_mut().zip([original, scanned, ours]).for_each(|(times, time)| times.push(time));
        }
    }
    let of_hundred = |count: usize| 100.0 * count as f64 / texels as f64;
    let amiss = |(texel, &filled): (&[f32], &u8)| (texel[0] > ZERO) != (filled == 1);
    let flipped = if N == 1 { field.samples.chunks(1).zip(&field.filled).filter(|&of| amiss(of)).count() } else { matches.iter().filter(|&&m| m < 0).count() };
    let ambiguous = if N == 1 { 0 } else { matches.iter().filter(|&&m| m == 0).count() };
    let [original, scanned, ours] = times.each_mut().map(|times| median(times) * 1e9 / texels as f64);
    println!(
        "| {size} | {N} | {} | {:.1} | {:.1} | {original:.1} | {scanned:.1} | {ours:.1} | {:.2} |",
        field.name, of_hundred(flipped), of_hundred(ambiguous), original / ours
    );
    samples.iter().map(|v| v.to_bits()).eq(bitmap.data().iter().map(|v| v.to_bits()))
}

/// Prints the table of each size and answers whether the sides agree.
pub fn table(sizes: &[usize]) -> bool {
    println!("| size | channels | field | amiss in 100 | ambiguous in 100 | original, ns/texel | scanning alone, ns/texel | ours, ns/texel | original/ours |");
    println!("|---|---|---|---|---|---|---|---|---|");
    let mut same = true;
    for &size in sizes {
        for channels in [1, 3, 4] {
            for made in [with_holes, all_amiss, constant] {
                let field = made(letters(size, channels));
                same &= match channels {
                    1 => row::<1>(&field, correct_one),
                    3 => row::<3>(&field, correct_multi),
                    _ => row::<4>(&field, correct_multi),
                };
            }
        }
    }
    same
}
