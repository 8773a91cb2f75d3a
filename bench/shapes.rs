//! The proved pass beside the original on letter shapes: sheets of them, one over a whole square, and noise; and on sheets in files.

use crate::fields::{noise_field, Field};
use crate::letters::field::{Sheet, SEGMENT_LIMIT};
use crate::letters::files::Files;
use crate::letters::outlines::letters;
use crate::measure::measure;
use crate::rungtwine::Mode;
use crate::sheets;

/// The sides of cells that are measured, and the letter that stands alone.
pub const CELLS: [usize; 2] = [32, 48];
const ALONE: char = 'R';
/// Pixels from 0 to 1.
pub const RANGE: f64 = 4.0;

/// The lengths of a pixel's step.
pub fn lengths(range: f64) -> [f64; 3] {
    [1.0 / range, 1.0 / range, std::f64::consts::SQRT_2 / range]
}

fn sheet_field(name: String, sheet: &Sheet) -> Field {
    let (colours, coords, ends) = sheet.outlines();
    Field { name, size: sheet.width(), samples: sheet.samples(), lengths: lengths(RANGE), colours, coords, ends }
}

/// Letters in cells, as many cells as fit in a square of this size.
pub fn letter_sheet(size: usize, cell: usize) -> Sheet {
    Sheet::new(&letters(), cell, size / cell, RANGE)
}

pub fn letters_field(sheet: &Sheet) -> Field {
    sheet_field(format!("letters in {}-pixel cells", sheet.cell), sheet)
}

fn letter_field(size: usize) -> Field {
    let mut letters = letters();
    letters.retain(|letter| letter.name == ALONE);
    sheet_field("one letter".into(), &Sheet::new(&letters, size, 1, RANGE))
}

fn head() {
    println!("| size | field | mode | range tests/texel | original, ns/texel | ours, ns/texel | original/ours |");
    println!("|---|---|---|---|---|---|---|");
}

/// Prints a field's lines of the table and answers whether the sides agree.
fn rows(field: &Field) -> bool {
    let mut same = true;
    for mode in [Mode::Indiscriminate, Mode::EdgePriority] {
        let measured = measure(field, mode);
        let tests = measured.counts.tests as f64 / (field.size * field.size) as f64;
        let (original, ours) = (measured.original, measured.ours);
        println!("| {} | {} | {mode:?} | {tests:.2} | {original:.1} | {ours:.1} | {:.2} |", field.size, field.name, original / ours);
        same &= measured.same;
    }
    same
}

/// Prints the tables of each size and answers whether the sides agree.
pub fn tables(sizes: &[usize]) -> bool {
    head();
    let mut same = true;
    for &size in sizes {
        for cell in CELLS.into_iter().filter(|&cell| cell <= size) {
            same &= rows(&letters_field(&letter_sheet(size, cell)));
        }
        same &= rows(&letter_field(size));
        same &= rows(&noise_field(size));
    }
    same & sheets::letters_table(sizes)
}

/// A sheet of four files, with as many of its contours as the pass takes.
fn named_field(stem: &str, range: f64) -> Result<Field, String> {
    let Files { size, samples, mut colours, mut coords, mut ends } = Files::read(stem)?;
    if ends.last().copied().unwrap_or(0) != colours.len() || 2 * colours.len() != coords.len() || ends.windows(2).any(|pair| pair[0] > pair[1]) {
        return Err(format!("{stem}: colours, coordinates and ends do not fit each other"));
    }
    ends.truncate(ends.iter().take_while(|&&end| end <= SEGMENT_LIMIT).count());
    let segments = ends.last().copied().unwrap_or(0);
    colours.truncate(segments);
    coords.truncate(2 * segments);
    Ok(Field { name: stem.rsplit('/').next().unwrap_or(stem).into(), size, samples, lengths: lengths(range), colours, coords, ends })
}

/// Prints the table of the named sheets and answers whether the sides agree.
pub fn named(words: &[String]) -> Result<bool, String> {
    let (range, stems) = match words {
        [word, range, stems @ ..] if word == "--range" => (range.parse().ok().filter(|&range: &f64| range > 0.0).ok_or(format!("{range} is no range"))?, stems),
        stems => (RANGE, stems),
    };
    if stems.is_empty() {
        return Err("sheet [--range RANGE] STEM...".into());
    }
    let mut same = true;
    for (k, stem) in stems.iter().enumerate() {
        let field = named_field(stem, range)?;
        if k == 0 {
            head();
        }
        same &= rows(&field);
    }
    Ok(same)
}
