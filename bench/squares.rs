//! Squares of three fields: the proved pass beside the original; and the plain engine, which is proved to leave the same and is slow, up to a size that it does in
//! seconds.

use crate::fields::{fields, Field};
use crate::measure::{given, measure, median, now, Lent, Measured};
use crate::rungtwine::{plain_error_correction, Mode};

/// The plain engine runs on squares up to this size.
const PLAIN_SIZE: usize = 1024;

/// Seconds of the plain engine, the median of some runs after one that warms it up, and whether it leaves what the pass left and counted.
fn plain(field: &Field, mode: Mode, measured: &Measured) -> (f64, bool) {
    let (settings, outlines) = given(field);
    let mut lent = Lent::new(&field.samples, field.size);
    let (mut times, mut same) = (Vec::new(), true);
    for round in 0..=3 {
        lent.samples.copy_from_slice(&field.samples);
        let start = now();
        let answer = plain_error_correction((field.size, field.size, 3), &mut lent.samples, &mut lent.stencil, &mut lent.room, mode, settings, outlines);
        let seconds = now() - start;
        let alike = lent.samples.iter().map(|v| v.to_bits()).eq(measured.left.samples.iter().map(|v| v.to_bits()));
        same &= answer == Ok(measured.counts.cells()) && lent.stencil == measured.left.stencil && alike;
        if round > 0 {
            times.push(seconds);
        }
    }
    (median(&mut times), same)
}

/// Prints a line of the table and answers whether the sides agree.
fn row(field: &Field, mode: Mode) -> bool {
    let texels = (field.size * field.size) as f64;
    let measured = measure(field, mode);
    let Measured { runs, original, ours, counts, mut same, .. } = measured;
    let slow = if field.size <= PLAIN_SIZE {
        let (seconds, agrees) = plain(field, mode, &measured);
        same &= agrees;
        let ns = seconds * 1e9 / texels;
        format!("{ns:.0} | {:.1}", ns / ours)
    } else {
        "- | -".into()
    };
    println!(
        "| {} | {} | {mode:?} | {runs} | {} | {:.2} | {original:.1} | {ours:.1} | {:.2} | {slow} |",
        field.size, field.name, counts.error, counts.tests as f64 / texels, original / ours
    );
    same
}

/// Prints the table and answers whether the sides agree.
pub fn table(sizes: &[usize]) -> bool {
    println!("| size | field | mode | runs | flagged | range tests/texel | original, ns/texel | ours, ns/texel | original/ours | plain, ns/texel | plain/ours |");
    println!("|---|---|---|---|---|---|---|---|---|---|---|");
    let mut same = true;
    for &size in sizes {
        for field in fields(size) {
            for mode in [Mode::Indiscriminate, Mode::EdgePriority] {
                same &= row(&field, mode);
            }
        }
    }
    same
}
