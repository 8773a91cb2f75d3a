//! Corrects the glyph that it reads from standard input and prints the counts, the stencil, rows from the bottom, how many flagged texels each channel
//! carries, where the view finds two of its texels, and that the plain engine leaves the same.

#[path = "../include/rungtwine.rs"]
mod rungtwine;

use rungtwine::{error_correction, plain_error_correction, texel_channel, texel_view, Bitmap, Mode, Outlines, Settings, CORNER, ERROR, PROTECTED};
use std::io::Read;
use std::str::{FromStr, SplitWhitespace};

fn next<T: FromStr>(words: &mut SplitWhitespace) -> T {
    words.next().and_then(|w| w.parse().ok()).expect("a number is missing")
}

fn list<T: FromStr>(words: &mut SplitWhitespace, count: usize) -> Vec<T> {
    (0..count).map(|_| next(words)).collect()
}

/// The mark of a cell: its texel is protected by a corner, or by an edge alone, or not at all; the second letter of each where it has an error.
fn mark(cell: u8) -> char {
    let [clean, flagged] = if cell & CORNER != 0 { ['C', 'D'] } else if cell & PROTECTED != 0 { ['P', 'B'] } else { ['.', 'E'] };
    if cell & ERROR != 0 { flagged } else { clean }
}

/// Prints how many flagged texels have their median in each channel, judged on the original.
fn carriers(channels: usize, original: &[f32], stencil: &[u8]) {
    let mut carried = [0; 3];
    for (texel, _) in original.chunks(channels).zip(stencil).filter(|(_, s)| **s & ERROR != 0) {
        carried[texel_channel([texel[0], texel[1], texel[2]])] += 1;
    }
    println!("medians in channels: {} {} {}", carried[0], carried[1], carried[2]);
}

/// Prints where the view finds the first texel that is flagged, or that is not.
fn show((width, height, channels): (usize, usize, usize), original: &[f32], corrected: &[f32], stencil: &[u8], flagged: bool) {
    let k = stencil.iter().position(|s| (s & ERROR != 0) == flagged).unwrap_or(stencil.len());
    let (x, y) = (k % width, k / width);
    let (bitmap, samples) = texel_view((width, height, channels), original, corrected, stencil, (x, y));
    let (name, whole) = match bitmap {
        Bitmap::Original => ("original", original),
        Bitmap::Corrected => ("corrected", corrected),
    };
    let start = (samples.as_ptr() as usize - whole.as_ptr() as usize) / std::mem::size_of::<f32>();
    println!("texel {x} {y}: {name}, {} samples from {start}", samples.len());
}

fn main() {
    let mut text = String::new();
    std::io::stdin().read_to_string(&mut text).expect("no input");
    let words = &mut text.split_whitespace();
    let (width, height, channels): (usize, usize, usize) = (next(words), next(words), next(words));
    let mode = [Mode::Disabled, Mode::Indiscriminate, Mode::EdgePriority, Mode::EdgeOnly][next::<usize>(words)];
    let settings = Settings { ratio: next(words), horizontal: next(words), vertical: next(words), diagonal: next(words) };
    let (segments, contours): (usize, usize) = (next(words), next(words));
    let (mut colours, mut coords) = (Vec::new(), Vec::new());
    for _ in 0..segments {
        colours.push(next::<u8>(words));
        coords.extend([next::<f64>(words), next::<f64>(words)]);
    }
    let ends: Vec<usize> = list(words, contours);
    let original: Vec<f32> = list(words, width * height * channels);
    let mut samples = original.clone();
    let mut stencil = vec![0u8; width * height];
    // Lent for two rows of medians; what is in it does not matter.
    let mut room = vec![0f32; 2 * width];
    let outlines = Outlines { colours: &colours, coords: &coords, ends: &ends };
    match error_correction((width, height, channels), &mut samples, &mut stencil, &mut room, mode, settings, outlines) {
        Ok(counts) => {
            println!("protected {} error {} corner {} tests {}", counts.protected, counts.error, counts.corner, counts.tests);
            for row in stencil.chunks(width) {
                println!("{}", row.iter().map(|&cell| mark(cell)).collect::<String>());
            }
            carriers(channels, &original, &stencil);
            show((width, height, channels), &original, &samples, &stencil, true);
            show((width, height, channels), &original, &samples, &stencil, false);
            let (mut plain, mut plain_stencil) = (original.clone(), vec![0u8; width * height]);
            let plain_counts = plain_error_correction((width, height, channels), &mut plain, &mut plain_stencil, &mut room, mode, settings, outlines);
            assert_eq!(plain_counts, Ok(counts.cells()), "the plain engine counts otherwise");
            let same = plain.iter().map(|v| v.to_bits()).eq(samples.iter().map(|v| v.to_bits())) && plain_stencil == stencil;
            assert!(same, "the plain engine leaves something else");
            println!("the plain engine agrees");
        }
        Err(refusal) => {
            println!("refused {} {}", refusal.number, refusal.place);
            std::process::exit(1);
        }
    }
}
