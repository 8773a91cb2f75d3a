//! The proved pass beside the original, a straightforward Rust program: same inputs, same process, one thread, warm, medians of several runs.
//! Times are the thread's own processor time (Linux), so that a busy machine disturbs them little.
//!
//! `bench [SIZE...]` (1024 4096): sheets of letter shapes in cells of 32 and 48 pixels, as large as fits a square of each SIZE, one letter over the whole square, and
//! noise, in Indiscriminate and EdgePriority: range tests a texel, nanoseconds a texel of both, and the original's over the proved pass's, so that more is faster.
//! Then the sheets once more, each corrected as a bitmap and cell by cell.
//! `bench squares [SIZE...]` (256 1024 4096): the same of polygons, noise and a checkered field, with the plain engine on the smaller ones.
//! `bench sheets [SIZE...]` (256 1024 4096): sheets of cells of 32 and 48 texels, at most 2,048 wide: the proved pass on each cell cut out and on the sheet in place.
//! `bench signs [SIZE...]` (1024 4096): the correction of signs beside the original's, of 1, 3 and 4 channels: letters with few holes, letters with every texel amiss, and
//! a constant field on the zero value; what was flipped and what was ambiguous in a hundred, and nanoseconds a texel. The original asks a scanline of our shape
//! whether a texel is filled, where ours is lent the map: a column has what the original's rasterizing of the same shape takes by itself.
//! `bench pixels [SIZE...]` (64 1024): samples as bytes and bytes as samples beside Rust loops, letters of three channels: nanoseconds a sample, the best of several runs.
//! Ours checks its samples; the loops stand without a check and with one.
//! `bench sheet [--range RANGE] STEM...`: sheets in the four files of letters/files.rs, each as one bitmap with its outlines and RANGE (4) pixels from 0 to 1.
//! Exit status 1 if the pass and the original differ in a sample, a zero's sign aside, or in the number of range tests, the two engines in anything, a sheet
//! and its cells cut out in anything, the two corrections of signs in a sample's bits, or bytes and samples and the exact loops in any; 2 if the words are not these.

mod fields;
#[path = "../tests/differential/glyphs.rs"]
#[allow(dead_code)]
mod glyphs;
mod letters;
mod measure;
mod pixels;
#[path = "../tests/differential/rng.rs"]
#[allow(dead_code)]
mod rng;
#[path = "../include/rungtwine.rs"]
mod rungtwine;
mod shapes;
mod sheets;
mod signs;
mod squares;

fn sizes(words: &[String], default: &[usize]) -> Result<Vec<usize>, String> {
    if words.is_empty() {
        return Ok(default.to_vec());
    }
    words.iter().map(|word| word.parse().ok().filter(|size| (9..=4096).contains(size)).ok_or(format!("{word} is no size from 9 to 4096"))).collect()
}

fn run(words: &[String]) -> Result<bool, String> {
    let (first, rest) = words.split_first().map_or(("", words), |(first, rest)| (first.as_str(), rest));
    match first {
        "squares" => Ok(squares::table(&sizes(rest, &[256, 1024, 4096])?)),
        "sheets" => Ok(sheets::tables(&sizes(rest, &[256, 1024, 4096])?)),
        "signs" => Ok(signs::table(&sizes(rest, &[1024, 4096])?)),
        "pixels" => Ok(pixels::table(&sizes(rest, &[64, 1024])?)),
        "sheet" => shapes::named(rest),
        _ => Ok(shapes::tables(&sizes(words, &[1024, 4096])?)),
    }
}

fn main() {
    let words: Vec<String> = std::env::args().skip(1).collect();
    match run(&words) {
        Ok(true) => {}
        Ok(false) => {
            println!("the sides differ");
            std::process::exit(1);
        }
        Err(why) => {
            eprintln!("bench: {why}");
            std::process::exit(2);
        }
    }
}
