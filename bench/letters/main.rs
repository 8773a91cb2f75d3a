//! `letters OUT CELL N RANGE [GLYPH...]`: a sheet of N by N cells of CELL pixels with the letters of outlines.txt, or with these alone, RANGE pixels from 0 to 1,
//! in the four files of files.rs. Prints its width, segments and contours.

mod field;
mod files;
mod outlines;

fn run(words: &[String]) -> Result<(), String> {
    let [out, cell, side, range, glyph @ ..] = words else { return Err("OUT CELL N RANGE [GLYPH...]".into()) };
    let (cell, side): (usize, usize) = (cell.parse().map_err(|_| "CELL: a number")?, side.parse().map_err(|_| "N: a number")?);
    let range: f64 = range.parse().map_err(|_| "RANGE: a number")?;
    if cell == 0 || side == 0 || range.is_nan() || range <= 0.0 || 2.0 * range >= cell as f64 {
        return Err("a cell has to be wider than twice the range".into());
    }
    let mut letters = outlines::letters();
    letters.retain(|letter| glyph.is_empty() || glyph.contains(&letter.name.to_string()));
    if letters.is_empty() {
        return Err("there is no such glyph".into());
    }
    let sheet = field::Sheet::new(&letters, cell, side, range);
    let (colours, coords, ends) = sheet.outlines();
    println!("{} {} {}", sheet.width(), colours.len(), ends.len());
    files::Files { size: sheet.width(), samples: sheet.samples(), colours, coords, ends }.write(out)
}

fn main() {
    let words: Vec<String> = std::env::args().skip(1).collect();
    if let Err(why) = run(&words) {
        eprintln!("letters: {why}");
        std::process::exit(2);
    }
}
