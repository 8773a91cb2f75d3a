//! Whole sheets: the proved pass on a sheet of square cells, in place, beside the same pass on each of them cut out, and on letters beside the same texels as a
//! bitmap; and what the checks of 4,096 cells take.

use crate::fields::{fields, Field, RATIO};
use crate::glyphs;
use crate::letters::field::Sheet as Letters;
use crate::measure::{median, now, ours, runs, Lent};
use crate::rng::Rng;
use crate::rungtwine::{error_correction, sheet_check, sheet_error_correction, Counts, Mode, Outlines, Settings, SheetCell, SheetCells};
use crate::shapes::{lengths, letter_sheet, letters_field, CELLS, RANGE};

/// A sheet has at most so many texels in a row; of the smaller cells that is 64 by 64, the most that a sheet may have.
const WIDTH_LIMIT: usize = 2048;
/// How many cells of letters lie side by side at most: their square is the most that a sheet may have.
const SIDE_LIMIT: usize = 64;
/// How many glyphs a sheet of glyphs has before the first comes again.
const GLYPHS: usize = 64;

struct Sheet {
    name: String,
    /// The side of a cell in texels, and of the sheet in cells.
    cell: usize,
    side: usize,
    samples: Vec<f32>,
    cells: Vec<SheetCell>,
    settings: Vec<Settings>,
    colours: Vec<u8>,
    coords: Vec<f64>,
    ends: Vec<usize>,
}

impl Sheet {
    fn new(name: &str, cell: usize, side: usize, samples: Vec<f32>) -> Sheet {
        Sheet { name: name.into(), cell, side, samples, cells: vec![], settings: vec![], colours: vec![], coords: vec![], ends: vec![] }
    }

    /// The lower left part of a field, in cells without outlines.
    fn of_field(field: &Field, cell: usize) -> Sheet {
        let side = field.size.min(WIDTH_LIMIT) / cell;
        let samples = (0..side * cell).flat_map(|y| &field.samples[y * field.size * 3..][..side * cell * 3]).copied().collect();
        let mut sheet = Sheet::new(&field.name, cell, side, samples);
        (0..side * side).for_each(|k| sheet.push(k, SheetCell::default(), field.lengths));
        sheet
    }

    /// A glyph and its outlines in each cell.
    fn of_glyphs(size: usize, cell: usize) -> Sheet {
        let side = size.min(WIDTH_LIMIT) / cell;
        let width = side * cell;
        let mut sheet = Sheet::new("glyphs", cell, side, vec![0.0; width * width * 3]);
        let mut made: Vec<(Vec<f32>, SheetCell)> = Vec::new();
        for k in 0..side * side {
            if made.len() < GLYPHS {
                let glyph = glyphs::glyph(&mut Rng::new(13, k as u64), cell, cell);
                let runs = sheet.append(&glyph.contours);
                made.push((glyphs::field(&glyph, cell, cell, 3, RANGE), runs));
            }
            let (samples, runs) = &made[k % GLYPHS];
            for (row, texels) in sheet.rows(k).zip(samples.chunks(cell * 3)) {
                sheet.samples[row..row + cell * 3].copy_from_slice(texels);
            }
            sheet.push(k, *runs, lengths(RANGE));
        }
        sheet
    }

    /// A letter and its outlines in each cell.
    fn of_letters(letters: &Letters) -> Sheet {
        let mut sheet = Sheet::new("letters", letters.cell, letters.side, letters.samples());
        let runs: Vec<SheetCell> = letters.drawn.iter().map(|cell| sheet.append(&cell.contours)).collect();
        (0..letters.side * letters.side).for_each(|k| sheet.push(k, runs[letters.letter(k)], lengths(RANGE)));
        sheet
    }

    /// A cell with the runs of these contours, which are put at the end of the lists.
    fn append(&mut self, contours: &[Vec<(u8, f64, f64)>]) -> SheetCell {
        let (colours_from, coords_from, ends_from) = (self.colours.len(), self.coords.len(), self.ends.len());
        for contour in contours {
            for &(colour, x, y) in contour {
                self.colours.push(colour);
                self.coords.extend([x, y]);
            }
            self.ends.push(self.colours.len() - colours_from);
        }
        SheetCell {
            colours_from,
            colours_count: self.colours.len() - colours_from,
            coords_from,
            coords_count: self.coords.len() - coords_from,
            ends_from,
            ends_count: contours.len(),
            ..SheetCell::default()
        }
    }

    fn push(&mut self, k: usize, runs: SheetCell, [horizontal, vertical, diagonal]: [f64; 3]) {
        self.cells.push(SheetCell { x: k % self.side * self.cell, y: k / self.side * self.cell, width: self.cell, height: self.cell, ..runs });
        self.settings.push(Settings { ratio: RATIO, horizontal, vertical, diagonal });
    }

    fn width(&self) -> usize {
        self.side * self.cell
    }

    fn count(&self) -> usize {
        self.side * self.side
    }

    /// Where each row of cell k starts among the samples.
    fn rows(&self, k: usize) -> impl Iterator<Item = usize> {
        let (width, x, y) = (self.width(), k % self.side * self.cell, k / self.side * self.cell);
        (y..y + self.cell).map(move |row| (row * width + x) * 3)
    }

    fn given<'a>(&'a self, modes: &'a [Mode]) -> (SheetCells<'a>, Outlines<'a>) {
        (SheetCells { cells: &self.cells, modes, settings: &self.settings }, Outlines { colours: &self.colours, coords: &self.coords, ends: &self.ends })
    }

    /// The pass on cell k alone, whose counts are added.
    fn alone(&self, k: usize, mode: Mode, (samples, stencil, room): (&mut [f32], &mut [u8], &mut [f32]), sum: &mut Counts) {
        let runs = self.cells[k];
        let outlines = Outlines {
            colours: &self.colours[runs.colours_from..][..runs.colours_count],
            coords: &self.coords[runs.coords_from..][..runs.coords_count],
            ends: &self.ends[runs.ends_from..][..runs.ends_count],
        };
        let counts = error_correction((self.cell, self.cell, 3), samples, stencil, room, mode, self.settings[k], outlines).expect("refused");
        sum.protected += counts.protected;
        sum.error += counts.error;
        sum.corner += counts.corner;
        sum.tests += counts.tests;
    }
}

const NONE: Counts = Counts { protected: 0, error: 0, corner: 0, tests: 0 };

/// What a way of correcting a sheet leaves and counts.
#[derive(PartialEq)]
struct Left {
    counts: Counts,
    samples: Vec<u32>,
    stencil: Vec<u8>,
}

/// In place: seconds and the counts.
fn in_place(sheet: &Sheet, modes: &[Mode], lent: &mut Lent) -> (f64, Counts) {
    lent.samples.copy_from_slice(&sheet.samples);
    let (cells, outlines) = sheet.given(modes);
    let start = now();
    let answer = sheet_error_correction((sheet.width(), sheet.width(), 3), &mut lent.samples, &mut lent.stencil, &mut lent.room, cells, outlines);
    (now() - start, answer.expect("refused"))
}

/// Each cell where it was cut out before, which is not in the time: the cells lie one behind the other.
fn cut_out(sheet: &Sheet, mode: Mode, cut: &[f32], lent: &mut Lent) -> (f64, Counts) {
    lent.samples.copy_from_slice(cut);
    let texels = sheet.cell * sheet.cell;
    let mut sum = NONE;
    let start = now();
    for (k, (samples, stencil)) in lent.samples.chunks_mut(texels * 3).zip(lent.stencil.chunks_mut(texels)).enumerate() {
        sheet.alone(k, mode, (samples, stencil, &mut lent.room[..2 * sheet.cell]), &mut sum);
    }
    (now() - start, sum)
}

/// Each cell cut out, corrected and pasted back.
fn there_and_back(sheet: &Sheet, mode: Mode, lent: &mut Lent) -> (f64, Counts) {
    lent.samples.copy_from_slice(&sheet.samples);
    let mut sum = NONE;
    let start = now();
    let (mut samples, mut stencil) = (Vec::with_capacity(sheet.cell * sheet.cell * 3), vec![0u8; sheet.cell * sheet.cell]);
    for k in 0..sheet.count() {
        samples.clear();
        for row in sheet.rows(k) {
            samples.extend_from_slice(&lent.samples[row..row + sheet.cell * 3]);
        }
        sheet.alone(k, mode, (&mut samples, &mut stencil, &mut lent.room[..2 * sheet.cell]), &mut sum);
        for (line, row) in sheet.rows(k).enumerate() {
            lent.samples[row..row + sheet.cell * 3].copy_from_slice(&samples[line * sheet.cell * 3..][..sheet.cell * 3]);
            lent.stencil[row / 3..row / 3 + sheet.cell].copy_from_slice(&stencil[line * sheet.cell..][..sheet.cell]);
        }
    }
    (now() - start, sum)
}

fn left(counts: Counts, samples: impl Iterator<Item = f32>, stencil: impl Iterator<Item = u8>) -> Left {
    Left { counts, samples: samples.map(f32::to_bits).collect(), stencil: stencil.collect() }
}

/// Prints a line of the table and answers whether the three ways agree.
fn row(sheet: &Sheet, mode: Mode) -> bool {
    let texels = sheet.width() * sheet.width();
    let modes = vec![mode; sheet.count()];
    let cut: Vec<f32> = (0..sheet.count()).flat_map(|k| sheet.rows(k)).flat_map(|row| &sheet.samples[row..row + sheet.cell * 3]).copied().collect();
    let mut of = [(); 3].map(|()| Lent::new(&sheet.samples, sheet.width()));
    let runs = runs(texels);
    let mut times = [vec![], vec![], vec![]];
    let mut counted = [NONE; 3];
    // The first round warms all up and is not counted.
    for round in 0..=runs {
        let [a, b, c] = &mut of;
        for (way, (seconds, counts)) in [in_place(sheet, &modes, a), cut_out(sheet, mode, &cut, b), there_and_back(sheet, mode, c)].into_iter().enumerate() {
            counted[way] = counts;
            if round > 0 {
                times[way].push(seconds);
            }
        }
    }
    let here = left(counted[0], of[0].samples.iter().copied(), of[0].stencil.iter().copied());
    let back = left(counted[2], of[2].samples.iter().copied(), of[2].stencil.iter().copied());
    // The cells that were cut out before, in the order of the sheet.
    let line = |row: usize| (row % (sheet.width() * 3) / (sheet.cell * 3), row / (sheet.width() * 3));
    let starts = (0..sheet.width() * sheet.side).map(|k| k * sheet.cell * 3).map(|row| {
        let (column, y) = line(row);
        (y / sheet.cell * sheet.side + column) * sheet.cell * sheet.cell + y % sheet.cell * sheet.cell
    });
    let apart = left(
        counted[1],
        starts.clone().flat_map(|at| of[1].samples[at * 3..(at + sheet.cell) * 3].iter().copied()),
        starts.flat_map(|at| of[1].stencil[at..at + sheet.cell].iter().copied()),
    );
    let same = here == back && here == apart;
    let [here, apart, back] = times.each_mut().map(|times| median(times) * 1e9 / texels as f64);
    println!(
        "| {} | {} | {} | {} | {mode:?} | {runs} | {} | {:.2} | {apart:.1} | {here:.1} | {:.3} | {back:.1} |",
        sheet.width(), sheet.cell, sheet.count(), sheet.name, counted[0].error, counted[0].tests as f64 / texels as f64, here / apart
    );
    same
}

/// The checks of 4,096 cells that touch, alone.
fn checks(cell: usize) -> bool {
    let size = SIDE_LIMIT * cell;
    let samples = vec![0.5; size * size * 3];
    let field = Field { name: "grey".into(), size, samples, lengths: [0.25; 3], colours: vec![], coords: vec![], ends: vec![] };
    let sheet = Sheet::of_field(&field, cell);
    let (modes, lent) = (vec![Mode::Indiscriminate; sheet.count()], Lent::new(&sheet.samples, size));
    let (cells, outlines) = sheet.given(&modes);
    let mut times = Vec::new();
    let mut accepted = true;
    for _ in 0..9 {
        let start = now();
        let answer = sheet_check((size, size, 3), &lent.samples, &lent.stencil, &lent.room, cells, outlines);
        times.push(now() - start);
        accepted &= answer == Ok(());
    }
    let seconds = median(&mut times);
    println!("| {size} | {cell} | {} | {:.2} | {:.2} |", sheet.count(), seconds * 1e3, seconds * 1e9 / (size * size) as f64);
    accepted
}

/// Whether the cells hold what the original leaves of each letter cut out, a zero's sign aside, and as many range tests were made.
fn as_the_original(letters: &Letters, mode: Mode, samples: &[f32], tests: usize) -> bool {
    let mut due = Vec::new();
    for cell in &letters.drawn {
        let alone = Letters { cell: letters.cell, side: 1, drawn: vec![cell.clone()] };
        let (colours, coords, ends) = alone.outlines();
        let task = oracle::Task::new(mode as u8, RATIO, lengths(RANGE), &colours, &coords, &ends);
        let mut samples = cell.samples.clone();
        let answer = oracle::answer(letters.cell, letters.cell, 3, &mut samples, &task);
        due.push((samples, answer.tests.iter().map(|&n| n as usize).sum::<usize>()));
    }
    let sheet = Sheet::of_letters(letters);
    let of = |k: usize| &due[letters.letter(k)];
    let alike = |k: usize| sheet.rows(k).zip(of(k).0.chunks(3 * sheet.cell)).all(|(row, due)| samples[row..row + due.len()] == *due);
    (0..sheet.count()).all(alike) && tests == (0..sheet.count()).map(|k| of(k).1).sum()
}

/// Prints a line of the table of letters and answers whether the cells hold what they should.
fn letters_row(letters: &Letters, mode: Mode) -> bool {
    let (sheet, field) = (Sheet::of_letters(letters), letters_field(letters));
    let (modes, texels) = (vec![mode; sheet.count()], sheet.width() * sheet.width());
    let mut lent = Lent::new(&sheet.samples, sheet.width());
    let (mut times, mut tests) = ([vec![], vec![]], 0);
    // The first round warms both up and is not counted.
    for round in 0..=runs(texels) {
        let (bitmap, _) = ours(&field, mode, &mut lent);
        let (cells, counts) = in_place(&sheet, &modes, &mut lent);
        tests = counts.tests;
        if round > 0 {
            times[0].push(bitmap);
            times[1].push(cells);
        }
    }
    let [bitmap, cells] = times.each_mut().map(|times| median(times) * 1e9 / texels as f64);
    println!("| {} | {} | {} | {mode:?} | {bitmap:.1} | {cells:.1} | {:.2} |", sheet.width(), sheet.cell, sheet.count(), bitmap / cells);
    as_the_original(letters, mode, &lent.samples, tests)
}

/// Prints the table of letters, as a bitmap and as cells, and answers whether the cells hold what they should.
pub fn letters_table(sizes: &[usize]) -> bool {
    println!("\n| size | cell | cells | mode | as a bitmap, ns/texel | as cells, ns/texel | bitmap/cells |");
    println!("|---|---|---|---|---|---|---|");
    let mut same = true;
    for &size in sizes {
        for cell in CELLS.into_iter().filter(|&cell| cell <= size) {
            let letters = letter_sheet(size.min(SIDE_LIMIT * cell), cell);
            for mode in [Mode::Indiscriminate, Mode::EdgePriority] {
                same &= letters_row(&letters, mode);
            }
        }
    }
    same
}

/// Prints the tables of whole sheets and answers whether all agree.
pub fn tables(sizes: &[usize]) -> bool {
    println!("| size | cell | cells | field | mode | runs | flagged | range tests/texel | cut out, ns/texel | sheet, ns/texel | sheet/cut out | cut out and pasted back, ns/texel |");
    println!("|---|---|---|---|---|---|---|---|---|---|---|---|");
    let mut same = true;
    for &size in sizes {
        let [_, noise, checkered] = fields(size.min(WIDTH_LIMIT));
        for cell in CELLS.into_iter().filter(|&cell| cell <= size) {
            for sheet in [Sheet::of_glyphs(size, cell), Sheet::of_field(&noise, cell), Sheet::of_field(&checkered, cell)] {
                for mode in [Mode::Indiscriminate, Mode::EdgePriority] {
                    same &= row(&sheet, mode);
                }
            }
        }
    }
    println!("\n| size | cell | cells | checks alone, ms | ns/texel |");
    println!("|---|---|---|---|---|");
    same & checks(1) & checks(CELLS[0])
}
