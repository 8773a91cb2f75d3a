//! Corrects three cells of a sheet in place: two side by side, which do not see each other, and one apart. Prints the counts of each cell and of all, the sheet's
//! stencil, rows from the bottom, and what a sheet whose cells overlap is answered.

#[path = "../include/rungtwine.rs"]
mod rungtwine;

use rungtwine::{sheet_check, sheet_error_correction, Mode, Outlines, Settings, SheetCell, SheetCells, CORNER, ERROR, PROTECTED};

const SIZE: (usize, usize, usize) = (6, 3, 3);

/// A glyph of two texels with the median 0.75. Halfway between them red and green are 0.5, and so is the median: a dip that neither texel has.
const GLYPH: [f32; 6] = [1.0, 0.0, 0.75, 0.0, 1.0, 0.75];

/// A contour of two segments with a corner at the start of each, in pixels from a cell's lower left corner: cells 1 and 2 share it.
const OUTLINES: Outlines = Outlines { colours: &[1, 6], coords: &[0.25, 0.5, 0.75, 0.5], ends: &[2] };

/// The mark of a stencil byte: its texel is protected by a corner, or by an edge alone, or not at all; the second letter of each where it has an error.
fn mark(byte: u8) -> char {
    let [clean, flagged] = if byte & CORNER != 0 { ['C', 'D'] } else if byte & PROTECTED != 0 { ['P', 'B'] } else { ['.', 'E'] };
    if byte & ERROR != 0 { flagged } else { clean }
}

/// How many stencil bytes of a cell have the bit.
fn count(stencil: &[u8], cell: &SheetCell, bit: u8) -> usize {
    let rows = stencil.chunks(SIZE.0).skip(cell.y).take(cell.height);
    rows.flat_map(|row| &row[cell.x..cell.x + cell.width]).filter(|&&byte| byte & bit != 0).count()
}

fn main() {
    let alone = SheetCell { width: 2, height: 1, ..SheetCell::default() };
    let outlined = SheetCell { colours_count: 2, coords_count: 4, ends_count: 1, ..alone };
    let mut cells = [alone, SheetCell { x: 2, ..outlined }, SheetCell { x: 4, y: 2, ..outlined }];
    let modes = [Mode::Indiscriminate, Mode::EdgePriority, Mode::EdgePriority];
    let settings = [0.25, 0.25, 1.0].map(|length| Settings { ratio: 1.0, horizontal: length, vertical: length, diagonal: length });
    let mut samples = vec![0f32; SIZE.0 * SIZE.1 * SIZE.2];
    let mut stencil = vec![0u8; SIZE.0 * SIZE.1];
    // Lent for two rows of medians; what is in it does not matter.
    let mut room = vec![0f32; 2 * SIZE.0];
    for cell in &cells {
        let start = (cell.y * SIZE.0 + cell.x) * SIZE.2;
        samples[start..start + GLYPH.len()].copy_from_slice(&GLYPH);
    }
    match sheet_error_correction(SIZE, &mut samples, &mut stencil, &mut room, SheetCells { cells: &cells, modes: &modes, settings: &settings }, OUTLINES) {
        Ok(all) => {
            for (c, cell) in cells.iter().enumerate() {
                let [protected, error, corner] = [PROTECTED, ERROR, CORNER].map(|bit| count(&stencil, cell, bit));
                println!("cell {c}: protected {protected} error {error} corner {corner}");
            }
            println!("all: protected {} error {} corner {} tests {}", all.protected, all.error, all.corner, all.tests);
        }
        Err(refusal) => {
            println!("refused {}, cell {}, place {}", refusal.number, refusal.cell, refusal.place);
            std::process::exit(1);
        }
    }
    for row in stencil.chunks(SIZE.0) {
        println!("{}", row.iter().map(|&byte| mark(byte)).collect::<String>());
    }
    cells[1].x = 1;
    let refusal = sheet_check(SIZE, &samples, &stencil, &room, SheetCells { cells: &cells, modes: &modes, settings: &settings }, OUTLINES).unwrap_err();
    println!("cell 1 one to the left: refused {}, cell {}, place {}", refusal.number, refusal.cell, refusal.place);
}
