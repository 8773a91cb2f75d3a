//! The library's functions for whole sheets, over plain lists, and once more by their safe names.
#![allow(dead_code)] // a program may use a part of it

use crate::rungtwine::raw::{rungtwine_sheet_check, rungtwine_sheet_error_correction};
use crate::rungtwine::{sheet_check, sheet_error_correction, Counts, Mode, Outlines, Settings, SheetCell, SheetCells, SheetRefusal};

/// What is handed over besides the samples, the stencil and the room: ten numbers, a mode and four settings for each cell, and the three lists of the outlines.
#[derive(Clone, Copy)]
pub struct Given<'a> {
    pub cells: &'a [usize],
    pub modes: &'a [u8],
    pub settings: &'a [f64],
    pub colours: &'a [u8],
    pub coords: &'a [f64],
    pub ends: &'a [usize],
}

/// What comes back, the three lent slices aside: 0 where the sheet is accepted, or the check that fails, its cell and its place; and the sums over the cells.
#[derive(Clone, Copy, PartialEq, Eq, Debug, Default)]
pub struct Answer {
    pub refusal: u8,
    pub cell: usize,
    pub place: usize,
    pub protected: usize,
    pub error: usize,
    pub corner: usize,
    pub tests: usize,
}

/// What stands where an answer is to be written: a number that no answer is.
const UNWRITTEN: usize = usize::MAX - 12345;

/// Corrects the sheet's cells in place, fills the stencil and clears the room.
pub fn correct((width, height, channels): (usize, usize, usize), samples: &mut [f32], stencil: &mut [u8], room: &mut [f32], given: Given) -> Answer {
    let [mut cell, mut place, mut protected, mut error, mut corner, mut tests] = [UNWRITTEN; 6];
    // Every pointer comes from a slice with its own length or from a local, the mutable ones overlap nothing, and the function demands nothing else.
    let refusal = unsafe {
        rungtwine_sheet_error_correction(
            width,
            height,
            channels,
            samples.as_mut_ptr(),
            samples.len(),
            stencil.as_mut_ptr(),
            stencil.len(),
            room.as_mut_ptr(),
            room.len(),
            given.cells.as_ptr(),
            given.cells.len(),
            given.modes.as_ptr(),
            given.modes.len(),
            given.settings.as_ptr(),
            given.settings.len(),
            given.colours.as_ptr(),
            given.colours.len(),
            given.coords.as_ptr(),
            given.coords.len(),
            given.ends.as_ptr(),
            given.ends.len(),
            &mut cell,
            &mut place,
            &mut protected,
            &mut error,
            &mut corner,
            &mut tests,
        )
    };
    Answer { refusal, cell, place, protected, error, corner, tests }
}

/// The checks alone, with zeros for the counts.
pub fn check((width, height, channels): (usize, usize, usize), samples: &[f32], stencil: &[u8], room: &[f32], given: Given) -> Answer {
    let [mut cell, mut place] = [UNWRITTEN; 2];
    // As above, and only the two locals are written.
    let refusal = unsafe {
        rungtwine_sheet_check(
            width,
            height,
            channels,
            samples.as_ptr(),
            samples.len(),
            stencil.as_ptr(),
            stencil.len(),
            room.as_ptr(),
            room.len(),
            given.cells.as_ptr(),
            given.cells.len(),
            given.modes.as_ptr(),
            given.modes.len(),
            given.settings.as_ptr(),
            given.settings.len(),
            given.colours.as_ptr(),
            given.colours.len(),
            given.coords.as_ptr(),
            given.coords.len(),
            given.ends.as_ptr(),
            given.ends.len(),
            &mut cell,
            &mut place,
        )
    };
    Answer { refusal, cell, place, ..Answer::default() }
}

/// What is lent, before or after.
#[derive(Clone, Copy)]
pub struct Lent<'a> {
    pub samples: &'a [f32],
    pub stencil: &'a [u8],
    pub room: &'a [f32],
}

/// Whether the safe functions answer and leave the same, where their types can say what is handed over: modes up to 3, and whole cells and settings.
pub fn safe_is_same(size: (usize, usize, usize), lent: Lent, given: Given, answer: Answer, left: Lent) -> bool {
    let modes: Option<Vec<Mode>> = given.modes.iter().map(|&m| [Mode::Disabled, Mode::Indiscriminate, Mode::EdgePriority, Mode::EdgeOnly].get(m as usize).copied()).collect();
    let (Some(modes), 0, 0) = (modes, given.cells.len() % 10, given.settings.len() % 4) else { return true };
    let cells: Vec<SheetCell> = given.cells.chunks(10).map(cell).collect();
    let settings: Vec<Settings> = given.settings.chunks(4).map(|s| Settings { ratio: s[0], horizontal: s[1], vertical: s[2], diagonal: s[3] }).collect();
    let cells = SheetCells { cells: &cells, modes: &modes, settings: &settings };
    let outlines = Outlines { colours: given.colours, coords: given.coords, ends: given.ends };
    let checked = sheet_check(size, lent.samples, lent.stencil, lent.room, cells, outlines);
    let (mut samples, mut stencil, mut room) = (lent.samples.to_vec(), lent.stencil.to_vec(), lent.room.to_vec());
    let safe = sheet_error_correction(size, &mut samples, &mut stencil, &mut room, cells, outlines);
    let due = match answer {
        Answer { refusal: 0, protected, error, corner, tests, .. } => Ok(Counts { protected, error, corner, tests }),
        Answer { refusal: number, cell, place, .. } => Err(SheetRefusal { number, cell, place }),
    };
    let same = |a: &[f32], b: &[f32]| a.iter().map(|v| v.to_bits()).eq(b.iter().map(|v| v.to_bits()));
    safe == due && checked == due.map(|_| ()) && stencil == left.stencil && same(&samples, left.samples) && same(&room, left.room)
}

fn cell(n: &[usize]) -> SheetCell {
    SheetCell {
        x: n[0],
        y: n[1],
        width: n[2],
        height: n[3],
        colours_from: n[4],
        colours_count: n[5],
        coords_from: n[6],
        coords_count: n[7],
        ends_from: n[8],
        ends_count: n[9],
    }
}
