//! The library `correction_c` for Rust. `raw` declares its functions, which rungtwine.h describes; what follows is a safe way to call them: slices carry
//! their lengths, and a refusal is an error with its number and place, of a sheet with its cell too.
#![allow(dead_code)] // a program may use a part of it

pub mod raw {
    /// A part of a bitmap.
    #[repr(C)]
    pub struct Texel {
        pub samples: *const f32,
        pub length: usize,
    }

    extern "C" {
        pub fn rungtwine_error_correction(
            width: usize,
            height: usize,
            channels: usize,
            samples: *mut f32,
            samples_len: usize,
            stencil: *mut u8,
            stencil_len: usize,
            room: *mut f32,
            room_len: usize,
            mode: u8,
            ratio: f64,
            horizontal: f64,
            vertical: f64,
            diagonal: f64,
            colours: *const u8,
            colours_len: usize,
            coords: *const f64,
            coords_len: usize,
            ends: *const usize,
            ends_len: usize,
            place: *mut usize,
            protected: *mut usize,
            error: *mut usize,
            corner: *mut usize,
            tests: *mut usize,
        ) -> u8;

        pub fn rungtwine_plain_error_correction(
            width: usize,
            height: usize,
            channels: usize,
            samples: *mut f32,
            samples_len: usize,
            stencil: *mut u8,
            stencil_len: usize,
            room: *mut f32,
            room_len: usize,
            mode: u8,
            ratio: f64,
            horizontal: f64,
            vertical: f64,
            diagonal: f64,
            colours: *const u8,
            colours_len: usize,
            coords: *const f64,
            coords_len: usize,
            ends: *const usize,
            ends_len: usize,
            place: *mut usize,
            protected: *mut usize,
            error: *mut usize,
            corner: *mut usize,
        ) -> u8;

        pub fn rungtwine_sheet_error_correction(
            width: usize,
            height: usize,
            channels: usize,
            samples: *mut f32,
            samples_len: usize,
            stencil: *mut u8,
            stencil_len: usize,
            room: *mut f32,
            room_len: usize,
            cells: *const usize,
            cells_len: usize,
            modes: *const u8,
            modes_len: usize,
            settings: *const f64,
            settings_len: usize,
            colours: *const u8,
            colours_len: usize,
            coords: *const f64,
            coords_len: usize,
            ends: *const usize,
            ends_len: usize,
            cell: *mut usize,
            place: *mut usize,
            protected: *mut usize,
            error: *mut usize,
            corner: *mut usize,
            tests: *mut usize,
        ) -> u8;

        pub fn rungtwine_sheet_check(
            width: usize,
            height: usize,
            channels: usize,
            samples: *const f32,
            samples_len: usize,
            stencil: *const u8,
            stencil_len: usize,
            room: *const f32,
            room_len: usize,
            cells: *const usize,
            cells_len: usize,
            modes: *const u8,
            modes_len: usize,
            settings: *const f64,
            settings_len: usize,
            colours: *const u8,
            colours_len: usize,
            coords: *const f64,
            coords_len: usize,
            ends: *const usize,
            ends_len: usize,
            cell: *mut usize,
            place: *mut usize,
        ) -> u8;

        pub fn rungtwine_sign_correction(
            width: usize,
            height: usize,
            channels: usize,
            samples: *mut f32,
            samples_len: usize,
            zero: f32,
            filled: *const u8,
            filled_len: usize,
            matches: *mut i8,
            matches_len: usize,
            place: *mut usize,
        ) -> u8;

        pub fn rungtwine_samples_to_bytes(samples: *const f32, samples_len: usize, bytes: *mut u8, bytes_len: usize, place: *mut usize) -> u8;

        pub fn rungtwine_bytes_to_samples(bytes: *const u8, bytes_len: usize, samples: *mut f32, samples_len: usize, place: *mut usize) -> u8;

        pub fn rungtwine_texel_view(
            width: usize,
            height: usize,
            channels: usize,
            original: *const f32,
            original_len: usize,
            corrected: *const f32,
            corrected_len: usize,
            stencil: *const u8,
            stencil_len: usize,
            x: usize,
            y: usize,
            texel: *mut Texel,
        );

        pub fn rungtwine_texel_channel(red: f32, green: f32, blue: f32) -> usize;
    }
}

/// Bits of a stencil cell. CORNER stands beside PROTECTED on the texels that a corner protects in EdgePriority, also where an edge protects them too;
/// it is never there without PROTECTED, and in no other mode.
pub const ERROR: u8 = 1;
pub const PROTECTED: u8 = 2;
pub const CORNER: u8 = 4;

#[derive(Clone, Copy, PartialEq, Eq, Debug)]
#[repr(u8)]
pub enum Mode {
    Disabled = 0,
    Indiscriminate = 1,
    EdgePriority = 2,
    EdgeOnly = 3,
}

/// The least deviation ratio and the lengths of a pixel's step.
#[derive(Clone, Copy, Debug)]
#[repr(C)]
pub struct Settings {
    pub ratio: f64,
    pub horizontal: f64,
    pub vertical: f64,
    pub diagonal: f64,
}

/// A colour and two coordinates for each segment, and for each contour the number of segments up to its end.
#[derive(Clone, Copy, Debug)]
pub struct Outlines<'a> {
    pub colours: &'a [u8],
    pub coords: &'a [f64],
    pub ends: &'a [usize],
}

/// A cell of a sheet: the column and the row of its lower left texel, its width and its height; and its run of each outline list: where the run starts and how
/// many it takes, of `coords` two numbers a segment. Ends count the cell's own segments, and coordinates are in pixel units from the cell's lower left corner.
/// Runs may overlap.
#[derive(Clone, Copy, PartialEq, Eq, Default, Debug)]
#[repr(C)]
pub struct SheetCell {
    pub x: usize,
    pub y: usize,
    pub width: usize,
    pub height: usize,
    pub colours_from: usize,
    pub colours_count: usize,
    pub coords_from: usize,
    pub coords_count: usize,
    pub ends_from: usize,
    pub ends_count: usize,
}

/// The cells of a sheet, each with its mode and its settings: of each slice the same number, or the sheet is refused (50).
#[derive(Clone, Copy, Debug)]
pub struct SheetCells<'a> {
    pub cells: &'a [SheetCell],
    pub modes: &'a [Mode],
    pub settings: &'a [Settings],
}

// The library takes the cells as ten numbers each and the settings as four.
const _: () = assert!(std::mem::size_of::<SheetCell>() == 10 * std::mem::size_of::<usize>() && std::mem::size_of::<Settings>() == 4 * std::mem::size_of::<f64>());

/// What is counted: cells of the stencil, and range tests.
#[derive(Clone, Copy, PartialEq, Eq, Debug)]
pub struct Counts {
    /// Cells with PROTECTED.
    pub protected: usize,
    /// Cells with ERROR.
    pub error: usize,
    /// Cells with CORNER.
    pub corner: usize,
    /// Range tests that were made over the whole bitmap, or over the cells of a sheet, whatever they found, as rungtwine.h says: at most 84 for a texel and at
    /// least one for a flagged one, so from `error` to 84 * width * height, and 0 in Disabled.
    pub tests: usize,
}

impl Counts {
    /// The counts of cells alone.
    pub fn cells(self) -> Cells {
        Cells { protected: self.protected, error: self.error, corner: self.corner }
    }
}

/// What the plain engine counts: cells of the stencil with PROTECTED, with ERROR and with CORNER.
#[derive(Clone, Copy, PartialEq, Eq, Debug)]
pub struct Cells {
    pub protected: usize,
    pub error: usize,
    pub corner: usize,
}

/// The bitmap that a view is a part of.
#[derive(Clone, Copy, PartialEq, Eq, Debug)]
pub enum Bitmap {
    Original,
    Corrected,
}

/// The first check that fails, and its place; nothing was written.
#[derive(Clone, Copy, PartialEq, Eq, Debug)]
pub struct Refusal {
    pub number: u8,
    pub place: usize,
}

/// The first check of a sheet that fails, its cell and its place, which counts within the cell; nothing was written.
#[derive(Clone, Copy, PartialEq, Eq, Debug)]
pub struct SheetRefusal {
    pub number: u8,
    pub cell: usize,
    pub place: usize,
}

/// Corrects `samples` in place and fills `stencil`. `room` is lent for two rows of medians: 2 * width elements or more, or it is refused (60). What it held does
/// not matter, and every element is +0.0 afterwards; a refusal leaves it as it was.
pub fn error_correction(
    (width, height, channels): (usize, usize, usize),
    samples: &mut [f32],
    stencil: &mut [u8],
    room: &mut [f32],
    mode: Mode,
    settings: Settings,
    outlines: Outlines,
) -> Result<Counts, Refusal> {
    let (mut place, mut protected, mut error, mut corner, mut tests) = (0, 0, 0, 0, 0);
    // Every pointer comes from a slice with its own length or from a local, the mutable ones overlap nothing, and the function demands nothing else.
    let number = unsafe {
        raw::rungtwine_error_correction(
            width,
            height,
            channels,
            samples.as_mut_ptr(),
            samples.len(),
            stencil.as_mut_ptr(),
            stencil.len(),
            room.as_mut_ptr(),
            room.len(),
            mode as u8,
            settings.ratio,
            settings.horizontal,
            settings.vertical,
            settings.diagonal,
            outlines.colours.as_ptr(),
            outlines.colours.len(),
            outlines.coords.as_ptr(),
            outlines.coords.len(),
            outlines.ends.as_ptr(),
            outlines.ends.len(),
            &mut place,
            &mut protected,
            &mut error,
            &mut corner,
            &mut tests,
        )
    };
    if number == 0 { Ok(Counts { protected, error, corner, tests }) } else { Err(Refusal { number, place }) }
}

/// The same by a second engine, slow and written to be read: the same flags, stencil, samples, room, counts of cells and refusals, and no count of range tests.
pub fn plain_error_correction(
    (width, height, channels): (usize, usize, usize),
    samples: &mut [f32],
    stencil: &mut [u8],
    room: &mut [f32],
    mode: Mode,
    settings: Settings,
    outlines: Outlines,
) -> Result<Cells, Refusal> {
    let (mut place, mut protected, mut error, mut corner) = (0, 0, 0, 0);
    // Every pointer comes from a slice with its own length or from a local, the mutable ones overlap nothing, and the function demands nothing else.
    let number = unsafe {
        raw::rungtwine_plain_error_correction(
            width,
            height,
            channels,
            samples.as_mut_ptr(),
            samples.len(),
            stencil.as_mut_ptr(),
            stencil.len(),
            room.as_mut_ptr(),
            room.len(),
            mode as u8,
            settings.ratio,
            settings.horizontal,
            settings.vertical,
            settings.diagonal,
            outlines.colours.as_ptr(),
            outlines.colours.len(),
            outlines.coords.as_ptr(),
            outlines.coords.len(),
            outlines.ends.as_ptr(),
            outlines.ends.len(),
            &mut place,
            &mut protected,
            &mut error,
            &mut corner,
        )
    };
    if number == 0 { Ok(Cells { protected, error, corner }) } else { Err(Refusal { number, place }) }
}

/// Corrects each cell of a sheet in place, as if it were a bitmap alone, once every check of every cell has passed. Samples outside every cell stay, `stencil` is
/// zero there, and each count is the sum over the cells. `room` is lent as above, by the sheet's width. `outlines` has the lists that the cells' runs are of.
pub fn sheet_error_correction(
    (width, height, channels): (usize, usize, usize),
    samples: &mut [f32],
    stencil: &mut [u8],
    room: &mut [f32],
    cells: SheetCells,
    outlines: Outlines,
) -> Result<Counts, SheetRefusal> {
    let (mut cell, mut place, mut protected, mut error, mut corner, mut tests) = (0, 0, 0, 0, 0, 0);
    // Every pointer comes from a slice with its own length or from a local, the mutable ones overlap nothing, and the function demands nothing else. A cell is
    // ten numbers, a mode one byte and the settings four numbers.
    let number = unsafe {
        raw::rungtwine_sheet_error_correction(
            width,
            height,
            channels,
            samples.as_mut_ptr(),
            samples.len(),
            stencil.as_mut_ptr(),
            stencil.len(),
            room.as_mut_ptr(),
            room.len(),
            cells.cells.as_ptr().cast(),
            10 * cells.cells.len(),
            cells.modes.as_ptr().cast(),
            cells.modes.len(),
            cells.settings.as_ptr().cast(),
            4 * cells.settings.len(),
            outlines.colours.as_ptr(),
            outlines.colours.len(),
            outlines.coords.as_ptr(),
            outlines.coords.len(),
            outlines.ends.as_ptr(),
            outlines.ends.len(),
            &mut cell,
            &mut place,
            &mut protected,
            &mut error,
            &mut corner,
            &mut tests,
        )
    };
    if number == 0 { Ok(Counts { protected, error, corner, tests }) } else { Err(SheetRefusal { number, cell, place }) }
}

/// All checks of `sheet_error_correction` and nothing else, for a caller who corrects a sheet part by part and wants to know beforehand. The room is not written.
pub fn sheet_check(
    (width, height, channels): (usize, usize, usize),
    samples: &[f32],
    stencil: &[u8],
    room: &[f32],
    cells: SheetCells,
    outlines: Outlines,
) -> Result<(), SheetRefusal> {
    let (mut cell, mut place) = (0, 0);
    // As above, and only the two locals are written.
    let number = unsafe {
        raw::rungtwine_sheet_check(
            width,
            height,
            channels,
            samples.as_ptr(),
            samples.len(),
            stencil.as_ptr(),
            stencil.len(),
            room.as_ptr(),
            room.len(),
            cells.cells.as_ptr().cast(),
            10 * cells.cells.len(),
            cells.modes.as_ptr().cast(),
            cells.modes.len(),
            cells.settings.as_ptr().cast(),
            4 * cells.settings.len(),
            outlines.colours.as_ptr(),
            outlines.colours.len(),
            outlines.coords.as_ptr(),
            outlines.coords.len(),
            outlines.ends.as_ptr(),
            outlines.ends.len(),
            &mut cell,
            &mut place,
        )
    };
    if number == 0 { Ok(()) } else { Err(SheetRefusal { number, cell, place }) }
}

/// Turns what is inside out in `samples` to the other side of `zero`, in place, before the error correction: 1, 3 or 4 channels. `filled` has a 1 for each texel
/// that is filled and a 0 for each that is not. `matches` is left with -1 for each texel whose median lies on the wrong side, 0 where it lies on `zero` and 1
/// otherwise, zeros with one channel; what it held does not matter. A flipped value may be larger in size than the error correction takes.
pub fn sign_correction(
    (width, height, channels): (usize, usize, usize),
    samples: &mut [f32],
    zero: f32,
    filled: &[u8],
    matches: &mut [i8],
) -> Result<(), Refusal> {
    let mut place = 0;
    // Every pointer comes from a slice with its own length or from a local, the mutable ones overlap nothing, and the function demands nothing else.
    let number = unsafe {
        raw::rungtwine_sign_correction(
            width,
            height,
            channels,
            samples.as_mut_ptr(),
            samples.len(),
            zero,
            filled.as_ptr(),
            filled.len(),
            matches.as_mut_ptr(),
            matches.len(),
            &mut place,
        )
    };
    if number == 0 { Ok(()) } else { Err(Refusal { number, place }) }
}

/// Each sample, held to 0..1, as the byte nearest to 255 times its exact value, at a tie the even one: any number of samples, of any number of channels.
/// Refused, with `bytes` as it was, where the lengths differ (40) or a sample is NaN, infinite or of size above 1,048,576 (6).
pub fn samples_to_bytes(samples: &[f32], bytes: &mut [u8]) -> Result<(), Refusal> {
    let mut place = 0;
    // Every pointer comes from a slice with its own length or from a local, the mutable ones overlap nothing, and the function demands nothing else.
    let number = unsafe { raw::rungtwine_samples_to_bytes(samples.as_ptr(), samples.len(), bytes.as_mut_ptr(), bytes.len(), &mut place) };
    if number == 0 { Ok(()) } else { Err(Refusal { number, place }) }
}

/// Each byte k as the value nearest to k / 255. Refused, with `samples` as it was, where the lengths differ (40).
pub fn bytes_to_samples(bytes: &[u8], samples: &mut [f32]) -> Result<(), Refusal> {
    let mut place = 0;
    // Every pointer comes from a slice with its own length or from a local, the mutable ones overlap nothing, and the function demands nothing else.
    let number = unsafe { raw::rungtwine_bytes_to_samples(bytes.as_ptr(), bytes.len(), samples.as_mut_ptr(), samples.len(), &mut place) };
    if number == 0 { Ok(()) } else { Err(Refusal { number, place }) }
}

/// All channels of texel x, y, lent from `corrected` where its cell of `stencil` has the bit ERROR, whatever else is set, and from `original` otherwise.
/// An empty part of `original` where a bitmap or the stencil does not have that size, or the texel lies outside.
pub fn texel_view<'a>(
    (width, height, channels): (usize, usize, usize),
    original: &'a [f32],
    corrected: &'a [f32],
    stencil: &[u8],
    (x, y): (usize, usize),
) -> (Bitmap, &'a [f32]) {
    let mut texel = raw::Texel { samples: original.as_ptr(), length: 0 };
    // Every pointer comes from a slice with its own length or from a local that overlaps nothing, and the texel is left a part of one of the two bitmaps.
    let samples = unsafe {
        raw::rungtwine_texel_view(
            width,
            height,
            channels,
            original.as_ptr(),
            original.len(),
            corrected.as_ptr(),
            corrected.len(),
            stencil.as_ptr(),
            stencil.len(),
            x,
            y,
            &mut texel,
        );
        std::slice::from_raw_parts(texel.samples, texel.length)
    };
    let of_corrected = !samples.is_empty() && samples.as_ptr() == corrected[(y * width + x) * channels..].as_ptr();
    (if of_corrected { Bitmap::Corrected } else { Bitmap::Original }, samples)
}

/// The lowest of a texel's first three channels whose value compares equal to their median, 0 if all three are NaN. Of a flagged texel ask before
/// the correction, or of the original: afterwards its three channels are equal, and it is 0.
pub fn texel_channel([red, green, blue]: [f32; 3]) -> usize {
    // The function takes any three numbers and touches no memory.
    unsafe { raw::rungtwine_texel_channel(red, green, blue) }
}
