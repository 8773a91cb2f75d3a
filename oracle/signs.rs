//! The original's correction of signs, compiled from raster/rasterization.rs and raster/scanline.rs where they lie, and driven with a filled map: the segments
//! of a shape of ours cross each row where the map changes, so that the original's own scanline answers the map. The projection is the original's identity.
//!
//! Its match map is a local of `distance_sign_correction_multi`. The same text is compiled a second time where `vec!` is a macro of ours, which makes a list
//! that hands over what it holds when it is dropped: so the map that is read is the one that the original wrote and voted by.

#[path = "../target/oracle/original/raster/rasterization.rs"]
pub mod rasterization;
#[path = "../target/oracle/original/raster/scanline.rs"]
pub mod scanline;

use crate::bitmap::Bitmap;
use crate::bitmap_of;
use crate::generator::Projection;
use crate::geometry::{Contour, Crossings, Segment, Shape};
use scanline::FillRule;
use std::cell::RefCell;
use std::ops::{Index, IndexMut};
use std::rc::Rc;

/// How many fill rules there are.
pub const RULES: usize = 4;

/// What is given besides the bitmap and the zero value.
pub struct Task {
    shape: Shape,
    projection: Projection,
    fill: FillRule,
}

impl Task {
    /// A shape that fills the texels with a 1 in `filled`, one byte a texel, by the fill rule of this number, which is below `RULES`.
    pub fn new(width: usize, height: usize, filled: &[u8], rule: usize) -> Task {
        let fill = [FillRule::NonZero, FillRule::Odd, FillRule::Positive, FillRule::Negative][rule];
        let inwards = if fill == FillRule::Negative { -1 } else { 1 };
        let crossings = |row: &[u8]| {
            let before = std::iter::once(&0).chain(row);
            let changes = before.zip(row).enumerate().filter(|(_, (before, here))| before != here);
            changes.map(|(x, (_, &here))| (x as f64, if here == 1 { inwards } else { -inwards })).collect::<Vec<_>>()
        };
        let rows: Rc<Vec<_>> = Rc::new(filled.chunks(width).map(crossings).collect());
        let most = rows.iter().map(Vec::len).max().unwrap_or(0);
        let segments = (0..most).step_by(3).map(|from| Segment::Crossings(Crossings { rows: rows.clone(), from })).collect();
        let task = Task { shape: Shape { contours: [Contour { segments, colors: Vec::new() }].into() }, projection: Projection::default(), fill };
        // The original's own rasterizing of the shape has to be the map.
        let mut coverage = Bitmap::new(width, height);
        rasterize(&mut coverage, &task);
        assert!(coverage.data().iter().copied().eq(filled.iter().map(|&byte| f32::from(byte))), "the shape does not fill what the map says");
        task
    }
}

/// The original's rasterizing: 1 for each texel that is filled, 0 for the others.
pub fn rasterize(coverage: &mut Bitmap<f32, 1>, task: &Task) {
    rasterization::rasterize(coverage, &task.shape, &task.projection, task.fill);
}

/// The original's entry for one channel.
pub fn correct_one(bitmap: &mut Bitmap<f32, 1>, zero: f32, task: &Task) {
    rasterization::distance_sign_correction_1(bitmap, &task.shape, &task.projection, zero, task.fill);
}

/// The original's entry for 3 or 4 channels.
pub fn correct_multi<const N: usize>(bitmap: &mut Bitmap<f32, N>, zero: f32, task: &Task) {
    rasterization::distance_sign_correction_multi(bitmap, &task.shape, &task.projection, zero, task.fill);
}

/// The samples afterwards in place, and the match map. Both texts are run, and have to leave the same samples.
fn correct_and_read<const N: usize>(width: usize, height: usize, samples: &mut [f32], zero: f32, task: &Task) -> Vec<i8> {
    let mut entered = bitmap_of::<N>(width, height, samples);
    correct_multi(&mut entered, zero, task);
    let mut read = bitmap_of::<N>(width, height, samples);
    watched::distance_sign_correction_multi(&mut read, &task.shape, &task.projection, zero, task.fill);
    let bits = |b: &Bitmap<f32, N>| b.data().iter().map(|v| v.to_bits()).collect::<Vec<_>>();
    assert!(bits(&entered) == bits(&read), "the entry whose match map is read differs from the original's");
    samples.copy_from_slice(entered.data());
    HANDED_OVER.take().expect("a match map")
}

/// The original's answer for 1, 3 or 4 channels: the samples afterwards in place, and its match map, of which one channel has none.
pub fn answer(width: usize, height: usize, channels: usize, samples: &mut [f32], zero: f32, task: &Task) -> Option<Vec<i8>> {
    match channels {
        1 => {
            let mut bitmap = bitmap_of::<1>(width, height, samples);
            correct_one(&mut bitmap, zero, task);
            samples.copy_from_slice(bitmap.data());
            None
        }
        3 => Some(correct_and_read::<3>(width, height, samples, zero, task)),
        4 => Some(correct_and_read::<4>(width, height, samples, zero, task)),
        _ => panic!("1, 3 or 4 channels"),
    }
}

thread_local! {
    /// What the list that was dropped last held.
    static HANDED_OVER: RefCell<Option<Vec<i8>>> = const { RefCell::new(None) };
}

/// A list that hands over what it holds when it is dropped.
struct Watched(Vec<i8>);

impl Index<usize> for Watched {
    type Output = i8;
    fn index(&self, k: usize) -> &i8 {
        &self.0[k]
    }
}

impl IndexMut<usize> for Watched {
    fn index_mut(&mut self, k: usize) -> &mut i8 {
        &mut self.0[k]
    }
}

impl Drop for Watched {
    fn drop(&mut self) {
        HANDED_OVER.set(Some(std::mem::take(&mut self.0)));
    }
}

// From here to the end of this file, and in the text below.
macro_rules! vec {
    ($element:expr; $length:expr) => {
        super::Watched(std::vec![$element; $length])
    };
}

#[path = "../target/oracle/original/raster/rasterization.rs"]
mod watched;
