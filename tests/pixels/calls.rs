//! The library's two functions on slices that lie between guards, and what they left. Samples are held as patterns, so that nothing can change a NaN on its way.

use crate::rungtwine::raw;

const MARGIN: usize = 64;
/// Where a place is to be written.
const UNWRITTEN: usize = usize::MAX - 12345;

/// What stands around a slice: NaN around samples, so that reading one is told as a refusal, and no two bytes in a row alike.
fn sample_guard(at: usize) -> u32 {
    0x7fa5_0000 | at as u32
}
fn byte_guard(at: usize) -> u8 {
    (at * 37 + 11) as u8
}

/// A list from this offset on, with guards on both sides.
struct Guarded<T> {
    list: Vec<T>,
    start: usize,
    length: usize,
    guard: fn(usize) -> T,
}

impl<T: Copy + PartialEq> Guarded<T> {
    fn new(list: &[T], offset: usize, guard: fn(usize) -> T) -> Guarded<T> {
        let start = MARGIN + offset;
        let mut all: Vec<T> = (0..start + list.len() + MARGIN).map(guard).collect();
        all[start..start + list.len()].copy_from_slice(list);
        Guarded { list: all, start, length: list.len(), guard }
    }

    fn inside(&self) -> &[T] {
        &self.list[self.start..self.start + self.length]
    }

    fn pointer(&mut self) -> *mut T {
        self.list[self.start..].as_mut_ptr()
    }

    /// Whether the guards are as they were.
    fn kept(&self) -> bool {
        let inside = self.start..self.start + self.length;
        self.list.iter().enumerate().all(|(at, v)| inside.contains(&at) || *v == (self.guard)(at))
    }
}

/// What came back, and what is left of the list that may be written.
pub struct Answer<T> {
    pub number: u8,
    pub place: usize,
    pub left: Vec<T>,
}

/// What is left after a call, unless it wrote where it must not.
fn answer<S: Copy + PartialEq, T: Copy + PartialEq>(number: u8, place: usize, from: (&Guarded<S>, &[S]), into: &Guarded<T>) -> Result<Answer<T>, String> {
    if place == UNWRITTEN {
        return Err("no place was written".into());
    }
    if !from.0.kept() || from.0.inside() != from.1 {
        return Err("wrote to what it reads".into());
    }
    if !into.kept() {
        return Err("wrote beside what it writes".into());
    }
    Ok(Answer { number, place, left: into.inside().to_vec() })
}

/// Samples to bytes, the two slices at offsets of their own.
pub fn out(samples: &[u32], bytes: &[u8], offsets: (usize, usize)) -> Result<Answer<u8>, String> {
    let mut from = Guarded::new(samples, offsets.0, sample_guard);
    let mut into = Guarded::new(bytes, offsets.1, byte_guard);
    let mut place = UNWRITTEN;
    // Both pointers are inside their lists with the lengths of what is between the guards, and a pattern is as good as its float.
    let number = unsafe { raw::rungtwine_samples_to_bytes(from.pointer().cast(), samples.len(), into.pointer(), bytes.len(), &mut place) };
    answer(number, place, (&from, samples), &into)
}

/// Bytes to samples.
pub fn back(bytes: &[u8], samples: &[u32], offsets: (usize, usize)) -> Result<Answer<u32>, String> {
    let mut from = Guarded::new(bytes, offsets.0, byte_guard);
    let mut into = Guarded::new(samples, offsets.1, sample_guard);
    let mut place = UNWRITTEN;
    // As above.
    let number = unsafe { raw::rungtwine_bytes_to_samples(from.pointer(), bytes.len(), into.pointer().cast(), samples.len(), &mut place) };
    answer(number, place, (&from, bytes), &into)
}
