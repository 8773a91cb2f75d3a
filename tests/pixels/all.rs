//! Every pattern of 32 bits: the byte of each that is good, and the refusal of each other one by itself.

use crate::judge::{byte, is_byte, LIMIT, SIGN};
use crate::rungtwine::raw;
use std::time::Instant;

/// Good patterns are taken so many at a time.
const BLOCK: u32 = 65_536;

#[derive(Default)]
struct Totals {
    exported: u64,
    refused: u64,
    differing: u64,
}

impl Totals {
    /// Counts a pattern that differs, and shows the first ones.
    fn differs(&mut self, pattern: u32, what: &str) {
        self.differing += 1;
        if self.differing <= 5 {
            println!("differs: {pattern:08X}, {what}");
        }
    }

    /// The patterns from `first` on, all of them good.
    fn block(&mut self, first: u32, samples: &mut [u32], bytes: &mut [u8]) {
        samples.iter_mut().zip(first..).for_each(|(sample, pattern)| *sample = pattern);
        // What is not written is wrong, whatever it was before.
        bytes.fill(!byte(first));
        let mut place = usize::MAX;
        // Both pointers come from slices with their lengths, and a pattern is as good as its float.
        let number = unsafe { raw::rungtwine_samples_to_bytes(samples.as_ptr().cast(), samples.len(), bytes.as_mut_ptr(), bytes.len(), &mut place) };
        if (number, place) != (0, 0) {
            self.differs(first, &format!("a block of which is refused with {number} at {place}"));
        }
        self.exported += samples.len() as u64;
        for (&pattern, &k) in samples.iter().zip(&*bytes) {
            if !is_byte(pattern, k) {
                self.differs(pattern, &format!("byte {k}, judged {}", byte(pattern)));
            }
        }
    }

    /// A pattern that is bad, in a slice of its own.
    fn alone(&mut self, pattern: u32) {
        let (mut kept, mut place) = (0xA5, usize::MAX);
        // Each pointer is good for one element.
        let number = unsafe { raw::rungtwine_samples_to_bytes((&raw const pattern).cast(), 1, &mut kept, 1, &mut place) };
        self.refused += 1;
        if (number, place, kept) != (6, 0, 0xA5) {
            self.differs(pattern, &format!("answered {number} at {place}, the byte left {kept}"));
        }
    }
}

/// Runs them all and answers whether none differs.
pub fn all() -> bool {
    let start = Instant::now();
    let mut totals = Totals::default();
    let (mut samples, mut bytes) = (vec![0; BLOCK as usize], vec![0; BLOCK as usize]);
    for sign in [0, SIGN] {
        for first in (0..=LIMIT).step_by(BLOCK as usize) {
            let count = BLOCK.min(LIMIT + 1 - first) as usize;
            totals.block(sign | first, &mut samples[..count], &mut bytes[..count]);
        }
        (LIMIT + 1..=!SIGN).for_each(|size| totals.alone(sign | size));
    }
    let Totals { exported, refused, differing } = totals;
    println!("{} patterns in {:.0} s: {exported} exported, {refused} refused, {differing} differ", exported + refused, start.elapsed().as_secs_f64());
    differing == 0 && exported + refused == 1 << 32
}
