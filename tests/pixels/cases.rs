//! The slices that are compared: good samples in slices of many lengths, in their order and back again, and refusals.

use crate::compare::{back, out, Tally};
use crate::patterns::{bad, good, sort, BAD};
use crate::rng::Rng;
use crate::seen::Kind;

/// Slices are of each length up to this one.
const LONGEST: usize = 300;
/// Lengths of slices with a bad sample at each place: about those at which a loop over several samples at once ends.
const LENGTHS: [usize; 19] = [1, 2, 3, 4, 5, 7, 8, 9, 15, 16, 17, 31, 32, 33, 63, 64, 65, 129, 257];
/// Lengths of slices with a bad sample at every two places.
const PAIRS: [usize; 5] = [2, 3, 9, 17, 40];

/// Good samples, cut into slices of each length in turn.
pub fn cut(tally: &mut Tally, mut samples: &[u32], rng: &mut Rng) {
    for length in (0..=LONGEST).cycle() {
        let (slice, rest) = samples.split_at(length.min(samples.len()));
        out(tally, slice, slice.len(), rng);
        samples = rest;
        if samples.is_empty() {
            break;
        }
    }
}

/// Good samples in one slice by their value: no byte is below the one before.
pub fn ordered(tally: &mut Tally, samples: &[u32], rng: &mut Rng) {
    let mut samples = samples.to_vec();
    sort(&mut samples);
    let mut bytes = out(tally, &samples, samples.len(), rng);
    tally.hold(match bytes.windows(2).position(|pair| pair[0] > pair[1]) {
        Some(k) => Err(format!("{:08X} is {} and {:08X} above it {}", samples[k], bytes[k], samples[k + 1], bytes[k + 1])),
        None => Ok(()),
    });
    bytes.dedup();
    tally.seen.hit_if(bytes.iter().copied().eq(0..=255), Kind::OutEvery);
}

/// Bytes as samples in slices of each length, and as bytes again, which they have to be.
pub fn there_and_back(tally: &mut Tally, rng: &mut Rng) {
    for length in (0..=LONGEST).chain([4096]) {
        let first = rng.next() as u8;
        let bytes: Vec<u8> = (0..length).map(|k| first.wrapping_add(k as u8)).collect();
        back(tally, &bytes, length, rng);
        let samples: Vec<u32> = bytes.iter().map(|&k| crate::judge::sample(k)).collect();
        let again = out(tally, &samples, length, rng);
        tally.hold(if again == bytes { Ok(()) } else { Err(format!("{length} bytes are others once they were samples")) });
    }
}

fn some(rng: &mut Rng, length: usize) -> Vec<u32> {
    (0..length).map(|_| good(rng)).collect()
}

/// One slice shorter or longer than the other, on either way, with good samples and with a bad one.
pub fn lengths(tally: &mut Tally, rng: &mut Rng) {
    for length in (0..=70).chain([255, 256, 257, LONGEST]) {
        for other in [length.saturating_sub(1), length + 1, 0, length + 16, 2 * length] {
            let mut samples = some(rng, length);
            let bytes: Vec<u8> = (0..length).map(|_| rng.next() as u8).collect();
            out(tally, &samples, other, rng);
            back(tally, &bytes, other, rng);
            if length > 0 {
                let at = rng.pick(&[0, length / 2, length - 1]);
                samples[at] = bad(rng);
                out(tally, &samples, other, rng);
            }
        }
    }
}

/// A bad sample of each kind at each place.
pub fn places(tally: &mut Tally, rng: &mut Rng) {
    for length in LENGTHS {
        for at in 0..length {
            for pattern in BAD {
                let mut samples = some(rng, length);
                samples[at] = pattern;
                out(tally, &samples, length, rng);
            }
        }
    }
}

/// Two bad samples at every two places: the first one is told.
pub fn pairs(tally: &mut Tally, rng: &mut Rng) {
    for length in PAIRS {
        for later in 1..length {
            for at in 0..later {
                let mut samples = some(rng, length);
                samples[at] = bad(rng);
                samples[later] = bad(rng);
                out(tally, &samples, length, rng);
            }
        }
    }
}
