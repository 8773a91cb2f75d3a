//! Faults put into cases that were accepted: in sizes and lengths, in samples, in the zero value and in the filled map.

use crate::cases::{accepted, sized, Case, ABOVE};
use crate::rng::Rng;

const BAD: [f32; 5] = [f32::NAN, f32::INFINITY, f32::NEG_INFINITY, ABOVE, -ABOVE];
const CHANNELS: [usize; 5] = [0, 2, 5, 7, usize::MAX];
const SIDES: [usize; 5] = [0, 4097, 65_536, 1 << 32, usize::MAX];
/// Where a bad sample stands: at the first index, the last, anywhere.
const PLACES: usize = 3;
/// Ways of a length: none, one short, one more, some more.
const LENGTHS: usize = 4;

// The faults, each from this number on.
const MATCHES: usize = 0;
const FILLED: usize = MATCHES + LENGTHS;
const BYTES: usize = FILLED + LENGTHS;
const ZERO: usize = BYTES + 3;
const SAMPLE: usize = ZERO + BAD.len();
const SAMPLES: usize = SAMPLE + BAD.len() * PLACES;
const WIDTH: usize = SAMPLES + LENGTHS;
const HEIGHT: usize = WIDTH + SIDES.len();
const CHANNEL: usize = HEIGHT + SIDES.len();
const FAULTS: usize = CHANNEL + CHANNELS.len();

fn resize<T: Copy>(list: &mut Vec<T>, way: usize, element: T) {
    match way {
        0 => list.clear(),
        1 => list.truncate(list.len().saturating_sub(1)),
        2 => list.push(element),
        _ => list.extend([element; 4]),
    }
}

/// Puts the fault of this number, below `FAULTS`, into the case, where there is room for it.
fn break_it(rng: &mut Rng, case: &mut Case, fault: usize) {
    let (samples, bytes) = (case.samples.len(), case.filled.len());
    match fault {
        CHANNEL.. => case.channels = CHANNELS[fault - CHANNEL],
        HEIGHT.. => case.height = SIDES[fault - HEIGHT],
        WIDTH.. => case.width = SIDES[fault - WIDTH],
        SAMPLES.. => resize(&mut case.samples, fault - SAMPLES, 0.5),
        SAMPLE.. if samples > 0 => {
            let anywhere = rng.below(samples);
            case.samples[[0, samples - 1, anywhere][(fault - SAMPLE) % PLACES]] = BAD[(fault - SAMPLE) / PLACES];
        }
        SAMPLE.. => {}
        ZERO.. => case.zero = BAD[fault - ZERO],
        BYTES.. if bytes > 0 => {
            let anywhere = rng.below(bytes);
            let (at, byte) = [(0, 2), (bytes - 1, 2), (anywhere, 255)][fault - BYTES];
            case.filled[at] = byte;
        }
        BYTES.. => {}
        FILLED.. => resize(&mut case.filled, fault - FILLED, 1),
        _ => resize(&mut case.matches, fault - MATCHES, 5),
    }
}

/// One to four faults, those of contents before those of lengths and sizes.
pub fn broken(rng: &mut Rng) -> Case {
    let mut case = accepted(rng);
    let mut faults: Vec<usize> = (0..rng.pick(&[1, 1, 1, 2, 3, 4])).map(|_| rng.below(FAULTS)).collect();
    faults.sort();
    for fault in faults {
        break_it(rng, &mut case, fault);
    }
    case.kind = "broken";
    case
}

/// A bitmap of this size whose lists are as long as it takes.
fn fitting(width: usize, height: usize, channels: usize) -> Case {
    let texels = width * height;
    Case {
        kind: "fitting",
        width,
        height,
        channels,
        samples: vec![0.25; texels * channels],
        zero: 0.5,
        filled: vec![1; texels],
        matches: vec![77; texels],
        rule: 0,
    }
}

/// In every run, whatever the seed: the largest sizes, those that are refused with lists that fit them, and every fault and every two in small bitmaps.
pub fn always() -> Vec<Case> {
    let mut rng = Rng::new(1, 1);
    let mut cases: Vec<Case> = [(4096, 2, 3), (2, 4096, 4), (4096, 1, 1), (1, 4096, 3)].map(|(w, h, ch)| sized(&mut rng, (w, h), ch)).into();
    cases.extend([(3, 2, 0), (3, 2, 2), (3, 2, 5), (0, 0, 3), (0, 5, 3), (5, 0, 1), (4097, 1, 1), (1, 4097, 4)].map(|(w, h, ch)| fitting(w, h, ch)));
    for (size, channels) in [((3, 2), 1), ((2, 3), 3), ((3, 3), 4), ((1, 1), 3)] {
        let base = sized(&mut rng, size, channels);
        cases.push(base.clone());
        for fault in 0..FAULTS {
            let mut case = base.clone();
            break_it(&mut rng, &mut case, fault);
            cases.push(case.clone());
            for later in fault..FAULTS {
                let mut case = case.clone();
                break_it(&mut rng, &mut case, later);
                cases.push(case);
            }
        }
    }
    cases.iter_mut().for_each(|case| case.kind = "always");
    cases
}
