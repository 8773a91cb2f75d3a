//! Rooms for the cases of the runs: for two rows, for more, one short, empty and anything between; and what they hold before, on which no answer may depend.

use crate::cases::{break_it, small, Case, FAULTS};
use crate::rng::Rng;

/// Bits that stand in a room before a pass: zeros, NaNs quiet and signalling, infinities, the least and the largest, and medians.
const DIRT: [u32; 14] = [
    0,
    0x8000_0000,
    0x7FC0_0000,
    0xFFC0_0001,
    0x7F80_0001,
    0xFFFF_FFFF,
    0x7F80_0000,
    0xFF80_0000,
    1,
    0x8000_0001,
    0x7F7F_FFFF,
    0x3F00_0000,
    0x3F80_0000,
    0x4980_0000,
];

/// So many elements: one of these all over, any of them, or any bits at all.
pub fn dirty(rng: &mut Rng, length: usize) -> Vec<f32> {
    let (way, one) = (rng.below(4), rng.pick(&DIRT));
    let element = |rng: &mut Rng| match way {
        0 => one,
        1 => rng.next() as u32,
        _ => rng.pick(&DIRT),
    };
    (0..length).map(|_| f32::from_bits(element(rng))).collect()
}

/// A length that is enough for two rows so wide.
pub fn enough(rng: &mut Rng, width: usize) -> usize {
    let some = 1 + rng.below(40);
    2 * width + rng.pick(&[0, 0, 0, 0, 1, 2, width, some])
}

/// A length that is not; of an empty row there is none.
pub fn too_short(rng: &mut Rng, width: usize) -> usize {
    let most = (2 * width).saturating_sub(1);
    let any = rng.below(most + 1);
    rng.pick(&[most, most, 0, width.min(most), any])
}

/// Gives the case another room, seldom a short one; where something else is wrong already, as often as not.
pub fn vary(rng: &mut Rng, case: &mut Case) {
    let width = case.input.width.min(4096);
    let short = rng.one_in(if case.kind == "broken" { 2 } else { 30 });
    let length = if short { too_short(rng, width) } else { enough(rng, width) };
    case.room = dirty(rng, length);
}

/// Every length up to more than two rows in a few small cases, in each mode and beside every fault.
pub fn every_length() -> Vec<Case> {
    let mut rng = Rng::new(60, 60);
    let mut cases = Vec::new();
    for base in small() {
        for length in 0..2 * base.input.width + 3 {
            let mut put = |mut case: Case| {
                case.room = dirty(&mut rng, length);
                cases.push(case);
            };
            for mode in 0..4 {
                let mut case = base.clone();
                case.input.mode = mode;
                put(case);
            }
            for fault in 0..FAULTS {
                let mut case = base.clone();
                break_it(&mut Rng::new(length as u64, fault as u64), &mut case, fault);
                put(case);
            }
        }
    }
    cases
}
