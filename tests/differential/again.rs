//! The result of an accepted pass as the input of the next: it is accepted again, with the same settings and with others, and every side agrees on it.
//! Outlines decide about corners alone: with the same settings the next pass has the same corner cells. A result that was spoilt on purpose is refused,
//! so that the trial can fail.

use crate::cases::{accepted, Case};
use crate::judge::{Seen, CORNER};
use crate::rng::Rng;
use crate::shrink;
use crate::sides::{compare, Outcome, Totals};

/// The case with what the pass left of it, in a mode and with settings of another's.
fn fed_back(case: &Case, left: Outcome, other: Option<&Case>) -> Case {
    let mut next = case.clone();
    (next.samples, next.stencil, next.room) = (left.samples, left.stencil, left.room);
    if let Some(other) = other {
        next.input.mode = other.input.mode;
        next.input.ratio = other.input.ratio;
        next.input.lengths = other.input.lengths;
    }
    next
}

/// Runs the case and twice what it leaves, the first time with the same settings; answers how many texels the later passes flagged.
fn rounds(rng: &mut Rng, first: Case, totals: &mut Totals) -> Result<u64, String> {
    let seen = &mut Seen::new();
    let mut case = first;
    let mut later = 0;
    let mut before = Vec::new();
    for turn in 0..3 {
        let left = compare(&case, seen, totals)?;
        if left.answer.refusal != 0 {
            return Err(format!("turn {turn} is refused: {} at {}\n{}", left.answer.refusal, left.answer.place, shrink::text(&case)));
        }
        let corners: Vec<u8> = left.stencil.iter().map(|cell| cell & CORNER).collect();
        if turn == 1 && corners != before {
            return Err(format!("the same settings give other corner cells\n{}", shrink::text(&case)));
        }
        before = corners;
        if turn > 0 {
            later += left.answer.error as u64;
        }
        let other = accepted(rng);
        case = fed_back(&case, left, if turn == 0 { None } else { Some(&other) });
    }
    Ok(later)
}

pub fn run(count: u64, seed: u64) -> bool {
    let mut totals = Totals::default();
    let (mut wrong, mut later, mut at_limit) = (0u64, 0u64, 0u64);
    for at in 0..count {
        let mut rng = Rng::new(seed, at);
        let first = accepted(&mut rng);
        at_limit += u64::from(first.samples.iter().any(|v| v.abs() == 1_048_576.0));
        match rounds(&mut rng, first, &mut totals) {
            Ok(flagged) => later += flagged,
            Err(what) => {
                wrong += 1;
                if wrong <= 3 {
                    println!("differs (seed {seed} index {at}): {what}");
                }
            }
        }
    }
    // One sample past the limit, as a pass that spoilt it would leave it, is refused.
    let mut spoilt = accepted(&mut Rng::new(seed, 0));
    spoilt.samples[0] = f32::from_bits(1_048_576.0f32.to_bits() + 1);
    let can_fail = rounds(&mut Rng::new(seed, 0), spoilt, &mut totals).is_err();
    println!("{}", totals.sides());
    println!("fed back, seed {seed}: {count} cases, {at_limit} of them with a sample at the limit, {} passes, {later} texels flagged by later ones, {} corner cells, {wrong} refused or different", totals.cases, totals.corner);
    wrong == 0 && can_fail && (count < 1000 || (later > 0 && at_limit > 0 && totals.corner > 0))
}
