//! Bitmaps stored in each order of the first three channels: every side agrees on each, a texel that two of them flag gets the same bits in both, and the corner cells are the same.
//! Which texels are flagged, and how many range tests are made, may differ. How many such texels a rule without an order of zeros would have told apart is counted, so that the trial can fail.

use crate::cases::{accepted, glyph_case, Case};
use crate::judge::{Seen, CORNER, ERROR};
use crate::rng::Rng;
use crate::shrink;
use crate::sides::{compare, Outcome, Totals};

/// Blue, green, red first.
const ORDERS: [[usize; 3]; 5] = [[2, 1, 0], [0, 2, 1], [1, 0, 2], [1, 2, 0], [2, 0, 1]];

#[derive(Default)]
struct Count {
    both: u64,
    one: u64,
    zeros: u64,
    told_apart: u64,
    corners: u64,
}

fn rewired(case: &Case, order: [usize; 3]) -> Case {
    let mut other = case.clone();
    for (to, from) in other.samples.chunks_mut(case.input.channels).zip(case.samples.chunks(case.input.channels)) {
        for (c, &by) in order.iter().enumerate() {
            to[c] = from[by];
        }
    }
    other
}

/// The median by comparisons alone, which takes the first of two zeros.
fn unordered(t: &[f32]) -> f32 {
    let min = |x: f32, y: f32| if y < x { y } else { x };
    let max = |x: f32, y: f32| if x < y { y } else { x };
    max(min(t[0], t[1]), min(max(t[0], t[1]), t[2]))
}

/// The case in one order and what is left of it.
struct Stored {
    case: Case,
    left: Outcome,
}

/// What is left of an accepted case, once every side agrees on it.
fn stored(case: Case, totals: &mut Totals) -> Result<Stored, String> {
    let left = compare(&case, &mut Seen::new(), totals)?;
    if left.answer.refusal == 0 { Ok(Stored { case, left }) } else { Err(format!("refused: {}", left.answer.refusal)) }
}

/// Holds the case as it is to the case in another order.
fn hold(one: &Stored, other: &Stored, order: [usize; 3], count: &mut Count) -> Result<(), String> {
    let (a, b) = (&one.left, &other.left);
    let n = one.case.input.channels;
    for k in 0..a.stencil.len() {
        let texel = k * n..k * n + 3;
        if a.stencil[k] & CORNER != b.stencil[k] & CORNER {
            return Err(format!("order {order:?}, cell {k}: {} and {}", a.stencil[k], b.stencil[k]));
        }
        count.corners += u64::from(a.stencil[k] & CORNER != 0);
        match (a.stencil[k] & ERROR != 0, b.stencil[k] & ERROR != 0) {
            (true, true) => {
                let (x, y) = (&a.samples[texel.clone()], &b.samples[texel.clone()]);
                if x.iter().zip(y).any(|(v, w)| v.to_bits() != w.to_bits()) {
                    return Err(format!("order {order:?}, texel {k}: {x:?} and {y:?}"));
                }
                count.both += 1;
                count.zeros += u64::from(x[0] == 0.0);
                count.told_apart += u64::from(unordered(&one.case.samples[texel.clone()]).to_bits() != unordered(&other.case.samples[texel]).to_bits());
            }
            (false, false) => {}
            _ => count.one += 1,
        }
    }
    Ok(())
}

/// Holds the case to each of its other orders.
fn orders(case: &Case, count: &mut Count, totals: &mut Totals) -> Result<(), String> {
    let one = stored(case.clone(), totals)?;
    for order in ORDERS {
        let other = stored(rewired(case, order), totals).map_err(|what| format!("order {order:?}: {what}"))?;
        hold(&one, &other, order, count)?;
    }
    Ok(())
}

pub fn run(number: u64, seed: u64) -> bool {
    let mut count = Count::default();
    let mut totals = Totals::default();
    let mut wrong = 0u64;
    for at in 0..number {
        let mut rng = Rng::new(seed, at);
        let mut case = if at % 2 == 0 { glyph_case(&mut rng) } else { accepted(&mut rng) };
        if at % 4 < 2 {
            for v in case.samples.iter_mut() {
                if rng.one_in(6) {
                    *v = if rng.one_in(2) { 0.0 } else { -0.0 };
                }
            }
        }
        if let Err(what) = orders(&case, &mut count, &mut totals) {
            wrong += 1;
            if wrong <= 3 {
                println!("differs (seed {seed} index {at}): {what}\n{}", shrink::text(&case));
            }
        }
    }
    println!("{}", totals.sides());
    println!(
        "channels stored in another order, seed {seed}: {number} bitmaps in six orders, {} texels flagged in two of them, {} in one of two, {} collapsed to a zero, {} that need the order of zeros, {} corner cells, {wrong} differ",
        count.both, count.one, count.zeros, count.told_apart, count.corners
    );
    wrong == 0 && (number < 1000 || (count.one > 0 && count.told_apart > 0 && count.corners > 0))
}
