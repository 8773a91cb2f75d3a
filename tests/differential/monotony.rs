//! Demand 3, tried: over pairs of accepted passes on the same samples, the second stricter than the first, no texel is flagged by the second alone;
//! and with the relation broken in any one way some are, so that the trial can fail.
//! The same for corners: over pairs of EdgePriority passes, the second with every outline of the first in its order, each cell that a corner of the first
//! protects a corner of the second protects too.

use crate::cases::{accepted, contour, contours_of, set_contours, Case};
use crate::judge::{Input, Seen, CORNER, ERROR, LIMIT};
use crate::rng::Rng;
use crate::shrink;
use crate::sides::{by_engine, by_judge, Engine, Outcome};

/// The judge's answer and the first engine's; runs hold the plain engine to both.
fn answers(case: &Case) -> [Outcome; 2] {
    [by_judge(case, &mut Seen::new()), by_engine(Engine::First, case).unwrap()]
}

fn larger(rng: &mut Rng, v: f64) -> f64 {
    let up = match rng.below(7) {
        0 | 1 => v,
        // the other zero is as large by the floats' own order
        2 => if v == 0.0 { -v } else { v },
        3 => f64::from_bits(v.abs().to_bits() + 1),
        4 => v + 1.0 / 64.0,
        5 => v * (1.0 + rng.unit()),
        _ => if rng.one_in(4) { LIMIT } else { v + 0.25 * rng.unit() },
    };
    if v <= up && up <= LIMIT { up } else { v }
}

/// Puts up to three contours between those that are there, `least` at least.
fn add_contours(rng: &mut Rng, input: &mut Input, least: usize) {
    let mut contours = contours_of(input);
    for _ in 0..least.max(rng.below(4)) {
        let at = rng.below(contours.len() + 1);
        let extra = contour(rng, input.width, input.height);
        contours.insert(at, extra);
    }
    set_contours(input, &contours);
}

fn stricter(rng: &mut Rng, first: &Case) -> Case {
    let mut second = first.clone();
    let input = &mut second.input;
    input.mode = rng.range(i64::from(input.mode), 3) as u8;
    input.ratio = larger(rng, input.ratio);
    for k in 0..3 {
        input.lengths[k] = larger(rng, input.lengths[k]);
    }
    add_contours(rng, input, 0);
    second
}

/// A case whose settings lie where flags change.
fn sensitive(rng: &mut Rng) -> Case {
    let mut case = accepted(rng);
    while case.samples.len() > 600 {
        case = accepted(rng);
    }
    let input = &mut case.input;
    if input.mode == 0 {
        input.mode = 1;
    }
    if rng.one_in(2) {
        input.ratio = rng.pick(&[1.0, 0.5, 10.0 / 9.0]);
        input.lengths = [0; 3].map(|_| rng.range(0, 32) as f64 / 64.0);
    }
    case
}

/// How many cells the second flags and the first does not, at the side that finds most.
fn added(first: &Case, second: &Case) -> usize {
    let mut most = 0;
    for (a, b) in answers(first).iter().zip(&answers(second)) {
        assert!(a.answer.refusal == 0 && b.answer.refusal == 0);
        let mut count = a.stencil.iter().zip(&b.stencil).filter(|(a, b)| *b & ERROR != 0 && *a & ERROR == 0).count();
        // What the second collapses the first collapses to the same.
        let n = first.input.channels;
        for k in 0..b.stencil.len() {
            if b.stencil[k] & a.stencil[k] & ERROR != 0 {
                let same = (0..n).all(|c| a.samples[k * n + c].to_bits() == b.samples[k * n + c].to_bits());
                count += usize::from(!same);
            }
        }
        most = most.max(count);
    }
    most
}

const BREAKS: [&str; 8] = [
    "a smaller ratio",
    "a smaller horizontal length",
    "a smaller vertical length",
    "a smaller diagonal length",
    "a dropped contour",
    "EdgeOnly, then EdgePriority",
    "EdgePriority, then Indiscriminate",
    "a segment added inside a contour",
];

/// The first with one part of the relation broken the other way.
fn broken(rng: &mut Rng, first: &mut Case, how: usize) -> Case {
    match how {
        5 => first.input.mode = 3,
        6 => first.input.mode = 2,
        4 | 7 => {
            first.input.mode = 2;
            let extra = contour(rng, first.input.width, first.input.height);
            let mut contours = contours_of(&first.input);
            contours.push(extra);
            set_contours(&mut first.input, &contours);
        }
        _ => {}
    }
    let mut second = first.clone();
    let input = &mut second.input;
    match how {
        0 => input.ratio *= 0.75,
        1..=3 => input.lengths[how - 1] *= 0.75,
        5 => input.mode = 2,
        6 => input.mode = 1,
        _ => {
            let mut contours = contours_of(input);
            let at = rng.below(contours.len());
            if how == 4 {
                contours.remove(at);
            } else {
                contours[at].push((7, 0.0, 0.0));
            }
            set_contours(input, &contours);
        }
    }
    second
}

/// How many cells a corner of the first protects and none of the second does, at the side that finds most.
fn lost(first: &Case, second: &Case) -> usize {
    let lost = |a: &Outcome, b: &Outcome| a.stencil.iter().zip(&b.stencil).filter(|(a, b)| *a & CORNER != 0 && *b & CORNER == 0).count();
    let (a, b) = (answers(first), answers(second));
    lost(&a[0], &b[0]).max(lost(&a[1], &b[1]))
}

/// A case in EdgePriority with an outline at least.
fn outlined(rng: &mut Rng) -> Case {
    let mut case = sensitive(rng);
    case.input.mode = 2;
    add_contours(rng, &mut case.input, 1);
    case
}

/// A pass over a bitmap of the same size with every outline of the first; what else is given does not matter to corners, and is another's.
fn with_more(rng: &mut Rng, first: &Case) -> Case {
    let mut second = first.clone();
    let other = sensitive(rng);
    second.samples.reverse();
    second.input.ratio = other.input.ratio;
    second.input.lengths = other.input.lengths;
    add_contours(rng, &mut second.input, 0);
    second
}

const CORNER_BREAKS: [&str; 3] = ["a dropped contour", "a segment added inside a contour", "EdgePriority, then EdgeOnly"];

/// The first with one part of the corners' relation broken.
fn corners_broken(rng: &mut Rng, first: &Case, how: usize) -> Case {
    let mut second = first.clone();
    let mut contours = contours_of(&first.input);
    let at = rng.below(contours.len());
    match how {
        0 => drop(contours.remove(at)),
        1 => contours[at].push((7, 0.0, 0.0)),
        _ => second.input.mode = 3,
    }
    set_contours(&mut second.input, &contours);
    second
}

fn corners(count: u64, seed: u64) -> bool {
    let (mut counter, mut cells, mut more) = (0u64, 0u64, 0u64);
    for at in 0..count {
        let mut rng = Rng::new(seed ^ 0xC0C0, at);
        let first = outlined(&mut rng);
        let second = with_more(&mut rng, &first);
        if lost(&first, &second) > 0 {
            counter += 1;
            if counter <= 3 {
                println!("a corner's cell is lost (seed {seed} index {at}):\n{}then\n{}", shrink::text(&first), shrink::text(&second));
            }
        }
        cells += by_judge(&first, &mut Seen::new()).answer.corner as u64;
        more += u64::from(lost(&second, &first) > 0);
    }
    println!("corners, seed {seed}: {count} pairs, {cells} cells protected by corners of the first passes, {more} pairs with others in the second, {counter} counterexamples");
    let mut can_fail = more > 0;
    for (how, name) in CORNER_BREAKS.iter().enumerate() {
        let mut pairs = 0u64;
        for at in 0..count / 2 {
            let mut rng = Rng::new(seed ^ 0xB0C0, at * 4 + how as u64);
            let first = outlined(&mut rng);
            pairs += u64::from(lost(&first, &corners_broken(&mut rng, &first, how)) > 0);
        }
        println!("corners' relation broken by {name}: cells lost in {pairs} of {} pairs", count / 2);
        can_fail &= pairs > 0;
    }
    counter == 0 && can_fail
}

fn flags(count: u64, seed: u64) -> bool {
    let mut counter = 0;
    let (mut flagged, mut fewer) = (0u64, 0u64);
    for at in 0..count {
        let mut rng = Rng::new(seed, at);
        let first = sensitive(&mut rng);
        let second = stricter(&mut rng, &first);
        let new = added(&first, &second);
        if new > 0 {
            counter += 1;
            if counter <= 3 {
                println!("a texel is added (seed {seed} index {at}):\n{}then\n{}", shrink::text(&first), shrink::text(&second));
            }
        }
        let seen = &mut Seen::new();
        let (a, b) = (by_judge(&first, seen).answer.error, by_judge(&second, seen).answer.error);
        flagged += a as u64;
        fewer += u64::from(b < a);
    }
    println!("monotony, seed {seed}: {count} pairs, {flagged} texels flagged by the first passes, {fewer} pairs with fewer in the second, {counter} counterexamples");
    let mut can_fail = true;
    for (how, name) in BREAKS.iter().enumerate() {
        let (mut pairs, mut texels) = (0u64, 0u64);
        for at in 0..count / 8 {
            let mut rng = Rng::new(seed ^ 0xB0B, at * 8 + how as u64);
            let mut first = sensitive(&mut rng);
            let second = broken(&mut rng, &mut first, how);
            let new = added(&first, &second);
            pairs += u64::from(new > 0);
            texels += new as u64;
        }
        println!("relation broken by {name}: {texels} texels added in {pairs} of {} pairs", count / 8);
        can_fail &= texels > 0;
    }
    counter == 0 && can_fail
}

/// Corners need fewer pairs: what decides about them is in every one.
pub fn run(count: u64, seed: u64) -> bool {
    let held = flags(count, seed);
    corners(count / 8, seed) && held
}
