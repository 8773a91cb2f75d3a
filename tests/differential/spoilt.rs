//! Whether the comparison sees what a pass could get wrong about corners, about the count of range tests and about the room: the judge's answers to figures are
//! spoilt, one way at a time, and every side has to differ from them; the plain engine, which counts no range tests, in the corners and the room alone, the original,
//! which is lent no room, in the others. In the corners' figures an edge, a corner and both protect a texel; in the others range tests are made and left out.

use crate::cases::Case;
use crate::fixed::{corner_figures, test_figures};
use crate::judge::{Answer, Counting, Seen, CORNER, PROTECTED};
use crate::sides::{against_engine, by_judge, by_judge_counting, Engine, Outcome};

/// What is spoilt, in which mode's figure, and how. An edge alone protects its first texel, an edge and a corner the second, a corner alone the third.
const WAYS: [(&str, u8, fn(&mut Outcome)); 7] = [
    ("a corner where an edge protects", 2, |o| o.stencil[0] |= CORNER),
    ("a corner that an edge takes away", 2, |o| o.stencil[1] &= !CORNER),
    ("a corner that leaves its texel unprotected", 2, |o| o.stencil[2] &= !PROTECTED),
    ("a corner that is left out", 2, |o| o.stencil[2] &= !CORNER),
    ("a corner in EdgeOnly", 3, |o| o.stencil[2] |= CORNER),
    ("a corner in Indiscriminate", 1, |o| o.stencil[2] |= CORNER),
    ("a corner in Disabled", 0, |o| o.stencil[2] |= CORNER),
];

/// Every wrong way of counting that the judge knows.
const COUNTINGS: [Counting; 10] = [
    Counting::RootsCutShort,
    Counting::RootsGoOn,
    Counting::PairsGoOn,
    Counting::NeighboursGoOn,
    Counting::RootsOtherwise,
    Counting::PairsOtherwise,
    Counting::SidesOtherwise,
    Counting::DiagonalsOtherwise,
    Counting::CandidatesAlone,
    Counting::DisabledToo,
];

/// Whether the original differs from what was spoilt.
#[cfg(oracle)]
fn seen_by_original(case: &Case, spoilt: &Outcome) -> bool {
    crate::sides::against_oracle(case, spoilt, &mut 0).is_err()
}

/// Without the original there is nothing that it could miss.
#[cfg(not(oracle))]
fn seen_by_original(_: &Case, _: &Outcome) -> bool {
    true
}

/// Whether an engine differs from what was spoilt.
fn seen_by(engine: Engine, case: &Case, spoilt: &Outcome) -> bool {
    against_engine(engine, case, spoilt).is_err()
}

/// Whether each side that counts range tests differs from what was spoilt.
fn seen_counting(case: &Case, spoilt: &Outcome) -> bool {
    seen_by_original(case, spoilt) && seen_by(Engine::First, case, spoilt)
}

/// Counts what was not seen, and says it.
fn miss(missed: &mut usize, seen: bool, what: &str) {
    if !seen {
        *missed += 1;
        println!("not seen: {what}");
    }
}

/// Every way to spoil corners, and a corner count that is the protected cells' or 0.
fn corners(missed: &mut usize) {
    let figures = corner_figures();
    let of_mode = |mode: u8| figures.iter().find(|c| c.input.mode == mode).expect("a figure in each mode");
    for (name, mode, spoil) in WAYS {
        let case = of_mode(mode);
        let mut outcome = by_judge(case, &mut Seen::new());
        spoil(&mut outcome);
        miss(missed, seen_counting(case, &outcome) && seen_by(Engine::Plain, case, &outcome), name);
    }
    for of_protected in [true, false] {
        let mut outcome = by_judge(of_mode(2), &mut Seen::new());
        outcome.answer.corner = if of_protected { outcome.answer.protected } else { 0 };
        let seen = [Engine::First, Engine::Plain].iter().all(|&engine| seen_by(engine, of_mode(2), &outcome));
        miss(missed, seen, &format!("{} corner cells counted", outcome.answer.corner));
    }
}

/// Every wrong way of counting gives another sum in one of the figures at least, and each such sum is seen.
fn countings(missed: &mut usize) {
    for counting in COUNTINGS {
        let mut told = 0;
        for case in test_figures() {
            let wrong = by_judge_counting(&case, counting, &mut Seen::new());
            if wrong.answer.tests != by_judge(&case, &mut Seen::new()).answer.tests {
                told += 1;
                miss(missed, seen_counting(&case, &wrong), &format!("{} range tests counted by {counting:?}", wrong.answer.tests));
            }
        }
        miss(missed, told > 0, &format!("{counting:?}, in any figure"));
    }
}

/// In every figure: one test more and one less, one that is another texel's, which the original alone tells texel by texel, and one in a refusal.
fn single_tests(missed: &mut usize) {
    for mut case in test_figures() {
        let spoil = |from: u32, to: u32| {
            let mut outcome = by_judge(&case, &mut Seen::new());
            let k = outcome.tests.iter().position(|&n| n >= from)?;
            outcome.tests[k] -= from;
            *outcome.tests.last_mut()? += to;
            outcome.answer.tests = outcome.answer.tests + to as usize - from as usize;
            Some(outcome)
        };
        miss(missed, spoil(0, 1).is_some_and(|o| seen_counting(&case, &o)), "one range test more");
        miss(missed, spoil(1, 0).map_or(case.input.mode == 0, |o| seen_counting(&case, &o)), "one range test less");
        miss(missed, spoil(1, 1).map_or(case.input.mode == 0, |o| seen_by_original(&case, &o)), "a range test of another texel");
        case.input.mode = 4;
        let mut refused = by_judge(&case, &mut Seen::new());
        refused.answer.tests = 1;
        miss(missed, seen_by(Engine::First, &case, &refused), "a range test in a refusal");
    }
}

/// What is spoilt about the room of an accepted case.
const ROOM_WAYS: [(&str, fn(&Case, &mut Outcome)); 4] = [
    ("a room that is left as it was", |case, o| o.room.copy_from_slice(&case.room)),
    ("a minus zero in the room", |_, o| o.room[0] = -0.0),
    ("the room's last element", |case, o| *o.room.last_mut().expect("a room") = *case.room.last().expect("a room")),
    ("a room that is too short", |_, o| o.answer = Answer { refusal: 60, ..Answer::default() }),
];

/// What is spoilt about a case whose room is one short.
const SHORT_WAYS: [(&str, fn(&mut Outcome)); 3] = [
    ("a refusal that clears the room", |o| o.room.fill(0.0)),
    ("a refusal of a short room by another number", |o| o.answer.refusal = 5),
    ("a refusal of a short room at another place", |o| o.answer.place = 1),
];

/// Every way to spoil a room, in every mode, in each engine.
fn rooms(missed: &mut usize) {
    let both = |case: &Case, spoilt: &Outcome| [Engine::First, Engine::Plain].iter().all(|&engine| seen_by(engine, case, spoilt));
    for mut case in corner_figures() {
        case.room = vec![f32::NAN; 2 * case.input.width + 1];
        for (name, spoil) in ROOM_WAYS {
            let mut outcome = by_judge(&case, &mut Seen::new());
            spoil(&case, &mut outcome);
            miss(missed, both(&case, &outcome), name);
        }
        case.room.truncate(2 * case.input.width - 1);
        for (name, spoil) in SHORT_WAYS {
            let mut outcome = by_judge(&case, &mut Seen::new());
            spoil(&mut outcome);
            miss(missed, both(&case, &outcome), name);
        }
    }
}

/// Whether everything that is spoilt is seen.
pub fn all_seen() -> bool {
    let mut missed = 0;
    corners(&mut missed);
    countings(&mut missed);
    single_tests(&mut missed);
    rooms(&mut missed);
    missed == 0
}
