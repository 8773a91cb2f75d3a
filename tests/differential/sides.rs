//! The sides that answer a case, and what it means that they agree.

use crate::cases::Case;
use crate::judge::{judge_counting, Answer, Counting, Seen, ERROR, MOST_TESTS};
#[cfg(oracle)]
use crate::judge::{CORNER, PROTECTED};
use crate::rungtwine::raw::{rungtwine_error_correction, rungtwine_plain_error_correction};
use std::collections::BTreeMap;

pub struct Outcome {
    pub answer: Answer,
    pub samples: Vec<f32>,
    pub stencil: Vec<u8>,
    pub room: Vec<f32>,
    /// The range tests of each texel, which the judge alone tells apart; the first engine has their sum in its answer, the plain engine counts none.
    pub tests: Vec<u32>,
}

pub fn by_judge(case: &Case, seen: &mut Seen) -> Outcome {
    by_judge_counting(case, Counting::Rule, seen)
}

/// The judge with its range tests counted in this way.
pub fn by_judge_counting(case: &Case, counting: Counting, seen: &mut Seen) -> Outcome {
    let (mut samples, mut stencil, mut room) = (case.samples.clone(), case.stencil.clone(), case.room.clone());
    let (answer, tests) = judge_counting(&case.input, &mut samples, &mut stencil, &mut room, counting, seen);
    Outcome { answer, samples, stencil, room, tests }
}

/// The original's samples and the rest of its answer, for a case that is accepted.
#[cfg(oracle)]
pub fn by_oracle(case: &Case) -> (Vec<f32>, oracle::Answered) {
    let i = &case.input;
    let task = oracle::Task::new(i.mode, i.ratio, i.lengths, &i.colours, &i.coords, &i.ends);
    let mut samples = case.samples.clone();
    let answered = oracle::answer(i.width, i.height, i.channels, &mut samples, &task);
    (samples, answered)
}

const MARGIN: usize = 16;
const SAMPLE_GUARD: u32 = 0x7FA5_A5A5;
pub const CELL_GUARD: u8 = 0xA5;

/// The list with guard elements before and after it.
pub fn guarded<T: Copy>(list: &[T], guard: T) -> Vec<T> {
    [&[guard; MARGIN], list, &[guard; MARGIN]].concat()
}

/// The list without its guard elements, if they are still there.
pub fn unguarded<T: Copy>(list: Vec<T>, is_guard: impl Fn(&T) -> bool, what: &str) -> Result<Vec<T>, String> {
    let end = list.len() - MARGIN;
    let kept = list[..MARGIN].iter().chain(&list[end..]).all(is_guard);
    if kept { Ok(list[MARGIN..end].to_vec()) } else { Err(format!("wrote beside the {what}")) }
}

/// A guard among floats.
pub fn sample_guard() -> f32 {
    f32::from_bits(SAMPLE_GUARD)
}

pub fn is_sample_guard(v: &f32) -> bool {
    v.to_bits() == SAMPLE_GUARD
}

/// The list proper between its guard elements.
pub fn between<T>(list: &mut [T]) -> &mut [T] {
    let end = list.len() - MARGIN;
    &mut list[MARGIN..end]
}

/// The two proved engines.
#[derive(Clone, Copy)]
pub enum Engine {
    First,
    Plain,
}

impl Engine {
    pub fn name(self) -> &'static str {
        match self {
            Engine::First => "first engine",
            Engine::Plain => "plain engine",
        }
    }

    /// The answer that the judge's asks of this engine: the plain one counts no range tests.
    fn due(self, judged: Answer) -> Answer {
        match self {
            Engine::First => judged,
            Engine::Plain => Answer { tests: 0, ..judged },
        }
    }
}

/// A proved engine, with guard elements on both sides of each slice that it may write.
pub fn by_engine(engine: Engine, case: &Case) -> Result<Outcome, String> {
    let i = &case.input;
    let mut samples = guarded(&case.samples, sample_guard());
    let mut stencil = guarded(&case.stencil, CELL_GUARD);
    let mut room = guarded(&case.room, sample_guard());
    let unwritten = usize::MAX - 12345;
    let [mut place, mut protected, mut error, mut corner, mut tests] = [unwritten; 5];
    let refusal = match engine {
        Engine::First => unsafe {
            rungtwine_error_correction(
                i.width,
                i.height,
                i.channels,
                between(&mut samples).as_mut_ptr(),
                case.samples.len(),
                between(&mut stencil).as_mut_ptr(),
                case.stencil.len(),
                between(&mut room).as_mut_ptr(),
                case.room.len(),
                i.mode,
                i.ratio,
                i.lengths[0],
                i.lengths[1],
                i.lengths[2],
                i.colours.as_ptr(),
                i.colours.len(),
                i.coords.as_ptr(),
                i.coords.len(),
                i.ends.as_ptr(),
                i.ends.len(),
                &mut place,
                &mut protected,
                &mut error,
                &mut corner,
                &mut tests,
            )
        },
        Engine::Plain => unsafe {
            tests = 0;
            rungtwine_plain_error_correction(
                i.width,
                i.height,
                i.channels,
                between(&mut samples).as_mut_ptr(),
                case.samples.len(),
                between(&mut stencil).as_mut_ptr(),
                case.stencil.len(),
                between(&mut room).as_mut_ptr(),
                case.room.len(),
                i.mode,
                i.ratio,
                i.lengths[0],
                i.lengths[1],
                i.lengths[2],
                i.colours.as_ptr(),
                i.colours.len(),
                i.coords.as_ptr(),
                i.coords.len(),
                i.ends.as_ptr(),
                i.ends.len(),
                &mut place,
                &mut protected,
                &mut error,
                &mut corner,
            )
        },
    };
    Ok(Outcome {
        answer: Answer { refusal, place, protected, error, corner, tests },
        samples: unguarded(samples, is_sample_guard, "samples")?,
        stencil: unguarded(stencil, |&cell| cell == CELL_GUARD, "stencil")?,
        room: unguarded(room, is_sample_guard, "room")?,
        tests: vec![],
    })
}

pub fn bits(samples: &[f32]) -> Vec<u32> {
    samples.iter().map(|v| v.to_bits()).collect()
}

/// How many cases a side was held to, and in how many it differs.
#[derive(Default)]
pub struct Held {
    pub cases: u64,
    pub differ: u64,
}

impl Held {
    /// Counts a case, and adds what differs in it.
    fn count(&mut self, held: Result<(), String>, differences: &mut Vec<String>) {
        self.cases += 1;
        if let Err(what) = held {
            self.differ += 1;
            differences.push(what);
        }
    }
}

/// How many of each were compared.
#[derive(Default)]
pub struct Totals {
    pub cases: u64,
    pub accepted: u64,
    pub texels: u64,
    pub protected: u64,
    pub corner: u64,
    pub flagged: u64,
    pub tests: u64,
    pub most_tests: u32,
    pub refused: BTreeMap<u8, u64>,
    pub zero_signs: u64,
    pub original: Held,
    pub first: Held,
    pub plain: Held,
}

impl Totals {
    /// How many cases each side was held to, refusals too but by the original, which has none.
    pub fn sides(&self) -> String {
        format!("compared with the original {}, with the first engine {}, with the plain engine {}", self.original.cases, self.first.cases, self.plain.cases)
    }
}

/// The original's flags, none where it makes no stencil, are our bits 1 and 2, and what its corners alone protect is our bit 4.
#[cfg(oracle)]
fn against_stencils(answered: &oracle::Answered, judged: &[u8]) -> Result<(), String> {
    for (k, &cell) in judged.iter().enumerate() {
        let (whole, corner) = (answered.whole.as_ref().map_or(0, |w| w[k]), answered.corners[k]);
        if whole != cell & (ERROR | PROTECTED) {
            return Err(format!("original: cell {k} is {whole}, judged {cell}"));
        }
        if (corner & PROTECTED != 0) != (cell & CORNER != 0) {
            return Err(format!("original: cell {k} is {corner} by corners alone, judged {cell}"));
        }
    }
    Ok(())
}

/// The original makes as many range tests for each texel.
#[cfg(oracle)]
fn against_tests(answered: &oracle::Answered, judged: &[u32]) -> Result<(), String> {
    if answered.tests.len() != judged.len() {
        return Err(format!("original: {} texels, judged {}", answered.tests.len(), judged.len()));
    }
    match answered.tests.iter().zip(judged).position(|(o, j)| o != j) {
        Some(k) => Err(format!("original: {} range tests for texel {k}, judged {}", answered.tests[k], judged[k])),
        None => Ok(()),
    }
}

#[cfg(oracle)]
pub fn against_oracle(case: &Case, judged: &Outcome, zero_signs: &mut u64) -> Result<(), String> {
    let (samples, answered) = by_oracle(case);
    if case.input.mode == 0 && (answered.whole.is_some() || bits(&samples) != bits(&case.samples)) {
        return Err("original: Disabled did something".into());
    }
    against_stencils(&answered, &judged.stencil)?;
    against_tests(&answered, &judged.tests)?;
    for k in 0..samples.len() {
        let (o, j) = (samples[k], judged.samples[k]);
        if o.to_bits() != j.to_bits() {
            if o == 0.0 && j == 0.0 {
                *zero_signs += 1;
            } else {
                return Err(format!("original: sample {k} is {:08X}, judged {:08X}", o.to_bits(), j.to_bits()));
            }
        }
    }
    Ok(())
}

/// An engine answers and leaves what is judged, to the bit; in a refusal that is what was there.
pub fn against_engine(engine: Engine, case: &Case, judged: &Outcome) -> Result<(), String> {
    let name = engine.name();
    let ours = by_engine(engine, case).map_err(|e| format!("{name}: {e}"))?;
    let due = engine.due(judged.answer);
    if ours.answer != due {
        return Err(format!("{name}: {:?}, judged {due:?}", ours.answer));
    }
    for k in 0..ours.stencil.len() {
        if ours.stencil[k] != judged.stencil[k] {
            return Err(format!("{name}: cell {k} is {}, judged {}", ours.stencil[k], judged.stencil[k]));
        }
    }
    for k in 0..ours.samples.len() {
        let (o, j) = (ours.samples[k].to_bits(), judged.samples[k].to_bits());
        if o != j {
            return Err(format!("{name}: sample {k} is {o:08X}, judged {j:08X}"));
        }
    }
    for k in 0..ours.room.len() {
        let (o, j) = (ours.room[k].to_bits(), judged.room[k].to_bits());
        if o != j {
            return Err(format!("{name}: element {k} of the room is {o:08X}, judged {j:08X}"));
        }
    }
    Ok(())
}

/// No texel has more range tests than there can be, one that is flagged has one at least, and the answer has their sum.
fn hold_tests(judged: &Outcome) -> Result<(), String> {
    for (k, (&tests, cell)) in judged.tests.iter().zip(&judged.stencil).enumerate() {
        if tests > MOST_TESTS || (cell & ERROR != 0 && tests == 0) {
            return Err(format!("judged: {tests} range tests for texel {k}, whose cell is {cell}"));
        }
    }
    let sum: usize = judged.tests.iter().map(|&n| n as usize).sum();
    if sum == judged.answer.tests { Ok(()) } else { Err(format!("judged: {sum} range tests, {} answered", judged.answer.tests)) }
}

/// The judge leaves zeros in the room, and a refusal's samples, cells and room as they were; and what it counts adds up.
fn hold_judged(case: &Case, judged: &Outcome) -> Result<(), String> {
    if judged.answer.refusal == 0 {
        let cleared = judged.room.len() == case.room.len() && judged.room.iter().all(|v| v.to_bits() == 0);
        return if cleared { hold_tests(judged) } else { Err("judged: the room is not left with zeros".into()) };
    }
    if bits(&judged.samples) != bits(&case.samples) || judged.stencil != case.stencil || bits(&judged.room) != bits(&case.room) {
        return Err("the judge wrote in a refusal".into());
    }
    Ok(())
}

/// The judge's answer, once every side that is there agrees with it; otherwise each side that does not.
pub fn compare(case: &Case, seen: &mut Seen, totals: &mut Totals) -> Result<Outcome, String> {
    let judged = by_judge(case, seen);
    let a = judged.answer;
    totals.cases += 1;
    *totals.refused.entry(a.refusal).or_default() += 1;
    hold_judged(case, &judged)?;
    let mut differences = Vec::new();
    if a.refusal == 0 {
        totals.accepted += 1;
        totals.texels += judged.stencil.len() as u64;
        totals.protected += a.protected as u64;
        totals.corner += a.corner as u64;
        totals.flagged += a.error as u64;
        totals.tests += a.tests as u64;
        totals.most_tests = totals.most_tests.max(judged.tests.iter().copied().max().unwrap_or(0));
        #[cfg(oracle)]
        totals.original.count(against_oracle(case, &judged, &mut totals.zero_signs), &mut differences);
    }
    totals.first.count(against_engine(Engine::First, case, &judged), &mut differences);
    totals.plain.count(against_engine(Engine::Plain, case, &judged), &mut differences);
    if differences.is_empty() { Ok(judged) } else { Err(differences.join("; ")) }
}
