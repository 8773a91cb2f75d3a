//! The sides that answer a case, and what it means that they agree.

use crate::cases::Case;
use crate::judge::{judge, Outcome};
use crate::rungtwine::{raw, sign_correction, Refusal};
use crate::seen::{Kind, Seen};
use std::collections::BTreeMap;

const MARGIN: usize = 16;
/// What stands around the slices that are lent, and where a place is to be written.
const SAMPLE_GUARD: f32 = f32::from_bits(0x7FA5_A5A5);
const MATCH_GUARD: i8 = 0x5A;
const FILLED_GUARD: u8 = 0xA5;
const UNWRITTEN: usize = usize::MAX - 12345;

fn guarded<T: Copy>(list: &[T], guard: T) -> Vec<T> {
    [&[guard; MARGIN], list, &[guard; MARGIN]].concat()
}

pub fn bits(samples: &[f32]) -> Vec<u32> {
    samples.iter().map(|v| v.to_bits()).collect()
}

/// The library's function, with guard elements on both sides of each slice; and once more by its safe name.
fn by_library(case: &Case) -> Result<Outcome, String> {
    let mut samples = guarded(&case.samples, SAMPLE_GUARD);
    let filled = guarded(&case.filled, FILLED_GUARD);
    let mut matches = guarded(&case.matches, MATCH_GUARD);
    let mut place = UNWRITTEN;
    // Every pointer is inside its list with the length of what is between the guards.
    let number = unsafe {
        raw::rungtwine_sign_correction(
            case.width,
            case.height,
            case.channels,
            samples.as_mut_ptr().add(MARGIN),
            case.samples.len(),
            case.zero,
            filled.as_ptr().add(MARGIN),
            case.filled.len(),
            matches.as_mut_ptr().add(MARGIN),
            case.matches.len(),
            &mut place,
        )
    };
    let left = Outcome {
        number,
        place,
        samples: samples[MARGIN..][..case.samples.len()].to_vec(),
        matches: matches[MARGIN..][..case.matches.len()].to_vec(),
    };
    if bits(&samples) != bits(&guarded(&left.samples, SAMPLE_GUARD)) {
        return Err("wrote beside the samples".into());
    }
    if matches != guarded(&left.matches, MATCH_GUARD) {
        return Err("wrote beside the match map".into());
    }
    if filled != guarded(&case.filled, FILLED_GUARD) {
        return Err("wrote to the filled map".into());
    }
    let (mut samples, mut matches) = (case.samples.clone(), case.matches.clone());
    let safe = sign_correction((case.width, case.height, case.channels), &mut samples, case.zero, &case.filled, &mut matches);
    let due = if number == 0 { Ok(()) } else { Err(Refusal { number, place }) };
    if safe != due || bits(&samples) != bits(&left.samples) || matches != left.matches {
        return Err("another answer by the safe name".into());
    }
    Ok(left)
}

/// The original's samples and its match map, zeros with one channel, for a case that is accepted.
#[cfg(oracle)]
fn by_original(case: &Case) -> Outcome {
    let task = oracle::signs::Task::new(case.width, case.height, &case.filled, case.rule);
    let mut samples = case.samples.clone();
    let matches = oracle::signs::answer(case.width, case.height, case.channels, &mut samples, case.zero, &task);
    Outcome { number: 0, place: 0, samples, matches: matches.unwrap_or(vec![0; case.filled.len()]) }
}

/// How many of each were compared.
#[derive(Default)]
pub struct Totals {
    cases: u64,
    texels: u64,
    channels: BTreeMap<usize, u64>,
    refused: BTreeMap<u8, u64>,
    flipped: u64,
    original: u64,
    again: u64,
    zero_signs: u64,
    original_differs: u64,
    library_differs: u64,
}

impl Totals {
    pub fn print(&self, seed: u64) {
        let list = |of: Vec<String>| of.join(", ");
        let channels = list(self.channels.iter().map(|(channels, count)| format!("{count} with {channels}")).collect());
        let accepted: u64 = self.channels.values().sum();
        println!("seed {seed}: {} cases, {accepted} accepted with {} texels, by channels {channels}; {} samples changed", self.cases, self.texels, self.flipped);
        println!("refused {}", list(self.refused.iter().map(|(number, count)| format!("{number}: {count}")).collect()));
        println!("compared with the original {}, corrected once more {}", self.original, self.again);
        println!("cases that differ in nothing but a zero's sign: {}", self.zero_signs);
        println!("cases that differ: original {}, library {}", self.original_differs, self.library_differs);
    }
}

/// A side answers and leaves what is judged, to the bit.
fn against(name: &str, left: &Outcome, judged: &Outcome, totals: &mut Totals) -> Result<(), String> {
    if (left.number, left.place) != (judged.number, judged.place) {
        return Err(format!("{name}: {} at {}, judged {} at {}", left.number, left.place, judged.number, judged.place));
    }
    if let Some(k) = (0..judged.matches.len()).find(|&k| left.matches[k] != judged.matches[k]) {
        return Err(format!("{name}: match {k} is {}, judged {}", left.matches[k], judged.matches[k]));
    }
    let (own, due) = (bits(&left.samples), bits(&judged.samples));
    match (0..due.len()).find(|&k| own[k] != due[k]) {
        None => Ok(()),
        Some(k) => {
            totals.zero_signs += u64::from(left.samples == judged.samples);
            Err(format!("{name}: sample {k} is {:08X}, judged {:08X}", own[k], due[k]))
        }
    }
}

/// What was left, corrected once more with the same filled map: it is accepted unless a sample is beyond the limit, no match is -1, and no sample changes but
/// by a zero's sign.
fn again(case: &Case, left: &Outcome, seen: &mut Seen, totals: &mut Totals) -> Result<(), String> {
    let second = Case { samples: left.samples.clone(), matches: left.matches.clone(), ..case.clone() };
    let judged = judge(&second, &mut Seen::new());
    let twice = by_library(&second)?;
    against("again", &twice, &judged, totals)?;
    if twice.number != 0 {
        seen.hit(Kind::AgainRefused);
        return if twice.number == 6 { Ok(()) } else { Err(format!("again: refused with {}", twice.number)) };
    }
    totals.again += 1;
    if let Some(k) = twice.matches.iter().position(|&m| m < 0) {
        return Err(format!("again: match {k} is {}", twice.matches[k]));
    }
    if twice.samples != left.samples {
        return Err("again: a sample changes".into());
    }
    seen.hit(if bits(&twice.samples) == bits(&left.samples) { Kind::AgainSame } else { Kind::AgainZero });
    seen.hit_if(left.matches.iter().zip(&twice.matches).any(|(&first, &second)| first < 0 && second == 0), Kind::AgainOnto);
    Ok(())
}

/// The library against the judge, and what it leaves corrected once more.
fn against_library(case: &Case, judged: &Outcome, seen: &mut Seen, totals: &mut Totals) -> Result<(), String> {
    let left = by_library(case).map_err(|what| format!("library: {what}"))?;
    against("library", &left, judged, totals)?;
    if left.number == 0 { again(case, &left, seen, totals) } else { Ok(()) }
}

/// Each side that is there against the judge; what differs.
pub fn compare(case: &Case, seen: &mut Seen, totals: &mut Totals) -> Result<(), String> {
    let judged = judge(case, seen);
    totals.cases += 1;
    let mut differences = Vec::new();
    if judged.number == 0 {
        *totals.channels.entry(case.channels).or_default() += 1;
        totals.texels += case.filled.len() as u64;
        totals.flipped += bits(&judged.samples).iter().zip(bits(&case.samples)).filter(|&(a, b)| *a != b).count() as u64;
        #[cfg(oracle)]
        {
            totals.original += 1;
            differences.extend(against("original", &by_original(case), &judged, totals).err());
            totals.original_differs += differences.len() as u64;
        }
    } else {
        *totals.refused.entry(judged.number).or_default() += 1;
        if bits(&judged.samples) != bits(&case.samples) || judged.matches != case.matches {
            differences.push("the judge wrote in a refusal".into());
        }
    }
    if let Err(what) = against_library(case, &judged, seen, totals) {
        totals.library_differs += 1;
        differences.push(what);
    }
    if differences.is_empty() { Ok(()) } else { Err(differences.join("; ")) }
}
