//! The library against the judge on one slice, and what it means that they agree.

use crate::calls;
use crate::judge::{byte, is_byte, refusal, sample};
use crate::rng::Rng;
use crate::rungtwine::{bytes_to_samples, samples_to_bytes, Refusal};
use crate::seen::{see_back, see_byte, see_refusal, Kind, Seen};

/// Slices begin at so many places of a list.
const OFFSETS: usize = 32;
/// What samples hold before they are written.
const BEFORE: u32 = 0x7fc5_a5a5;

/// How many of each were compared, and how many slices differ.
pub struct Tally {
    pub seen: Seen,
    pub slices: u64,
    pub out: u64,
    pub back: u64,
    pub refused: u64,
    pub differ: u64,
}

impl Tally {
    pub fn new() -> Tally {
        Tally { seen: Seen::new(), slices: 0, out: 0, back: 0, refused: 0, differ: 0 }
    }

    /// Counts a slice, and shows what differs of the first ones that do.
    pub fn hold(&mut self, what: Result<(), String>) {
        self.slices += 1;
        if let Err(what) = what {
            self.differ += 1;
            if self.differ <= 5 {
                println!("differs: {what}");
            }
        }
    }
}

fn offsets(rng: &mut Rng) -> (usize, usize) {
    (rng.below(OFFSETS), rng.below(OFFSETS))
}

/// The first index at which two lists of one length differ.
fn first<T: PartialEq>(own: &[T], due: &[T]) -> Option<usize> {
    (0..due.len()).find(|&k| own[k] != due[k])
}

/// What a safe name answers.
fn told((number, place): (u8, usize)) -> Result<(), Refusal> {
    if number == 0 { Ok(()) } else { Err(Refusal { number, place }) }
}

/// Samples into so many bytes, by either name, against the judge: the answer, and the bytes or that they stayed.
fn compare_out(samples: &[u32], count: usize, judged: (u8, usize), rng: &mut Rng) -> Result<Vec<u8>, String> {
    // Each byte is written to another value than it had.
    let due: Vec<u8> = if judged.0 == 0 { samples.iter().map(|&v| byte(v)).collect() } else { (0..count).map(|_| rng.next() as u8).collect() };
    let before: Vec<u8> = due.iter().map(|&k| if judged.0 == 0 { !k } else { k }).collect();
    let name = format!("{} samples into {count} bytes", samples.len());
    let answer = calls::out(samples, &before, offsets(rng)).map_err(|what| format!("{name}: {what}"))?;
    if (answer.number, answer.place) != judged {
        return Err(format!("{name}: {} at {}, judged {} at {}", answer.number, answer.place, judged.0, judged.1));
    }
    if let Some(k) = first(&answer.left, &due) {
        let pattern = samples.get(k).map_or("none".into(), |v| format!("{v:08X}"));
        return Err(format!("{name}: byte {k} is {}, judged {}, of {pattern}", answer.left[k], due[k]));
    }
    let (floats, mut bytes): (Vec<f32>, _) = (samples.iter().map(|&v| f32::from_bits(v)).collect(), before);
    if samples_to_bytes(&floats, &mut bytes) != told(judged) || bytes != due {
        return Err(format!("{name}: another answer by the safe name"));
    }
    match (0..count).find(|&k| judged.0 == 0 && !is_byte(samples[k], due[k])) {
        Some(k) => Err(format!("the judge is not of one mind on {:08X}", samples[k])),
        None => Ok(answer.left),
    }
}

/// Compares samples into so many bytes, and answers the bytes, none where they differ.
pub fn out(tally: &mut Tally, samples: &[u32], count: usize, rng: &mut Rng) -> Vec<u8> {
    let judged = refusal(samples, count);
    let answer = compare_out(samples, count, judged, rng);
    if judged.0 == 0 {
        tally.out += samples.len() as u64;
        samples.iter().for_each(|&v| see_byte(v, &mut tally.seen));
        tally.seen.hit_if(samples.is_empty(), Kind::OutNone);
        tally.seen.hit_if(samples.len() == 1, Kind::OutOne);
    } else {
        tally.refused += 1;
        see_refusal(samples, count, judged, &mut tally.seen);
    }
    let bytes = answer.clone().unwrap_or_default();
    tally.hold(answer.map(|_| ()));
    bytes
}

/// Bytes into so many samples, by either name, against the judge.
fn compare_back(bytes: &[u8], count: usize, rng: &mut Rng) -> Result<(), String> {
    let before = vec![BEFORE; count];
    let (number, due) = if bytes.len() == count { (0, bytes.iter().map(|&k| sample(k)).collect()) } else { (40, before.clone()) };
    let name = format!("{} bytes into {count} samples", bytes.len());
    let answer = calls::back(bytes, &before, offsets(rng)).map_err(|what| format!("{name}: {what}"))?;
    if (answer.number, answer.place) != (number, 0) {
        return Err(format!("{name}: {} at {}, judged {number} at 0", answer.number, answer.place));
    }
    if let Some(k) = first(&answer.left, &due) {
        return Err(format!("{name}: sample {k} is {:08X}, judged {:08X}", answer.left[k], due[k]));
    }
    let mut samples: Vec<f32> = before.iter().map(|&v| f32::from_bits(v)).collect();
    if bytes_to_samples(bytes, &mut samples) != told((number, 0)) || samples.iter().map(|v| v.to_bits()).ne(due) {
        return Err(format!("{name}: another answer by the safe name"));
    }
    Ok(())
}

/// Compares bytes into so many samples.
pub fn back(tally: &mut Tally, bytes: &[u8], count: usize, rng: &mut Rng) {
    if bytes.len() == count {
        tally.back += count as u64;
    } else {
        tally.refused += 1;
    }
    see_back(bytes, count, &mut tally.seen);
    let answer = compare_back(bytes, count, rng);
    tally.hold(answer);
}
