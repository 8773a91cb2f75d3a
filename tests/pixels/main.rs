//! Samples as bytes and bytes as samples: the proved functions against a judge in whole numbers.
//!
//! `COUNT SEED`: all 256 bytes, the samples around each step, each half step and the limits, then COUNT random good ones, in slices of many lengths between
//!   guards; in order, and bytes as samples and back; and refusals of lengths and of samples. Totals, and how often each kind came up.
//! `all`: every pattern of 32 bits is exported, or refused by itself.
//! Exit status 1 if anything differs, or a kind never came up.

mod all;
mod calls;
mod cases;
mod compare;
mod judge;
mod patterns;
#[path = "../differential/rng.rs"]
mod rng;
#[path = "../../include/rungtwine.rs"]
mod rungtwine;
mod seen;

use compare::Tally;
use rng::Rng;
use seen::KINDS;

/// Random samples are made and sorted so many at a time.
const BATCH: usize = 65_536;

fn run(count: usize, seed: u64) -> bool {
    let (mut tally, mut rng) = (Tally::new(), Rng::new(seed, 0));
    cases::there_and_back(&mut tally, &mut rng);
    let mut samples = patterns::always();
    cases::ordered(&mut tally, &samples, &mut rng);
    cases::cut(&mut tally, &samples, &mut rng);
    patterns::shuffle(&mut rng, &mut samples);
    cases::cut(&mut tally, &samples, &mut rng);
    cases::lengths(&mut tally, &mut rng);
    cases::places(&mut tally, &mut rng);
    cases::pairs(&mut tally, &mut rng);
    for done in (0..count).step_by(BATCH) {
        let samples: Vec<u32> = (0..BATCH.min(count - done)).map(|_| patterns::good(&mut rng)).collect();
        cases::cut(&mut tally, &samples, &mut rng);
        cases::ordered(&mut tally, &samples, &mut rng);
    }
    let missing = tally.seen.print();
    println!("{} of {} kinds came up", KINDS.len() - missing, KINDS.len());
    let Tally { slices, out, back, refused, differ, .. } = tally;
    println!("seed {seed}: {out} samples out, {back} bytes in, {refused} refusals; of {slices} comparisons {differ} differ");
    differ == 0 && missing == 0
}

fn main() {
    let words: Vec<String> = std::env::args().skip(1).collect();
    let words: Vec<&str> = words.iter().map(String::as_str).collect();
    let good = match words[..] {
        ["all"] => Some(all::all()),
        [count, seed] => count.parse().ok().zip(seed.parse().ok()).map(|(count, seed)| run(count, seed)),
        _ => None,
    };
    let Some(good) = good else {
        eprintln!("usage: pixels COUNT SEED | all");
        std::process::exit(2)
    };
    std::process::exit(i32::from(!good));
}
