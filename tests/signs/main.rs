//! The correction of signs: the proved function against the original and a second judge, on the same inputs.
//!
//! `COUNT SEED`: every fault and every two of them in small bitmaps and the largest sizes, then COUNT cases; totals, and how often each branch and each refusal
//!   came up. Of an accepted case the result is corrected once more, if it is accepted: no texel lies on the wrong side then, and no sample changes, a zero's
//!   sign aside.
//!   With the proved library the smallest example of a flipped value beyond the limit goes through the error correction as well.
//! `show SEED INDEX`: one case of a run.
//! Exit status 1 if anything differs, or a long run leaves a branch out.

#[cfg(pass)]
mod beyond;
mod cases;
mod faults;
#[path = "../differential/glyphs.rs"]
#[allow(dead_code)]
mod glyphs;
mod judge;
#[path = "../differential/rng.rs"]
mod rng;
#[path = "../../include/rungtwine.rs"]
mod rungtwine;
mod seen;
mod sides;

use cases::Case;
use seen::{Seen, KINDS};
use sides::{compare, Totals};

/// A run of this many cases has to reach every branch.
const LONG: u64 = 20_000;

/// Case `index` of the run `seed`.
fn trial(seed: u64, index: u64) -> Case {
    let mut rng = rng::Rng::new(seed, index);
    if rng.one_in(5) { faults::broken(&mut rng) } else { cases::accepted(&mut rng) }
}

/// A case in words, with so many of its texels.
fn text(case: &Case, texels: usize) -> String {
    let Case { kind, width, height, channels, zero, .. } = case;
    let mut text = format!("  {kind}: size {width} {height} {channels}, {} samples, {} filled bytes, {} matches, zero value {zero:?}\n", case.samples.len(), case.filled.len(), case.matches.len());
    for (k, samples) in case.samples.chunks((*channels).clamp(1, 4)).enumerate().take(texels) {
        text += &format!("  texel {k}: filled {:?}, {samples:?}\n", case.filled.get(k));
    }
    text
}

fn run(count: u64, seed: u64) -> bool {
    println!("sides: the judge, {}the library", if cfg!(oracle) { "the original, " } else { "" });
    let (mut seen, mut totals) = (Seen::new(), Totals::default());
    let mut wrong = 0;
    let always = faults::always();
    let fixed = always.len() as u64;
    for at in 0..fixed + count {
        let case = if at < fixed { always[at as usize].clone() } else { trial(seed, at - fixed) };
        if let Err(what) = compare(&case, &mut seen, &mut totals) {
            wrong += 1;
            if wrong <= 3 {
                let name = if at < fixed { format!("always {at}") } else { format!("seed {seed} index {}", at - fixed) };
                println!("differs ({name}): {what}\n{}", text(&case, 16));
            }
        }
    }
    let missing = seen.print();
    totals.print(seed);
    println!("{} of {} branches reached", KINDS.len() - missing, KINDS.len());
    #[cfg(pass)]
    {
        let good = beyond::as_proved();
        println!("a flipped value beyond the limit, and the error correction behind it: {}", if good { "as proved" } else { "differs" });
        wrong += u64::from(!good);
    }
    println!("{wrong} cases differ");
    wrong == 0 && (count < LONG || missing == 0)
}

fn main() {
    let args: Vec<String> = std::env::args().skip(1).collect();
    let number = |k: usize| args.get(k).and_then(|a| a.parse::<u64>().ok());
    let good = match (args.first().map(String::as_str), number(0), number(1), number(2)) {
        (Some("show"), _, Some(seed), Some(index)) => {
            println!("{}", text(&trial(seed, index), usize::MAX));
            true
        }
        (_, Some(count), Some(seed), None) => run(count, seed),
        _ => {
            eprintln!("usage: signs COUNT SEED | show SEED INDEX");
            std::process::exit(2)
        }
    };
    std::process::exit(i32::from(!good));
}
