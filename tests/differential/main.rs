//! The two proved engines of the pass against the original and against the second judge, on the same inputs.
//!
//! `run COUNT SEED`: every refusal at every place and every length of a small room, then COUNT cases, every fifth at the edges of orders.rs; totals, and how often each
//!   branch and each of these edges was reached. What is spoilt about corners, counts and rooms has to be seen.
//! `monotony COUNT SEED`: pairs of passes in demand 3's relation and in the corners', and pairs with the relation broken.
//! `again COUNT SEED`: what a pass leaves as the input of the next.
//! `channels COUNT SEED`: bitmaps with their first three channels stored in each order.
//! `show SEED INDEX`: one case of a run.
//! `example`: the glyph of examples/glyph.txt.
//! `make-fixed FILE`, `check-fixed FILE`, `show-fixed FILE`: the fixed list.
//! Exit status 1 if any two sides differ, or a long run leaves a branch or an edge out.

mod again;
mod cases;
mod channels;
mod fixed;
mod glyphs;
#[path = "../judge/judge.rs"]
mod judge;
mod monotony;
mod orders;
mod rng;
mod rooms;
#[path = "../../include/rungtwine.rs"]
mod rungtwine;
mod shrink;
mod sides;
mod spoilt;

use cases::Case;
use judge::{Seen, BRANCHES};
use orders::{Edges, EDGES};
use rng::Rng;
use sides::{compare, Totals};

/// A run of this many cases has to reach every branch and every edge.
const LONG: u64 = 20_000;

/// Case `index` of the run `seed`, with a room of its own.
fn trial(seed: u64, index: u64) -> Case {
    let mut case = if index % 5 == 4 { orders::case(seed, index) } else { cases::case(seed, index) };
    rooms::vary(&mut Rng::new(seed ^ 0x600D, index), &mut case);
    case
}

fn run(count: u64, seed: u64) -> bool {
    println!("sides: the judge, {}the first engine, the plain engine", if cfg!(oracle) { "the original, " } else { "" });
    let (mut seen, mut totals, mut edges) = (Seen::new(), Totals::default(), Edges::new());
    let mut wrong = 0;
    let always = [cases::every_place(), rooms::every_length()].concat();
    let fixed = always.len() as u64;
    for at in 0..fixed + count {
        let case = if at < fixed { always[at as usize].clone() } else { trial(seed, at - fixed) };
        match compare(&case, &mut seen, &mut totals) {
            Ok(judged) => edges.count(&case, &judged),
            Err(what) => {
                wrong += 1;
                if wrong <= 3 {
                    let name = if at < fixed { format!("fixed {at}") } else { format!("seed {seed} index {}", at - fixed) };
                    println!("differs ({name}, {}): {what}", case.kind);
                }
                if wrong == 1 {
                    println!("{}", shrink::smallest(&case));
                }
            }
        }
    }
    let missing = print_branches(&seen);
    let unreached = edges.print();
    let can_fail = spoilt::all_seen();
    println!("seed {seed}: {} cases, {} accepted with {} texels, {} protected, {} of these by a corner, {} flagged", totals.cases, totals.accepted, totals.texels, totals.protected, totals.corner, totals.flagged);
    println!("{} range tests compared, the most for a texel {}", totals.tests, totals.most_tests);
    let refused: Vec<String> = totals.refused.iter().filter(|(&number, _)| number > 0).map(|(number, count)| format!("{number}: {count}")).collect();
    println!("refused {}", refused.join(", "));
    println!("{}", totals.sides());
    println!("zeros whose sign differs from the original's: {}", totals.zero_signs);
    println!("{} of {} branches reached, {} of {} edges", BRANCHES.len() - missing, BRANCHES.len(), EDGES.len() - unreached, EDGES.len());
    println!("cases that differ: original {}, first engine {}, plain engine {}", totals.original.differ, totals.first.differ, totals.plain.differ);
    println!("{wrong} cases differ");
    wrong == 0 && can_fail && (count < LONG || missing + unreached == 0)
}

/// Prints the counts and answers how many branches were not reached.
fn print_branches(seen: &Seen) -> usize {
    let mut missing = 0;
    for (name, count) in BRANCHES.iter().zip(&seen.counts) {
        println!("{count:>12}  {name}");
        missing += usize::from(*count == 0);
    }
    missing
}

fn main() {
    let args: Vec<String> = std::env::args().skip(1).collect();
    let number = |k: usize| args.get(k).and_then(|a| a.parse::<u64>().ok());
    let file = || args.get(1).map(String::as_str).unwrap_or_else(|| usage());
    let good = match (args.first().map(String::as_str), number(1), number(2)) {
        (Some("run"), Some(count), Some(seed)) => run(count, seed),
        (Some("monotony"), Some(count), Some(seed)) => monotony::run(count, seed),
        (Some("again"), Some(count), Some(seed)) => again::run(count, seed),
        (Some("channels"), Some(count), Some(seed)) => channels::run(count, seed),
        (Some("show"), Some(seed), Some(index)) => {
            println!("{}", shrink::text(&trial(seed, index)));
            true
        }
        (Some("example"), ..) => {
            print!("{}", cases::example());
            true
        }
        (Some("make-fixed"), ..) => fixed::make(file()),
        (Some("check-fixed"), ..) => fixed::check(file()),
        (Some("show-fixed"), ..) => fixed::show(file()),
        _ => usage(),
    };
    std::process::exit(i32::from(!good));
}

fn usage() -> ! {
    eprintln!("usage: differential run COUNT SEED | monotony COUNT SEED | again COUNT SEED | channels COUNT SEED | show SEED INDEX | example | make-fixed FILE | check-fixed FILE | show-fixed FILE");
    std::process::exit(2)
}
