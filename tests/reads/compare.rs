//! Which texels finding reads, told by a build of the proved library that calls back at each, against the judge's reading of the rule. For each texel of every case
//! what is read is among what the rule says, in its order, and begins with the texel itself. It may be less: what the orders of channels settle is not looked at
//! again, and a texel that they settle towards every neighbour is not read at all.
//!
//! `compare [SIZE...]`: random cases, then the bench's fields as squares of each SIZE with the number of texels read a texel and what it is by the rule. Exit status 1
//! if something else is read.

#[path = "../differential/cases.rs"]
#[allow(dead_code)]
mod cases;
#[path = "../../bench/fields.rs"]
mod fields;
#[path = "../differential/glyphs.rs"]
#[allow(dead_code)]
mod glyphs;
#[path = "../judge/judge.rs"]
mod judge;
#[path = "../differential/rng.rs"]
#[allow(dead_code)]
mod rng;
#[path = "../../include/rungtwine.rs"]
#[allow(dead_code)]
mod rungtwine;

use fields::{fields, Field, RATIO};
use judge::{judge, reads, Input, Seen};
use rungtwine::{error_correction, Mode, Outlines, Settings};
use std::sync::Mutex;

const CASES: u64 = 20_000;
const SEED: u64 = 5;

/// A texel by its column and its row.
type Place = (usize, usize);

/// What was read since finding began, in order, by the texel that it was read for.
static READ: Mutex<Vec<(Place, Vec<Place>)>> = Mutex::new(Vec::new());

/// No texel: what is read before the first is read for none.
const NOWHERE: Place = (usize::MAX, usize::MAX);

/// The width and the channels of the bitmap that is read.
static SIZES: Mutex<(usize, usize)> = Mutex::new((1, 1));

#[no_mangle]
extern "C" fn rungtwine_reads(at: usize) {
    let (width, channels) = *SIZES.lock().unwrap();
    let cell = at / channels;
    let mut read = READ.lock().unwrap();
    if read.is_empty() {
        read.push((NOWHERE, vec![]));
    }
    read.last_mut().expect("a texel").1.push((cell % width, cell / width));
}

#[no_mangle]
extern "C" fn rungtwine_judges(x: usize, y: usize) {
    READ.lock().unwrap().push(((x, y), vec![]));
}

/// What comes before, protecting and the orders, reads too: that is not told apart by texel and is left out.
#[no_mangle]
extern "C" fn rungtwine_finds() {
    READ.lock().unwrap().clear();
}

/// What the proved pass reads in finding, for an input that is accepted.
fn recorded(input: &Input, samples: &[f32]) -> Vec<(Place, Vec<Place>)> {
    let mode = [Mode::Disabled, Mode::Indiscriminate, Mode::EdgePriority, Mode::EdgeOnly][input.mode as usize];
    let [horizontal, vertical, diagonal] = input.lengths;
    let settings = Settings { ratio: input.ratio, horizontal, vertical, diagonal };
    let outlines = Outlines { colours: &input.colours, coords: &input.coords, ends: &input.ends };
    let (mut stencil, mut room) = (vec![0; input.width * input.height], vec![0.0; 2 * input.width]);
    *SIZES.lock().unwrap() = (input.width, input.channels);
    READ.lock().unwrap().clear();
    error_correction((input.width, input.height, input.channels), &mut samples.to_vec(), &mut stencil, &mut room, mode, settings, outlines).expect("refused");
    std::mem::take(&mut *READ.lock().unwrap())
}

/// What is read for a texel begins with itself and is among what the rule says, in its order.
fn within(read: &[Place], rule: &[Place]) -> bool {
    let mut left = rule.iter();
    read.first() == rule.first() && read.iter().all(|one| left.any(|other| one == other))
}

/// Every texel that something is read for comes once, in the order of their cells, and reads what it may.
fn all_within(read: &[(Place, Vec<Place>)], rule: &[Vec<Place>], width: usize) -> bool {
    let mut next = 0;
    read.iter().all(|((x, y), own)| {
        let k = y.saturating_mul(width).saturating_add(*x);
        let good = next <= k && k < rule.len() && within(own, &rule[k]);
        next = k.saturating_add(1);
        good
    })
}

/// What was compared so far.
#[derive(Default)]
struct Tally {
    inputs: usize,
    texels: usize,
    /// Texels that something was read for.
    judged: usize,
    read: usize,
    /// What is read by the rule.
    due: usize,
    /// Texels that were flagged by the first neighbour that they read, and read it alone.
    one_neighbour: usize,
    differ: usize,
}

impl Tally {
    /// Compares one input, unless it is refused: that reads for no texel.
    fn compare(&mut self, input: &Input, samples: &[f32], stencil: &[u8]) {
        let (mut left, mut room) = (stencil.to_vec(), vec![0.0; 2 * input.width.min(4096)]);
        if judge(input, &mut samples.to_vec(), &mut left, &mut room, &mut Seen::new()).refusal != 0 {
            return;
        }
        let rule = reads(input, samples, &left);
        let read = recorded(input, samples);
        self.inputs += 1;
        self.texels += rule.len();
        self.judged += read.len();
        self.read += read.iter().map(|(_, own)| own.len()).sum::<usize>();
        self.due += rule.iter().map(Vec::len).sum::<usize>();
        if !all_within(&read, &rule, input.width) {
            self.differ += 1;
            return;
        }
        self.one_neighbour += read.iter().filter(|((x, y), own)| own.len() == 2 && left[y * input.width + x] & judge::ERROR != 0).count();
    }
}

fn row(field: &Field, mode: u8) -> Tally {
    let size = field.size;
    let input = Input {
        width: size,
        height: size,
        channels: 3,
        mode,
        ratio: RATIO,
        lengths: field.lengths,
        colours: field.colours.clone(),
        coords: field.coords.clone(),
        ends: field.ends.clone(),
    };
    let mut tally = Tally::default();
    tally.compare(&input, &field.samples, &vec![0; size * size]);
    let name = ["Disabled", "Indiscriminate", "EdgePriority", "EdgeOnly"][mode as usize];
    let a_texel = |read: usize| read as f64 / tally.texels as f64;
    println!("| {size} | {} | {name} | {:.2} | {:.2} |", field.name, a_texel(tally.read), a_texel(tally.due));
    tally
}

fn main() {
    let sizes: Vec<usize> = std::env::args().skip(1).map(|a| a.parse().expect("a size")).collect();
    let mut random = Tally::default();
    for index in 0..CASES {
        let case = cases::case(SEED, index);
        random.compare(&case.input, &case.samples, &case.stencil);
    }
    println!("| size | field | mode | texels read/texel | by the rule |");
    println!("|---|---|---|---|---|");
    let mut differ = random.differ;
    for size in sizes {
        for field in fields(size) {
            differ += row(&field, 1).differ + row(&field, 2).differ;
        }
    }
    println!(
        "reads: {} random inputs, {} texels, {} of them judged one by one, {} read of the rule's {}, {} texels with one neighbour alone; {differ} inputs read something else",
        random.inputs, random.texels, random.judged, random.read, random.due, random.one_neighbour
    );
    std::process::exit(i32::from(differ > 0 || random.one_neighbour == 0));
}
