//! The fixed list: some hundreds of small cases, each branch among them, with their answers. tests/fixed/README.md has the format.

use crate::cases::{case, checkered, every_place, room, Case};
use crate::judge::{Answer, Input, Seen, BRANCHES};
use crate::shrink;
use crate::sides::{bits, by_judge, compare, Outcome, Totals};
use std::collections::HashSet;

/// Each branch is in at least this many cases of the list.
const TIMES: u64 = 8;
const MOST_SAMPLES: usize = 36;
const SEED: u64 = 6;

/// Branches that only a large case reaches; the list leaves them to the runs.
const LARGE: [&str; 2] = ["refusal 7 0, too many segments", "accepted, a side of 4,096"];

/// What is in the rooms: the list holds none, and each of its cases is run with two rows of this.
const OLD: u64 = 0x7FC0_0001_8000_0000;

/// Whether the list leaves a branch to the runs: the large ones, and those of the room.
fn left_to_runs(branch: &str) -> bool {
    LARGE.contains(&branch) || branch.contains("room")
}

fn figure(width: usize, height: usize, mode: u8, length: f64, samples: &[f32]) -> Case {
    Case {
        kind: "figure",
        input: Input { width, height, channels: 3, mode, ratio: 1.0, lengths: [length; 3], colours: vec![], coords: vec![], ends: vec![] },
        samples: samples.to_vec(),
        stencil: vec![0xFF; width * height],
        room: room(width, OLD),
    }
}

/// With a contour of two segments, the first with its start at this point and the second far outside.
fn outlined(mut case: Case, colours: [u8; 2], x: f64, y: f64) -> Case {
    case.input.colours = colours.to_vec();
    case.input.coords = vec![x, y, -9.0, -9.0];
    case.input.ends = vec![2];
    case
}

/// What a corner, an edge and both protect, side by side and in each mode; and corners on texels that stay flagged and that they save.
pub fn corner_figures() -> Vec<Case> {
    let p = [1.0, 0.0, 0.75, 0.0, 1.0, 0.75];
    let c2 = [1.0, 0.625, 0.75, 0.625, 1.0, 0.75];
    // An edge crosses between texels 0 and 1, a corner stands between 1 and 2, and nothing protects 3.
    let side_by_side = [0.75, 0.25, 0.625, 0.25, 0.75, 0.375, 0.0, 0.0, 0.0, 0.0, 0.0, 0.0];
    let mut list: Vec<Case> = [2, 3, 1, 0].map(|mode| outlined(figure(4, 1, mode, 0.25, &side_by_side), [3, 6], 2.0, 0.5)).to_vec();
    // A figure that no protection saves, and one that any does.
    for (length, samples) in [(0.25, p), (0.0625, c2)] {
        for x in [0.0, 1.0] {
            list.push(outlined(figure(2, 1, 2, length, &samples), [3, 6], x, 0.5));
        }
    }
    list
}

/// Range tests that are made and left out. First 3 x 3 texels whose middle one takes all 84; then one for each early stop and each part of the order.
pub fn test_figures() -> Vec<Case> {
    let with = |width: usize, height: usize, mode: u8, lengths: [f64; 3], samples: &[f32]| {
        let mut case = figure(width, height, mode, 0.0, samples);
        case.input.lengths = lengths;
        case
    };
    let board: Vec<f32> = checkered(3, 3).into_iter().flatten().map(|v| 0.5 + v).collect();
    let mut list: Vec<Case> = [1, 2, 3, 0].map(|mode| with(3, 3, mode, [16.0; 3], &board)).to_vec();
    // The first root is an artifact by its plain range, two turning points are inside, and a root, two pairs and three neighbours are left out.
    list.push(with(3, 3, 1, [16.0, 16.0, 0.0], &board));
    // The lower right neighbour alone has an artifact: the lower left one comes before it, the upper left one after it.
    let mut corner = board.clone();
    corner[6..9].copy_from_slice(&[0.625, 0.25, 0.625]);
    list.push(with(3, 3, 3, [16.0, 16.0, 0.0], &corner));
    // The second of two roots, at 3/4, alone is an artifact.
    list.push(with(2, 2, 3, [16.0, 16.0, 0.25], &[2.5, 1.75, 1.75, -0.25, 1.0, 1.0, -0.25, 1.0, 1.0, 0.75, 0.0, 0.75]));
    // Case P with its artifact at the second and at the third pair.
    list.push(figure(2, 1, 1, 0.25, &[0.75, 1.0, 0.0, 0.75, 0.0, 1.0]));
    list.push(figure(2, 1, 1, 0.25, &[0.0, 0.75, 1.0, 1.0, 0.75, 0.0]));
    // Texels of case P by turns: below and above are artifacts, left and right are not; and in a row the right neighbour is left out.
    let turns: Vec<f32> = (0..9).flat_map(|k| if k % 2 == 0 { [1.0, 0.0, 0.75] } else { [0.0, 1.0, 0.75] }).collect();
    list.push(with(3, 3, 1, [1.0, 0.25, 1.0], &turns));
    list.push(figure(3, 1, 1, 0.25, &turns[..9]));
    list
}

/// The scope document's figures over bitmaps, case P first, and the two points below them, corners beside edges, counts of range tests, and zeros.
fn figures() -> Vec<Case> {
    let p = [1.0, 0.0, 0.75, 0.0, 1.0, 0.75];
    let c2 = [1.0, 0.625, 0.75, 0.625, 1.0, 0.75];
    let c5 = [0.75, 0.25, 0.625, 0.25, 0.75, 0.375];
    let c7 = [1.0, 0.0, 0.75, 0.5, 0.5, 0.75, 0.5, 0.5, 0.75, 0.0, 1.0, 0.75];
    let mut list = vec![
        figure(2, 1, 1, 0.25, &p),
        figure(2, 1, 3, 0.25, &p),
        figure(2, 1, 1, 0.0625, &c2),
        figure(2, 1, 1, 0.125, &c2),
        figure(2, 1, 3, 0.0625, &c2),
        figure(2, 1, 2, 0.25, &c5),
        figure(2, 1, 2, 0.249, &c5),
        figure(2, 2, 1, 0.25, &c7),
        figure(1, 1, 1, 0.25, &p[..3]),
        figure(0, 1, 1, 0.25, &[]),
    ];
    for (colours, x) in [([3, 6], 0.0), ([7, 3], 0.0), ([3, 6], 2.5)] {
        list.push(outlined(figure(2, 2, 2, 0.0, &[0.25; 12]), colours, x, 0.0));
    }
    list.extend(corner_figures());
    list.extend(test_figures());
    // Zeros of both signs, whose median's sign the original leaves open: +0 below 5 and -0 above -5, in each order of the channels.
    for [a, b, c] in [[0, 1, 2], [0, 2, 1], [1, 0, 2], [1, 2, 0], [2, 0, 1], [2, 1, 0]] {
        for (t, n) in [([-0.0, 0.0, 5.0], [0.0, 0.25, 0.0]), ([-0.0, 0.0, -5.0], [0.0, -0.25, 0.0])] {
            let mut zeros = figure(2, 1, 1, 0.0, &[t[a], t[b], t[c], n[a], n[b], n[c]]);
            zeros.input.ratio = 0.0;
            list.push(zeros);
        }
    }
    list
}

fn put64(out: &mut Vec<u8>, v: usize) {
    out.extend((v as u64).to_be_bytes());
}

fn put_case(out: &mut Vec<u8>, case: &Case, outcome: &Outcome) {
    let i = &case.input;
    for v in [i.width, i.height, i.channels] {
        put64(out, v);
    }
    out.push(i.mode);
    for v in [i.ratio, i.lengths[0], i.lengths[1], i.lengths[2]] {
        out.extend(v.to_bits().to_be_bytes());
    }
    put64(out, case.samples.len());
    for v in &case.samples {
        out.extend(v.to_bits().to_be_bytes());
    }
    put64(out, case.stencil.len());
    out.extend(&case.stencil);
    put64(out, i.colours.len());
    out.extend(&i.colours);
    put64(out, i.coords.len());
    for v in &i.coords {
        out.extend(v.to_bits().to_be_bytes());
    }
    put64(out, i.ends.len());
    for &v in &i.ends {
        put64(out, v);
    }
    let a = outcome.answer;
    out.push(a.refusal);
    for v in [a.place, a.protected, a.error, a.corner, a.tests] {
        put64(out, v);
    }
    for v in &outcome.samples {
        out.extend(v.to_bits().to_be_bytes());
    }
    out.extend(&outcome.stencil);
}

struct Reader<'a>(&'a [u8]);

impl Reader<'_> {
    fn take(&mut self, n: usize) -> &[u8] {
        let (head, tail) = self.0.split_at(n);
        self.0 = tail;
        head
    }
    fn byte(&mut self) -> u8 {
        self.take(1)[0]
    }
    fn word(&mut self) -> u64 {
        u64::from_be_bytes(self.take(8).try_into().unwrap())
    }
    fn size(&mut self) -> usize {
        self.word() as usize
    }
    fn f64(&mut self) -> f64 {
        f64::from_bits(self.word())
    }
    fn samples(&mut self, n: usize) -> Vec<f32> {
        (0..n).map(|_| f32::from_bits(u32::from_be_bytes(self.take(4).try_into().unwrap()))).collect()
    }
    fn case(&mut self) -> (Case, Outcome) {
        let (width, height, channels) = (self.size(), self.size(), self.size());
        let mode = self.byte();
        let (ratio, lengths) = (self.f64(), [self.f64(), self.f64(), self.f64()]);
        let n = self.size();
        let samples = self.samples(n);
        let m = self.size();
        let stencil = self.take(m).to_vec();
        let k = self.size();
        let colours = self.take(k).to_vec();
        let k = self.size();
        let coords = (0..k).map(|_| self.f64()).collect();
        let k = self.size();
        let ends = (0..k).map(|_| self.size()).collect();
        let refusal = self.byte();
        let [place, protected, error, corner, tests] = [(); 5].map(|_| self.size());
        let answer = Answer { refusal, place, protected, error, corner, tests };
        let outcome = Outcome { answer, samples: self.samples(n), stencil: self.take(m).to_vec(), room: vec![], tests: vec![] };
        let input = Input { width, height, channels, mode, ratio, lengths, colours, coords, ends };
        (Case { kind: "fixed list", input, samples, stencil, room: room(width, OLD) }, outcome)
    }
}

fn read(file: &str) -> Vec<(Case, Outcome)> {
    let data = std::fs::read(file).unwrap_or_else(|e| panic!("{file}: {e}"));
    let mut reader = Reader(&data);
    let count = reader.size();
    let list = (0..count).map(|_| reader.case()).collect();
    assert!(reader.0.is_empty(), "{file}: something follows the last case");
    list
}

/// Picks the cases and writes them with the answers on which all sides agree.
pub fn make(file: &str) -> bool {
    assert!(cfg!(oracle), "the list is made with the original at hand");
    let (mut out, mut kept) = (Vec::new(), 0);
    let mut times = vec![0u64; BRANCHES.len()];
    let (mut places, mut kinds) = (HashSet::new(), HashSet::new());
    let first = figures();
    let must = first.len();
    let every = every_place();
    let mut index = 0;
    loop {
        let wanting = |k: usize, times: &[u64]| times[k] < TIMES && !left_to_runs(BRANCHES[k]);
        let candidate = if index < must {
            first[index].clone()
        } else if index < must + every.len() {
            every[index - must].clone()
        } else {
            case(SEED, (index - must - every.len()) as u64)
        };
        let must_keep = index < must;
        index += 1;
        if candidate.samples.len() > MOST_SAMPLES || candidate.input.colours.len() > 16 {
            continue;
        }
        let mut seen = Seen::new();
        let outcome = match compare(&candidate, &mut seen, &mut Totals::default()) {
            Ok(outcome) => outcome,
            Err(what) => {
                println!("make-fixed: sides differ, {what}\n{}", shrink::text(&candidate));
                return false;
            }
        };
        let fresh = (0..BRANCHES.len()).any(|k| seen.counts[k] > 0 && wanting(k, &times));
        let a = outcome.answer;
        let new_place = a.refusal != 0 && places.insert((a.refusal, a.place));
        let new_kind = a.refusal == 0 && a.error > 0 && kinds.insert((candidate.kind, candidate.input.mode, candidate.input.channels));
        if must_keep || fresh || new_place || new_kind {
            for k in 0..BRANCHES.len() {
                times[k] += u64::from(seen.counts[k] > 0);
            }
            put_case(&mut out, &candidate, &outcome);
            kept += 1;
        }
        let missing: Vec<&str> = (0..BRANCHES.len()).filter(|&k| wanting(k, &times)).map(|k| BRANCHES[k]).collect();
        if index > 50_000 && missing.is_empty() {
            break;
        }
        if index > 5_000_000 {
            println!("make-fixed: not reached often enough: {missing:?}");
            return false;
        }
    }
    let mut data = Vec::new();
    put64(&mut data, kept);
    data.extend(out);
    std::fs::write(file, &data).unwrap();
    println!("make-fixed: {kept} cases of {index} tried, {} bytes", data.len());
    true
}

/// Every side against the list.
pub fn check(file: &str) -> bool {
    let list = read(file);
    let mut totals = Totals::default();
    let mut differ = 0;
    for (k, (case, expected)) in list.iter().enumerate() {
        let what = match compare(case, &mut Seen::new(), &mut totals) {
            Ok(o) if o.answer == expected.answer && bits(&o.samples) == bits(&expected.samples) && o.stencil == expected.stencil => continue,
            Ok(_) => "every side differs from the list".into(),
            Err(what) => what,
        };
        differ += 1;
        println!("case {k} differs: {what}");
    }
    println!("{}", totals.sides());
    println!("check-fixed: {} cases, {differ} differ", list.len());
    differ == 0
}

pub fn show(file: &str) -> bool {
    for (k, (case, expected)) in read(file).iter().enumerate() {
        println!("case {k}: {:?}\n{}  stencil {:?}", expected.answer, shrink::text(case), expected.stencil);
        let again = by_judge(case, &mut Seen::new());
        assert!(again.answer == expected.answer);
    }
    true
}
