//! The second judge of the reading program: a plain, slow reading of the grammar and the printed text of docs/RULES.md in Rust, from input bytes to printed bytes.
//! It is written from that document and from the readings of its open points, not from the proved library; the pass itself is the second judge's.
//! `judge IN OUT`: IN has each input, OUT each answer, after its length in four big-endian bytes.

#[path = "../judge/judge.rs"]
#[allow(dead_code)]
mod judge;

use judge::{Input, Seen, CORNER, ERROR, PROTECTED};

const INPUT_LIMIT: usize = 65_536;
const SAMPLE_LIMIT: usize = 12_288;
const CONTOUR_LIMIT: usize = 64;
const SEGMENT_LIMIT: usize = 256;
const SEGMENT_BYTES: usize = 17;

/// A breach of the grammar is the place that is printed.
type Reading<T> = Result<T, usize>;

/// What a well formed input means.
struct Case {
    input: Input,
    samples: Vec<f32>,
}

fn number(bytes: &[u8]) -> usize {
    bytes.iter().fold(0, |n, &b| n << 8 | usize::from(b))
}

fn f64_at(bytes: &[u8], at: usize) -> f64 {
    f64::from_bits(u64::from_be_bytes(bytes[at..at + 8].try_into().unwrap()))
}

/// The byte at a place; an input that ends before it ended early.
fn byte(input: &[u8], at: usize) -> Reading<u8> {
    input.get(at).copied().ok_or(input.len())
}

/// The length of the field at `start`, whose tag has to be `tag`: a tag that is there and wrong is the first thing that is seen.
fn head(input: &[u8], start: usize, tag: u8) -> Reading<usize> {
    if byte(input, start)? != tag {
        return Err(start);
    }
    Ok(number(&[byte(input, start + 1)?, byte(input, start + 2)?]))
}

/// The contents of the field at `start`.
fn contents(input: &[u8], start: usize, length: usize) -> Reading<&[u8]> {
    input.get(start + 3..start + 3 + length).ok_or(input.len())
}

/// The contents of the field at `start`, which has one tag and one length.
fn fixed_field(input: &[u8], start: usize, tag: u8, length: usize) -> Reading<&[u8]> {
    if head(input, start, tag)? != length {
        return Err(start);
    }
    contents(input, start, length)
}

fn read(input: &[u8]) -> Reading<Case> {
    if input.len() > INPUT_LIMIT {
        return Err(INPUT_LIMIT);
    }
    let size = fixed_field(input, 0, 1, 5)?;
    let (width, height, channels) = (number(&size[0..2]), number(&size[2..4]), usize::from(size[4]));
    if width * height * channels > SAMPLE_LIMIT {
        return Err(0);
    }
    let mut at = 8;
    let settings = fixed_field(input, at, 2, 33)?;
    let mut case = Case {
        input: Input {
            width,
            height,
            channels,
            mode: settings[0],
            ratio: f64_at(settings, 1),
            lengths: [f64_at(settings, 9), f64_at(settings, 17), f64_at(settings, 25)],
            colours: vec![],
            coords: vec![],
            ends: vec![],
        },
        samples: vec![],
    };
    at += 36;
    while byte(input, at)? == 3 {
        let length = head(input, at, 3)?;
        let segments = case.input.colours.len() + length / SEGMENT_BYTES;
        if length % SEGMENT_BYTES != 0 || case.input.ends.len() == CONTOUR_LIMIT || segments > SEGMENT_LIMIT {
            return Err(at);
        }
        for segment in contents(input, at, length)?.chunks(SEGMENT_BYTES) {
            case.input.colours.push(segment[0]);
            case.input.coords.extend([f64_at(segment, 1), f64_at(segment, 9)]);
        }
        case.input.ends.push(segments);
        at += 3 + length;
    }
    let row_bytes = 4 * width * channels;
    for _ in 0..height {
        for sample in fixed_field(input, at, 4, row_bytes)?.chunks(4) {
            case.samples.push(f32::from_bits(number(sample) as u32));
        }
        at += 3 + row_bytes;
    }
    fixed_field(input, at, 0, 0)?;
    at += 3;
    if at < input.len() {
        return Err(at);
    }
    Ok(case)
}

/// The mark of a cell: why its texel is protected, a corner before an edge, and whether it has an error.
fn mark(cell: u8) -> char {
    match (cell & CORNER != 0, cell & PROTECTED != 0, cell & ERROR != 0) {
        (true, _, false) => 'C',
        (true, _, true) => 'D',
        (false, true, false) => 'P',
        (false, true, true) => 'B',
        (false, false, true) => 'E',
        (false, false, false) => '.',
    }
}

fn run(mut case: Case) -> String {
    let (w, h, n) = (case.input.width, case.input.height, case.input.channels);
    // With other channels check 1 answers, and width times height may be a great deal.
    let mut stencil = vec![0u8; if n == 3 || n == 4 { w * h } else { 0 }];
    // No input asks for a room: the program lends one that is never short.
    let mut room = vec![0.0; 2 * w];
    let before = case.samples.clone();
    let answer = judge::judge(&case.input, &mut case.samples, &mut stencil, &mut room, &mut Seen::new());
    if answer.refusal != 0 {
        return format!("refused {} {}\n", answer.refusal, answer.place);
    }
    let mut text = format!("size {w} {h} {n}\n");
    text.push_str(&format!("protected {} error {} corner {} tests {}\n", answer.protected, answer.error, answer.corner, answer.tests));
    for row in stencil.chunks(w) {
        text.extend(row.iter().map(|&cell| mark(cell)));
        text.push('\n');
    }
    for y in 0..h {
        for x in 0..w {
            if stencil[y * w + x] & ERROR != 0 {
                // A flagged texel's first channel is its median now; before the pass the lowest channel with that value carried it, a zero's sign aside.
                let first = (y * w + x) * n;
                let median = case.samples[first];
                let channel = before[first..first + 3].iter().position(|&v| v == median).unwrap_or(0);
                text.push_str(&format!("{x} {y} {:08X} ch {channel}\n", median.to_bits()));
            }
        }
    }
    text
}

fn answer(input: &[u8]) -> String {
    match read(input) {
        Ok(case) => run(case),
        Err(at) => format!("bad input {at}\n"),
    }
}

fn main() -> std::io::Result<()> {
    let words: Vec<String> = std::env::args().skip(1).collect();
    let [from, to] = words.as_slice() else {
        eprintln!("usage: judge IN OUT");
        std::process::exit(2);
    };
    let (inputs, mut answers, mut at) = (std::fs::read(from)?, Vec::new(), 0);
    while at < inputs.len() {
        let length = number(&inputs[at..at + 4]);
        let text = answer(&inputs[at + 4..at + 4 + length]);
        answers.extend((text.len() as u32).to_be_bytes());
        answers.extend(text.as_bytes());
        at += 4 + length;
    }
    std::fs::write(to, answers)
}
