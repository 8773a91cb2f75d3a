//! Holds the number of roots that the proved solver gives against exact whole-number arithmetic, and the roots that the pass's solver, the one without
//! branches in its root, gives to those.
//!
//! `compare COUNT [SEED]`: that many triples of f32 coefficients, a line for each kind of triple with how its triples divide, and how many differ; exit status 1 if
//! any does, if a kind never meets a case that it is there for, or if one of the three f64 triples that the solver is known to count wrongly is counted otherwise.

#[path = "../../include/rungtwine_numbers.rs"]
mod proved;
#[path = "../differential/rng.rs"]
#[allow(dead_code)]
mod rng;

use rng::Rng;
use std::cmp::Ordering;

/// Whole numbers, as many digits as are needed: a sign and a size, lowest 32 bits first. Nothing here knows of floats.
mod whole {
    use std::cmp::Ordering;

    /// More than the 557 bits of b² + |4ac|.
    const LIMBS: usize = 20;

    #[derive(Clone, Copy)]
    pub struct Whole {
        pub negative: bool,
        pub size: [u32; LIMBS],
    }

    pub const ZERO: Whole = Whole { negative: false, size: [0; LIMBS] };

    pub fn small(n: u64) -> Whole {
        let mut w = ZERO;
        w.size[0] = n as u32;
        w.size[1] = (n >> 32) as u32;
        w
    }

    impl Whole {
        pub fn is_zero(&self) -> bool {
            self.size == [0; LIMBS]
        }
        pub fn twice(&self) -> Whole {
            self.times(&small(2))
        }
        pub fn times(&self, other: &Whole) -> Whole {
            let mut w = Whole { negative: self.negative != other.negative, ..ZERO };
            for (i, &x) in self.size.iter().enumerate().filter(|(_, &x)| x != 0) {
                let mut carry = 0;
                for (j, &y) in other.size.iter().enumerate() {
                    if i + j == LIMBS {
                        assert!(other.size[j..].iter().all(|&z| z == 0), "a product is too long");
                        break;
                    }
                    let sum = w.size[i + j] as u64 + x as u64 * y as u64 + carry;
                    w.size[i + j] = sum as u32;
                    carry = sum >> 32;
                }
                assert!(carry == 0, "a product is too long");
            }
            w
        }
        /// The order of the sizes.
        pub fn against(&self, other: &Whole) -> Ordering {
            self.size.iter().rev().cmp(other.size.iter().rev())
        }
    }

    /// The order of x and y.
    pub fn order(x: &Whole, y: &Whole) -> Ordering {
        let below_zero = |w: &Whole| w.negative && !w.is_zero();
        match (below_zero(x), below_zero(y)) {
            (true, false) => Ordering::Less,
            (false, true) => Ordering::Greater,
            (true, true) => y.against(x),
            (false, false) => x.against(y),
        }
    }
}

use whole::Whole;

/// `digits` with so many zeros behind them.
fn shifted(negative: bool, digits: u64, zeros: usize) -> Whole {
    let mut w = whole::small(digits).times(&whole::small(1 << (zeros % 32)));
    w.size.rotate_right(zeros / 32);
    w.negative = negative;
    w
}

/// The value of a finite pattern of f32, counted in 2^-149.
fn whole_of(bits: u32) -> Whole {
    let (field, digits) = (bits >> 23 & 0xff, (bits & 0x7f_ffff) as u64);
    let leading = if field == 0 { 0 } else { 1 << 23 };
    shifted(bits >> 31 == 1, leading + digits, field.saturating_sub(1) as usize)
}

/// The value of a pattern of f64 from 1 up, or from −1 down, counted in 2^-52.
fn whole_of_wide(bits: u64) -> Whole {
    let (field, digits) = (bits >> 52 & 0x7ff, bits & ((1 << 52) - 1));
    shifted(bits >> 63 == 1, (1 << 52) + digits, field as usize - 1023)
}

/// Which way the count goes.
#[derive(Clone, Copy, PartialEq)]
enum Way {
    Linear,
    Two,
    One,
    None,
}

/// The rule of docs/RULES.md, over whole numbers.
fn judge(a: &Whole, b: &Whole, c: &Whole) -> (Way, usize) {
    let dominance = whole::small(1_000_000_000_000);
    if a.is_zero() || b.against(&dominance.times(a)) == Ordering::Greater {
        return (Way::Linear, if b.is_zero() { 0 } else { 1 });
    }
    match whole::order(&b.times(b), &a.times(c).twice().twice()) {
        Ordering::Greater => (Way::Two, 2),
        Ordering::Equal => (Way::One, 1),
        Ordering::Less => (Way::None, 0),
    }
}

// ---- triples

type Triple = [f32; 3];

fn is_finite(bits: u32) -> bool {
    bits >> 23 & 0xff != 0xff
}

fn any_finite(r: &mut Rng) -> f32 {
    loop {
        let bits = r.next() as u32;
        if is_finite(bits) {
            return f32::from_bits(bits);
        }
    }
}

/// As many values further on as `by` says, where that is finite.
fn beside(x: f32, by: i64) -> f32 {
    let bits = (x.to_bits() as i64 + by).max(0) as u32;
    if is_finite(bits) { f32::from_bits(bits) } else { x }
}

fn signs(r: &mut Rng, t: Triple) -> Triple {
    t.map(|x| if r.one_in(2) { -x } else { x })
}

/// Any bits.
fn random(r: &mut Rng) -> Triple {
    [any_finite(r), any_finite(r), any_finite(r)]
}

/// b is the f32 nearest to 2·√(ac), or up to two beside it.
fn near_square(r: &mut Rng) -> Triple {
    loop {
        let (a, c) = (any_finite(r).abs(), any_finite(r).abs());
        let b = (2.0 * (a as f64 * c as f64).sqrt()) as f32;
        if b.is_finite() {
            let b = beside(b, r.range(-2, 2));
            let (a, c) = if r.one_in(2) { (a, c) } else { (-a, -c) };
            return [a, if r.one_in(2) { -b } else { b }, c];
        }
    }
}

/// b² and 4ac are equal, or 1 apart, or 4, in the last place of whole numbers of up to 48 digits; then all are moved by powers of 2 that keep it so.
fn tight(r: &mut Rng) -> Triple {
    let (a, b, c) = match r.below(3) {
        // (2uv·k)² = 4·ku²·kv²
        0 => {
            let bits = r.range(1, 11) as u32;
            let (u, v) = (1 + r.below(1 << bits), 1 + r.below(1 << bits));
            let room = (1 << 24) / u.max(v).pow(2).max(2 * u * v);
            let k = 1 + r.below(room.max(1));
            (k * u * u, 2 * k * u * v, k * v * v)
        }
        // (2x + 1)² = 4·x·(x + 1) + 1
        1 => {
            let x = 1 + r.below((1 << 23) - 1);
            (x, 2 * x + 1, x + 1)
        }
        // with h = n² + n + 1, (2h)² = 4·(n² + 1)·(n² + 2n + 2) − 4
        _ => {
            let n = 1 + r.below(2895);
            (n * n + 1, 2 * (n * n + n + 1), n * n + 2 * n + 2)
        }
    };
    let (a, b, c) = if r.one_in(2) { (a, b, c) } else { (c, b, a) };
    assert!(a.max(b).max(c) <= 1 << 24, "tight: more digits than f32 has");
    // a·2^(i+j), b·2^i, c·2^(i−j): as they stand, or so small that only subnormals hold them, or so large that they are the last
    let j = r.range(-8, 8) as i32;
    let any = r.range(-130, 90) as i32;
    let i = r.pick(&[0, -141, -140, 95, any]);
    let moved = |x: usize, by: i32| (x as f64 * 2f64.powi(by)) as f32;
    let t = [moved(a, i + j), moved(b, i), moved(c, i - j)];
    let exact = |x: usize, by: i32| moved(x, by) as f64 == x as f64 * 2f64.powi(by);
    let t = if exact(a, i + j) && exact(b, i) && exact(c, i - j) { t } else { [a as f32, b as f32, c as f32] };
    let [a, b, c] = t;
    let (a, c) = if r.one_in(2) { (a, c) } else { (-a, -c) };
    let b = if r.one_in(4) { beside(b, r.range(-1, 1)) } else { b };
    [a, if r.one_in(2) { -b } else { b }, c]
}

/// Subnormals of every length, zeros among them.
fn subnormal(r: &mut Rng) -> Triple {
    let mut one = || f32::from_bits((r.next() as u32 & 0x7f_ffff) >> r.below(24));
    let t = [one(), one(), one()];
    signs(r, t)
}

/// b is the f32 nearest to 10^12·a, or up to two beside it. No f32 but 0 is 10^12 times another: 5^12 alone has 28 digits.
fn dominated(r: &mut Rng) -> Triple {
    loop {
        let a = if r.one_in(4) { f32::from_bits(r.next() as u32 & 0x7f_ffff) } else { any_finite(r).abs() };
        let b = (1e12 * a as f64) as f32;
        if b.is_finite() {
            let c = if r.one_in(2) { any_finite(r) } else { a * (r.unit() as f32) };
            let b = beside(b, r.range(-2, 2));
            return signs(r, [a, b, c]);
        }
    }
}

/// Few values, so that equal ones meet: zeros, the smallest, the ends of the subnormals and of all, and small whole numbers.
fn few(r: &mut Rng) -> Triple {
    const PATTERNS: [u32; 12] = [0, 1, 2, 3, 4, 0x007f_ffff, 0x0080_0000, 0x3f80_0000, 0x4000_0000, 0x4080_0000, 0x7f00_0000, 0x7f7f_ffff];
    let mut one = || f32::from_bits(r.pick(&PATTERNS));
    let t = [one(), one(), one()];
    signs(r, t)
}

/// A kind of triples, and the ways that it is there for.
struct Kind {
    name: &'static str,
    make: fn(&mut Rng) -> Triple,
    ways: &'static [Way],
}

const KINDS: [Kind; 6] = [
    Kind { name: "any bits", make: random, ways: &[Way::Linear, Way::Two, Way::None] },
    Kind { name: "b beside 2√(ac)", make: near_square, ways: &[Way::Linear, Way::Two, Way::None] },
    Kind { name: "b² at 4ac", make: tight, ways: &[Way::Two, Way::One, Way::None] },
    Kind { name: "subnormals", make: subnormal, ways: &[Way::Linear, Way::Two, Way::One, Way::None] },
    Kind { name: "|b| at 10^12·|a|", make: dominated, ways: &[Way::Linear, Way::Two] },
    Kind { name: "few values", make: few, ways: &[Way::Linear, Way::Two, Way::One, Way::None] },
];

/// The f64 triples of `missed`, `invented` and `misruled`, what the solver gives of them and the true count.
const WRONG: [([f64; 3], usize, usize); 3] = [
    ([134217729.0, -268435460.0, 134217731.0], 1, 2),
    ([134235397.0, 268493966.0, 134258570.0], 1, 0),
    ([1.0000000000000002, 1000000000000.000244140625, 16777217.0], 2, 1),
];

/// Of the f64 triples, how many are not counted as it is known, by the solver or by whole numbers.
fn converse() -> u64 {
    let mut bad = 0;
    for (t, given, truth) in WRONG {
        let [a, b, c] = t.map(|x| whole_of_wide(x.to_bits()));
        let got = (proved::root_count(t[0], t[1], t[2]), judge(&a, &b, &c).1);
        println!("f64 {t:?}: {} roots, {} in truth", got.0, got.1);
        if got != (given, truth) {
            println!("f64 {t:?}: {given} and {truth} were known");
            bad += 1;
        }
    }
    bad
}

fn bits((count, first, second): (usize, f64, f64)) -> (usize, u64, u64) {
    (count, first.to_bits(), second.to_bits())
}

/// `count` triples of the kind `index`: how many differ, or were never met.
fn compare(index: usize, count: u64, seed: u64) -> u64 {
    let kind = &KINDS[index];
    let mut met = [0u64; 4];
    let mut bad = 0;
    for i in 0..count {
        let t = (kind.make)(&mut Rng::new(seed, i * KINDS.len() as u64 + index as u64));
        let [a, b, c] = t.map(|x| whole_of(x.to_bits()));
        let (way, truth) = judge(&a, &b, &c);
        met[way as usize] += 1;
        let [p, q, r] = t.map(f64::from);
        let (given, normal) = (proved::roots(p, q, r), proved::normal_roots(p, q, r));
        if given.0 != truth || bits(given) != bits(normal) {
            bad += 1;
            if bad <= 3 {
                let [a, b, c] = t.map(f32::to_bits);
                println!("{}: {a:08x} {b:08x} {c:08x}: {} roots, {truth} in truth: {given:?}, {normal:?} without branches", kind.name, given.0);
            }
        }
    }
    let [linear, two, one, none] = met;
    println!("{}: {count} triples, linear {linear}, two {two}, one {one}, none {none}; {bad} differ", kind.name);
    for &way in kind.ways {
        if met[way as usize] == 0 {
            println!("{}: a case that it is there for is never met", kind.name);
            bad += 1;
        }
    }
    bad
}

fn main() {
    let words: Vec<Option<u64>> = std::env::args().skip(1).map(|w| w.parse().ok()).collect();
    let (count, seed) = match words[..] {
        [Some(count)] => (count, 1),
        [Some(count), Some(seed)] => (count, seed),
        _ => {
            eprintln!("usage: compare COUNT [SEED]");
            std::process::exit(2);
        }
    };
    let kinds = KINDS.len() as u64;
    let share = |index: u64| count / kinds + u64::from(index < count % kinds);
    let bad = (0..kinds).map(|index| compare(index as usize, share(index), seed)).sum::<u64>() + converse();
    println!("{count} triples against whole numbers, {bad} differ");
    std::process::exit(i32::from(bad > 0));
}
