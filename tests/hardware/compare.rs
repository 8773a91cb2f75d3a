//! Holds the proved number helpers against this machine's own arithmetic.
//!
//! `compare COUNT`: that many patterns for each function, and a line for each with how many differ; exit status 1 if any does.
//! `compare --time`: nanoseconds a call beside the machine's own operation, and the ratio: calls that do not wait for each other, and calls in a chain.

#[path = "../../include/rungtwine_numbers.rs"]
mod proved;

use std::hint::black_box;
use std::time::Instant;

/// What the machine does, by the rules that the definitions state.
mod machine {
    /// IEEE 754's total order places −0 below +0, and numbers as they are.
    pub fn min(x: f32, y: f32) -> f32 {
        if x.is_nan() || (!y.is_nan() && y.total_cmp(&x).is_lt()) { y } else { x }
    }
    pub fn max(x: f32, y: f32) -> f32 {
        if x.is_nan() || (!y.is_nan() && x.total_cmp(&y).is_lt()) { y } else { x }
    }
    /// The middle one of three numbers in that order, and the rule itself where one is a NaN.
    pub fn median(a: f32, b: f32, c: f32) -> f32 {
        let mut all = [a, b, c];
        if all.iter().any(|x| x.is_nan()) {
            return max(min(a, b), min(max(a, b), c));
        }
        all.sort_by(f32::total_cmp);
        all[1]
    }
    /// The first of the three that `==` finds equal to the median.
    pub fn median_channel(a: f32, b: f32, c: f32) -> usize {
        let m = median(a, b, c);
        [a, b, c].iter().position(|&v| v == m).unwrap_or(0)
    }
    pub fn mix(a: f32, b: f32, w: f64) -> f32 {
        ((1.0 - w) * a as f64 + w * b as f64) as f32
    }
    #[inline(never)]
    pub fn narrow(x: f64) -> f32 {
        x as f32
    }
    #[inline(never)]
    pub fn sqrt(x: f64) -> f64 {
        x.sqrt()
    }
    /// The root of the normal number that a pattern's fields stand for: digits from 1 to 2 and an exponent of two, halved once it is even.
    pub fn normal_root(bits: u64) -> f64 {
        let exponent = (bits >> 52 & 0x7ff) as i64 - 1023;
        let digits = f64::from_bits(1023 << 52 | bits & ((1 << 52) - 1));
        let odd = exponent.rem_euclid(2);
        let scale = f64::from_bits(((1023 + (exponent - odd) / 2) as u64) << 52);
        (digits * (1 + odd) as f64).sqrt() * scale
    }
    pub fn floor(x: f64) -> i64 {
        x.floor() as i64
    }
    /// `solve_quadratic` of the Rust, line by line.
    pub fn roots(a: f64, b: f64, c: f64) -> (usize, f64, f64) {
        roots_by(f64::sqrt, a, b, c)
    }
    /// The same with a positive discriminant taken for a normal number.
    pub fn normal_roots(a: f64, b: f64, c: f64) -> (usize, f64, f64) {
        roots_by(|d| normal_root(d.to_bits()), a, b, c)
    }
    fn roots_by(root: impl Fn(f64) -> f64, a: f64, b: f64, c: f64) -> (usize, f64, f64) {
        if a == 0.0 || b.abs() > 1e12 * a.abs() {
            if b == 0.0 {
                return (0, 0.0, 0.0);
            }
            return (1, -c / b, 0.0);
        }
        let d = b * b - 4.0 * a * c;
        if d > 0.0 {
            let s = root(d);
            (2, (-b + s) / (2.0 * a), (-b - s) / (2.0 * a))
        } else if d == 0.0 {
            (1, -b / (2.0 * a), 0.0)
        } else {
            (0, 0.0, 0.0)
        }
    }
}

struct Random(u64);

impl Random {
    fn next(&mut self) -> u64 {
        self.0 ^= self.0 << 13;
        self.0 ^= self.0 >> 7;
        self.0 ^= self.0 << 17;
        self.0.wrapping_mul(0x2545_f491_4f6c_dd1d)
    }
    fn below(&mut self, n: u64) -> u64 {
        (self.next() >> 11) % n
    }
    /// An f64: any bits, or the neighbourhood of a boundary of one of the two formats.
    fn wide(&mut self) -> f64 {
        const EDGES: [u64; 19] = [
            0,                     // zero
            1,                     // the least subnormal
            0x0010_0000_0000_0000, // the least normal
            0x3690_0000_0000_0000, // half of the least f32
            0x36a0_0000_0000_0000, // the least f32
            0x3810_0000_0000_0000, // the least normal f32
            0x39e0_0000_0000_0000,
            0x3fe0_0000_0000_0000, // 0.5
            0x3ff0_0000_0000_0000, // 1
            0x4330_0000_0000_0000, // 2^52
            0x4340_0000_0000_0000, // 2^53
            0x43d0_0000_0000_0000, // 2^62
            0x43e0_0000_0000_0000, // 2^63
            0x47ef_ffff_e000_0000, // the largest f32
            0x47ef_ffff_f000_0000, // halfway from there to infinity
            0x47f0_0000_0000_0000, // 2^128
            0x7fef_ffff_ffff_ffff, // the largest f64
            0x7ff0_0000_0000_0000, // infinity, and NaNs above it
            0x7ff8_0000_0000_0000,
        ];
        let sign = self.next() & (1 << 63);
        match self.below(8) {
            0 | 1 => f64::from_bits(self.next()),
            2 => f64::from_bits(sign | (EDGES[self.below(19) as usize].wrapping_add(self.below(9)).wrapping_sub(4) & !(1 << 63))),
            // halfway between two f32, or an ulp off
            3 => {
                let x = f32::from_bits(self.next() as u32);
                let half = (x as f64).to_bits().wrapping_add(0x1000_0000);
                f64::from_bits(half.wrapping_add(self.below(3)).wrapping_sub(1))
            }
            // halfway between two subnormal f32, or an ulp off
            4 => {
                let x = (self.below(1 << 24) as f64 + 0.5) * 2f64.powi(-149);
                f64::from_bits(sign | x.to_bits().wrapping_add(self.below(3)).wrapping_sub(1))
            }
            // a whole number, or an ulp off
            5 => {
                let k = self.below(64);
                let n = (self.next() >> k) as f64;
                f64::from_bits(sign | n.to_bits().wrapping_add(self.below(3)).wrapping_sub(1))
            }
            // a square, or an ulp off
            6 => {
                let k = self.below(38);
                let r = (self.next() >> (11 + k)) as f64 + if self.below(2) == 0 { 0.5 } else { 0.0 };
                f64::from_bits((r * r).to_bits().wrapping_add(self.below(3)).wrapping_sub(1))
            }
            // from -2 to 2
            _ => (self.next() >> 11) as f64 / (1u64 << 52) as f64 * if sign == 0 { 1.0 } else { -1.0 },
        }
    }
    /// An f32: any bits, a special value, or one of few, so that equal ones meet.
    fn narrow(&mut self) -> f32 {
        match self.below(4) {
            0 => f32::from_bits(self.next() as u32),
            1 => [0.0, -0.0, 0.5, 1.0, f32::NAN, f32::INFINITY, -f32::INFINITY, f32::MIN_POSITIVE, -1e-45, f32::MAX][self.below(10) as usize],
            2 => self.below(8) as f32 / 8.0,
            _ => (self.next() >> 40) as f32 / (1 << 24) as f32,
        }
    }
    /// A coefficient: a difference of samples, or any f64.
    fn coefficient(&mut self) -> f64 {
        match self.below(4) {
            0 => self.wide(),
            1 => (self.below(17) as f64 - 8.0) / 4.0,
            _ => (self.narrow() - self.narrow()) as f64,
        }
    }
}

fn same32(a: f32, b: f32) -> bool {
    a.to_bits() == b.to_bits() || a.is_nan() && b.is_nan()
}

fn same64(a: f64, b: f64) -> bool {
    a.to_bits() == b.to_bits() || a.is_nan() && b.is_nan()
}

fn same_roots(p: (usize, f64, f64), q: (usize, f64, f64)) -> bool {
    p.0 == q.0 && same64(p.1, q.1) && same64(p.2, q.2)
}

struct Tally {
    bad: u64,
    all: u64,
}

impl Tally {
    fn run(&mut self, name: &str, count: u64, mut one: impl FnMut(&mut Random) -> Option<String>) {
        let mut random = Random(0x9e37_79b9_7f4a_7c15);
        let mut bad = 0;
        for _ in 0..count {
            if let Some(text) = one(&mut random) {
                bad += 1;
                if bad <= 3 {
                    println!("{name}: {text}");
                }
            }
        }
        println!("{name}: {count} patterns, {bad} differ");
        self.bad += bad;
        self.all += count;
    }
}

/// Zeros, subnormals, the ends of the normal numbers, neighbours and the rest of what can stand beside them, with either sign, and the NaN.
fn special() -> Vec<f32> {
    let sizes = [0, 1, 2, 0x007f_ffff, 0x0080_0000, 0x3f7f_ffff, 0x3f80_0000, 0x3f80_0001, 0x7f7f_ffff, 0x7f80_0000];
    let mut all: Vec<f32> = sizes.iter().flat_map(|&bits| [f32::from_bits(bits), -f32::from_bits(bits)]).collect();
    all.push(f32::NAN);
    all
}

/// Every two and every three of these in every order: minimum, maximum, median and its channel, and that of three numbers the order does not matter to a bit.
fn orders(t: &mut Tally) {
    let all = special();
    let (mut count, mut bad) = (0, 0);
    let mut hold = |same: bool, text: &dyn Fn() -> String| {
        count += 1;
        if !same {
            bad += 1;
            if bad <= 3 {
                println!("orders: {}", text());
            }
        }
    };
    for &a in &all {
        for &b in &all {
            hold(same32(proved::min(a, b), machine::min(a, b)), &|| format!("smaller of {a:?} {b:?}"));
            hold(same32(proved::max(a, b), machine::max(a, b)), &|| format!("larger of {a:?} {b:?}"));
            for &c in &all {
                let m = proved::median(a, b, c);
                hold(same32(m, machine::median(a, b, c)), &|| format!("median of {a:?} {b:?} {c:?}"));
                hold(proved::median_channel(a, b, c) == machine::median_channel(a, b, c), &|| format!("channel of the median of {a:?} {b:?} {c:?}"));
                if !(a.is_nan() || b.is_nan() || c.is_nan()) {
                    for (x, y, z) in [(a, c, b), (b, a, c), (b, c, a), (c, a, b), (c, b, a)] {
                        hold(proved::median(x, y, z).to_bits() == m.to_bits(), &|| format!("median of {x:?} {y:?} {z:?} and of {a:?} {b:?} {c:?}"));
                    }
                }
            }
        }
    }
    println!("orders: {count} comparisons over {} values, {bad} differ", all.len());
    t.bad += bad;
    t.all += count;
}

fn compare(count: u64) -> bool {
    let mut t = Tally { bad: 0, all: 0 };
    orders(&mut t);
    t.run("narrow", count, |r| {
        let x = r.wide();
        (!same32(proved::narrow(x), x as f32)).then(|| format!("{:016x}", x.to_bits()))
    });
    t.run("square root", count, |r| {
        let x = r.wide();
        (!same64(proved::sqrt(x), x.sqrt())).then(|| format!("{:016x}", x.to_bits()))
    });
    t.run("normal root", count, |r| {
        let x = r.wide();
        let root = proved::normal_root(x.to_bits());
        let same = same64(root, machine::normal_root(x.to_bits())) && (!(x > 0.0 && x.is_normal()) || same64(root, x.sqrt()));
        (!same).then(|| format!("{:016x}", x.to_bits()))
    });
    t.run("floor", count, |r| {
        let x = r.wide();
        (proved::floor(x) != machine::floor(x)).then(|| format!("{:016x}", x.to_bits()))
    });
    t.run("size", count, |r| {
        let (x, y) = (r.wide(), r.narrow());
        (!same64(proved::abs64(x), x.abs()) || !same32(proved::abs32(y), y.abs())).then(|| format!("{:016x} {:08x}", x.to_bits(), y.to_bits()))
    });
    t.run("smaller", count, |r| {
        let (x, y) = (r.narrow(), r.narrow());
        (!same32(proved::min(x, y), machine::min(x, y))).then(|| format!("{x:?} {y:?}"))
    });
    t.run("larger", count, |r| {
        let (x, y) = (r.narrow(), r.narrow());
        (!same32(proved::max(x, y), machine::max(x, y))).then(|| format!("{x:?} {y:?}"))
    });
    t.run("median", count, |r| {
        let (a, b, c) = (r.narrow(), r.narrow(), r.narrow());
        (!same32(proved::median(a, b, c), machine::median(a, b, c))).then(|| format!("{a:?} {b:?} {c:?}"))
    });
    t.run("median's channel", count, |r| {
        let mut v = [r.narrow(), r.narrow(), r.narrow()];
        // at times two or three are equal
        for _ in 0..r.below(3) {
            v[r.below(3) as usize] = v[r.below(3) as usize];
        }
        let [a, b, c] = v;
        (proved::median_channel(a, b, c) != machine::median_channel(a, b, c)).then(|| format!("{a:?} {b:?} {c:?}"))
    });
    t.run("mix", count, |r| {
        let (a, b, w) = (r.narrow(), r.narrow(), r.wide());
        (!same32(proved::mix(a, b, w), machine::mix(a, b, w))).then(|| format!("{a:?} {b:?} {w:?}"))
    });
    t.run("quadratic", count, |r| {
        let (b, c) = (r.coefficient(), r.coefficient());
        // at times just where b begins to dominate a, or with D = 0
        let a = match r.below(8) {
            0 => f64::from_bits((b / 1e12).to_bits().wrapping_add(r.below(3)).wrapping_sub(1)),
            1 => b * b / (4.0 * c),
            _ => r.coefficient(),
        };
        let (p, m) = (proved::roots(a, b, c), machine::roots(a, b, c));
        (!same_roots(p, m)).then(|| format!("{a:?} {b:?} {c:?}: {p:?} {m:?}"))
    });
    t.run("normal quadratic", count, |r| {
        let (a, b, c) = (r.coefficient(), r.coefficient(), r.coefficient());
        let (p, m) = (proved::normal_roots(a, b, c), machine::normal_roots(a, b, c));
        (!same_roots(p, m)).then(|| format!("{a:?} {b:?} {c:?}: {p:?} {m:?}"))
    });
    // of finite values the two solvers give the same, and of any others the same or no root between 0 and 1
    let mut other = 0;
    t.run("both quadratics of f32", count, |r| {
        let v = [r.narrow(), r.narrow(), r.narrow()];
        let [a, b, c] = v.map(f64::from);
        let (p, q, m) = (proved::normal_roots(a, b, c), proved::roots(a, b, c), machine::roots(a, b, c));
        let same = same_roots(p, q);
        other += u64::from(!same);
        let none = |(n, x, y): (usize, f64, f64)| [x, y].iter().take(n).all(|&t| !(t > 0.0 && t < 1.0));
        let allowed = same || !v.iter().all(|x| x.is_finite()) && none(p) && none(q);
        (!allowed || !same_roots(q, m)).then(|| format!("{a:?} {b:?} {c:?}: {p:?} {q:?} {m:?}"))
    });
    println!("both quadratics of f32: {other} give other roots");
    println!("{} patterns against this machine's arithmetic, {} differ", t.all, t.bad);
    t.bad == 0
}

/// Nanoseconds a call over all inputs, where no call waits for another: each result has a place of its own.
fn apart<A: Copy, B>(inputs: &[A], results: &mut [B], f: impl Fn(A) -> B) -> f64 {
    let start = Instant::now();
    for (&x, y) in inputs.iter().zip(&mut *results) {
        *y = f(x);
    }
    let time = start.elapsed().as_nanos() as f64 / inputs.len() as f64;
    black_box(results);
    time
}

/// The same where each call waits for the one before: a bit of its result, which is always 0, goes into the next operand.
fn in_a_chain(inputs: &[f64], none: u64, f: impl Fn(f64) -> f64) -> f64 {
    let start = Instant::now();
    let mut last = 0;
    for &x in inputs {
        last = f(f64::from_bits(x.to_bits() ^ last & none)).to_bits();
    }
    black_box(last);
    start.elapsed().as_nanos() as f64 / inputs.len() as f64
}

fn median(mut xs: Vec<f64>) -> f64 {
    xs.sort_by(f64::total_cmp);
    xs[xs.len() / 2]
}

/// Both in turn, a hundred and one times: the medians of the times and of the ratios.
fn row(name: &str, mut ours: impl FnMut() -> f64, mut theirs: impl FnMut() -> f64) {
    let pairs: Vec<(f64, f64)> = (0..101).map(|_| (ours(), theirs())).collect();
    let a = median(pairs.iter().map(|p| p.0).collect());
    let b = median(pairs.iter().map(|p| p.1).collect());
    let r = median(pairs.iter().map(|p| p.0 / p.1).collect());
    println!("{name:<34} proved {a:6.2} ns   machine {b:6.2} ns   ratio {r:5.2}");
}

/// A root beside the machine's, by itself and in a chain.
fn roots(name: &str, values: &[f64], root: impl Fn(f64) -> f64 + Copy) {
    let (mut ours, mut theirs) = (values.to_vec(), values.to_vec());
    let none = black_box(0);
    row(name, || apart(values, &mut ours, root), || apart(values, &mut theirs, machine::sqrt));
    row(&format!("{name}, in a chain"), || in_a_chain(values, none, root), || in_a_chain(values, none, machine::sqrt));
}

fn time() {
    let mut r = Random(1);
    let values: Vec<f64> = (0..65536).map(|_| f64::from_bits(0x3c00_0000_0000_0000 + (r.next() >> 5))).collect();
    let (mut ours, mut theirs) = (vec![0f32; values.len()], vec![0f32; values.len()]);
    row("narrow", || apart(&values, &mut ours, proved::narrow), || apart(&values, &mut theirs, machine::narrow));
    roots("square root", &values, proved::sqrt);
    roots("normal root", &values, |x| proved::normal_root(x.to_bits()));
    // where one of a pair's coefficients is 0 the discriminant is a square of an f32
    let squares: Vec<f64> = values.iter().map(|&x| x as f32 as f64 * x as f32 as f64).collect();
    roots("normal root of a square", &squares, |x| proved::normal_root(x.to_bits()));
}

fn main() {
    let word = std::env::args().nth(1).unwrap_or_default();
    if word == "--time" {
        time();
    } else if let Ok(count) = word.parse() {
        if !compare(count) {
            std::process::exit(1);
        }
    } else {
        eprintln!("usage: compare COUNT | compare --time");
        std::process::exit(2);
    }
}
