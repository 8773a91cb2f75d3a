//! Bitmaps at the edges of what an engine may tell by the order of a texel's channels alone. The first engine takes an order for beyond doubt where each channel is of
//! size at most 2^11 and each of the differences 1 - 0, 2 - 1 and 0 - 2 is zero or of size at least 2^-6, and looks for nothing between texels of one such order. It
//! looks for no root of a diagonal pair whose differences are of one sign and each zero or of size 2^-7 to 2^12, those in the middle together up to 2^14. No answer rests
//! on either, so that all sides have to agree on both sides of every edge: fields of one order, with one texel of another or in doubt anywhere.

use crate::cases::{contour, finish, lengths, ratio, set_contours, Case};
use crate::judge::{Input, ERROR, LIMIT};
use crate::rng::Rng;
use crate::sides::Outcome;

/// The least difference of a texel in an order, and of a pair; the largest channel; and the largest difference of a pair and of its middle.
const CLEAR: f32 = 0.015_625;
const LEAST: f32 = 0.007_812_5;
const CHANNEL: f32 = 2048.0;
const MOST: f32 = 4096.0;
const MIDDLE: f32 = 16384.0;

/// So many steps of the last digit away from zero.
fn step(v: f32, k: i64) -> f32 {
    f32::from_bits((i64::from(v.to_bits()) + k) as u32)
}

// Fields.

/// A gap between two channels that is beyond doubt.
fn clear_gap(rng: &mut Rng) -> f32 {
    rng.pick(&[CLEAR, CLEAR, CLEAR, step(CLEAR, 1), 2.0 * CLEAR, 0.25, 0.75, 1.0, 0.0])
}

/// A gap in doubt.
fn doubtful_gap(rng: &mut Rng) -> f32 {
    rng.pick(&[step(CLEAR, -1), step(CLEAR, -1), LEAST, step(LEAST, 1), step(LEAST, -1), 0.000_001, 1e-40, f32::from_bits(1)])
}

/// A gap of a pair at the edges of its sizes, the largest of them given.
fn pair_gap(rng: &mut Rng, most: f32) -> f32 {
    let (least, clear) = (step(LEAST, rng.range(-1, 1)), step(CLEAR, rng.range(-1, 1)));
    rng.pick(&[least, least, most, most, clear, 0.0, 1.0, 0.25])
}

/// How the gaps of a field are chosen.
#[derive(Clone, Copy)]
enum Gaps {
    Same(f32, f32),
    Clear,
    Least,
    Any,
}

impl Gaps {
    fn of(rng: &mut Rng) -> Gaps {
        match rng.below(8) {
            0..=2 => Gaps::Same(clear_gap(rng), clear_gap(rng)),
            3..=5 => Gaps::Clear,
            6 => Gaps::Least,
            _ => Gaps::Any,
        }
    }
    fn next(self, rng: &mut Rng) -> (f32, f32) {
        match self {
            Gaps::Same(below, above) => (below, above),
            Gaps::Clear => (clear_gap(rng), clear_gap(rng)),
            Gaps::Least => {
                let near = |rng: &mut Rng| step(rng.pick(&[LEAST, CLEAR]), rng.range(-1, 1));
                (near(rng), near(rng))
            }
            Gaps::Any => {
                let any = |rng: &mut Rng| if rng.one_in(4) { doubtful_gap(rng) } else { clear_gap(rng) };
                (any(rng), any(rng))
            }
        }
    }
}

/// Where the channels of a texel lie.
#[derive(Clone, Copy)]
enum Level {
    Middle(f32),
    Highest(f32),
    Lowest(f32),
}

/// Levels of a field: one, a slope, or any; at zero gaps are exact, far away they are rounded.
fn level(rng: &mut Rng, kind: usize, x: usize, y: usize) -> Level {
    let far = |rng: &mut Rng| {
        let v = rng.pick(&[CHANNEL, CHANNEL, MOST, LIMIT as f32]);
        if v == CHANNEL { step(v, rng.range(-1, 1)) } else { v }
    };
    match kind {
        0 => Level::Middle(0.0),
        1 => Level::Middle(0.5),
        2 => Level::Middle(0.25 + x as f32 / 16.0 - y as f32 / 32.0),
        3 => Level::Middle(rng.range(-64, 128) as f32 / 64.0),
        4 => Level::Middle(rng.unit() as f32),
        5 => Level::Lowest(rng.pick(&[0.0, -0.0, 0.5])),
        6 => Level::Highest(rng.pick(&[0.0, -0.0, 0.5])),
        7 if rng.one_in(2) => Level::Highest(far(rng)),
        7 => Level::Lowest(-far(rng)),
        8 => Level::Middle(rng.range(-2000, 2000) as f32),
        _ => {
            let kind = rng.below(9);
            level(rng, kind, x, y)
        }
    }
}

/// A texel whose channels rise in this order.
fn texel(order: [usize; 3], level: Level, (below, above): (f32, f32)) -> [f32; 3] {
    let [low, middle, high] = match level {
        Level::Middle(v) => [v - below, v, v + above],
        Level::Highest(v) => [v - above - below, v - above, v],
        Level::Lowest(v) => [v, v + below, v + below + above],
    };
    let mut t = [0.0; 3];
    for (channel, v) in order.into_iter().zip([low, middle, high]) {
        t[channel] = v;
    }
    t
}

const RISING: [[usize; 3]; 6] = [[0, 1, 2], [0, 2, 1], [1, 0, 2], [1, 2, 0], [2, 0, 1], [2, 1, 0]];

/// Puts the texel in doubt or in another order.
fn disturb(rng: &mut Rng, t: &mut [f32; 3], order: [usize; 3]) {
    let [low, middle, high] = order;
    match rng.below(9) {
        // just one pair has the other sign
        0 => t.swap(low, middle),
        1 => t.swap(middle, high),
        // all three have
        2 => t.swap(low, high),
        3 => t[high] = t[middle] + doubtful_gap(rng),
        4 => t[low] = t[middle] - doubtful_gap(rng),
        5 => {
            let far = rng.pick(&[step(CHANNEL, 1), step(CHANNEL, 1), MOST, LIMIT as f32]);
            if rng.one_in(2) { t[high] = far } else { t[low] = -far }
        }
        6 => t[rng.below(3)] = rng.pick(&[0.0, -0.0]),
        7 => t[high] = t[middle],
        _ => {
            let (order, v, gaps) = (rng.pick(&RISING), rng.unit() as f32, (clear_gap(rng), clear_gap(rng)));
            *t = texel(order, Level::Middle(v), gaps);
        }
    }
}

fn size(rng: &mut Rng) -> (usize, usize) {
    match rng.below(12) {
        0 => (1, 1 + rng.below(9)),
        1 => (1 + rng.below(9), 1),
        2..=5 => (3, 3),
        6 | 7 => (2 + rng.below(3), 2 + rng.below(3)),
        8 => (5 + rng.below(20), 4 + rng.below(10)),
        _ => (3 + rng.below(5), 3 + rng.below(5)),
    }
}

/// A field of one order, and around some of its texels one of the nine, wherever it lies, that is not of it.
fn smooth(rng: &mut Rng, width: usize, height: usize) -> Vec<[f32; 3]> {
    let (order, gaps, kind) = (rng.pick(&RISING), Gaps::of(rng), rng.below(10));
    let mut texels: Vec<[f32; 3]> = (0..width * height)
        .map(|k| {
            let level = level(rng, kind, k % width, k / width);
            texel(order, level, gaps.next(rng))
        })
        .collect();
    for _ in 0..rng.pick(&[0, 1, 1, 1, 1, 2, 3]) {
        let k = if rng.one_in(3) { rng.pick(&[0, width - 1, (height - 1) * width, height * width - 1]) } else { rng.below(width * height) };
        disturb(rng, &mut texels[k], order);
    }
    texels
}

/// A field in which one pair's differences are of one sign and at the edges of its sizes; in some a texel has the other sign.
fn pairs(rng: &mut Rng, width: usize, height: usize) -> Vec<[f32; 3]> {
    let (i, j) = rng.pick(&[(1, 0), (2, 1), (0, 2)]);
    let (sign, third) = (rng.pick(&[1.0, -1.0]), rng.below(4));
    let level = rng.pick(&[0.0, 0.0, -0.0, 0.5, 4096.0, -1000.0]);
    let most = step(rng.pick(&[MOST, MOST, MIDDLE / 2.0, MIDDLE / 2.0, CHANNEL]), rng.range(-1, 1));
    let mut texels = vec![[0f32; 3]; width * height];
    for t in &mut texels {
        let d = pair_gap(rng, most);
        t[j] = if rng.one_in(4) { level + rng.range(-8, 8) as f32 / 8.0 } else { level };
        t[i] = t[j] + sign * d;
        t[3 - i - j] = match third {
            0 => t[j] - sign * pair_gap(rng, most),
            1 => t[i] + sign * clear_gap(rng),
            2 => t[j],
            _ => rng.unit() as f32,
        };
    }
    for _ in 0..rng.pick(&[0, 0, 1, 2]) {
        let k = rng.below(width * height);
        texels[k].swap(i, j);
    }
    texels
}

const KINDS: [&str; 2] = ["one order", "one sign"];

/// Case `index` of the run `seed`.
pub fn case(seed: u64, index: u64) -> Case {
    let rng = &mut Rng::new(seed ^ 0x0DE5, index);
    let (width, height) = size(rng);
    let channels = 3 + usize::from(rng.one_in(3));
    let kind = usize::from(rng.one_in(4));
    let texels = if kind == 0 { smooth(rng, width, height) } else { pairs(rng, width, height) };
    let mut samples = Vec::with_capacity(width * height * channels);
    for t in texels {
        samples.extend(t.map(|v| v.clamp(-LIMIT as f32, LIMIT as f32)));
        if channels == 4 {
            samples.push(rng.pick(&[0.0, -0.0, 0.5, LIMIT as f32]));
        }
    }
    let mode = rng.pick(&[1, 1, 1, 2, 2, 2, 3, 3, 0]);
    let mut input = Input { width, height, channels, mode, ratio: ratio(rng), lengths: lengths(rng), colours: vec![], coords: vec![], ends: vec![] };
    let contours: Vec<_> = (0..rng.below(3)).map(|_| contour(rng, width, height)).collect();
    set_contours(&mut input, &contours);
    finish(rng, KINDS[kind], input, samples)
}

// What was reached.

macro_rules! edges {
    ($($name:ident : $text:expr,)*) => {
        #[derive(Clone, Copy)]
        #[repr(usize)]
        enum Edge { $($name,)* }
        pub const EDGES: &[&str] = &[$($text,)*];
    };
}

edges! {
    Mode0: "orders, mode 0",
    Mode1: "orders, mode 1",
    Mode2: "orders, mode 2",
    Mode3: "orders, mode 3",
    Channels3: "orders, 3 channels",
    Channels4: "orders, 4 channels",
    OneWide: "orders, one texel wide",
    OneHigh: "orders, one texel high",
    ClearBelow: "difference, one step below 2^-6",
    ClearAt: "difference, 2^-6",
    ClearAbove: "difference, one step above 2^-6",
    LeastBelow: "difference, one step below 2^-7",
    LeastAt: "difference, 2^-7",
    LeastAbove: "difference, one step above 2^-7",
    MostBelow: "difference, one step below 2^12",
    MostAt: "difference, 2^12",
    MostAbove: "difference, one step above 2^12",
    MiddleBelow: "middle, one step below 2^14",
    MiddleAt: "middle, 2^14",
    MiddleAbove: "middle, one step above 2^14",
    ChannelBelow: "channel, one step below 2,048",
    ChannelAt: "channel, 2,048",
    ChannelAbove: "channel, one step above 2,048",
    ChannelMinus: "channel, -2,048",
    ChannelMinusBeyond: "channel, one step beyond -2,048",
    Channel4096: "channel, 4,096 or its negative",
    ChannelLimit: "channel, 1,048,576 or its negative",
    ZeroPlus: "channel, plus zero",
    ZeroMinus: "channel, minus zero",
    ZeroBoth: "texel, zeros of both signs",
    TwoEqual: "texel, two channels equal and the third apart",
    AllEqual: "texel, three channels equal",
    Settled: "nine texels, all of one order",
    SettledEqual: "nine texels, all of one order and some with equal channels",
    Doubt0: "nine texels, the lower left in doubt",
    Doubt1: "nine texels, the one below in doubt",
    Doubt2: "nine texels, the lower right in doubt",
    Doubt3: "nine texels, the left in doubt",
    Doubt4: "nine texels, the middle in doubt",
    Doubt5: "nine texels, the right in doubt",
    Doubt6: "nine texels, the upper left in doubt",
    Doubt7: "nine texels, the one above in doubt",
    Doubt8: "nine texels, the upper right in doubt",
    Other0: "nine texels, the lower left of another order",
    Other1: "nine texels, the one below of another order",
    Other2: "nine texels, the lower right of another order",
    Other3: "nine texels, the left of another order",
    Other4: "nine texels, the middle of another order",
    Other5: "nine texels, the right of another order",
    Other6: "nine texels, the upper left of another order",
    Other7: "nine texels, the one above of another order",
    Other8: "nine texels, the upper right of another order",
    BorderSettled: "at a border, all of one order",
    BorderDoubt: "at a border, one in doubt",
    BorderOther: "at a border, one of another order",
    ThinSettled: "in a row or column, all of one order",
    ThinDoubt: "in a row or column, one in doubt",
    ThinOther: "in a row or column, one of another order",
    PairKept: "four texels, a pair of one sign within its sizes, an order in doubt",
    PairBeyond: "four texels, a pair of one sign beyond its sizes",
    PairOpposite: "four texels in orders, just one pair of both signs",
    PairTested: "four texels in orders, just one pair of both signs, and range tests",
    PairFlagged: "four texels in orders, just one pair of both signs, and a flag",
    FlagOrdered: "flag, on a texel in an order",
    FlagDoubt: "flag, on a texel in doubt",
}

/// The differences of a texel's three pairs.
fn differences(t: [f32; 3]) -> [f32; 3] {
    [t[1] - t[0], t[2] - t[1], t[0] - t[2]]
}

/// Which differences are below zero, where the order is beyond doubt.
fn order(t: [f32; 3]) -> Option<[bool; 3]> {
    let d = differences(t);
    let sized = t.iter().all(|v| v.abs() <= CHANNEL) && d.iter().all(|d| *d == 0.0 || d.abs() >= CLEAR);
    sized.then_some(d.map(|d| d < 0.0))
}

/// How often each edge was reached, in the cases of this family that were accepted.
pub struct Edges(Vec<u64>);

impl Edges {
    pub fn new() -> Edges {
        Edges(vec![0; EDGES.len()])
    }

    fn hit_if(&mut self, yes: bool, edge: Edge) {
        self.0[edge as usize] += u64::from(yes);
    }

    /// The value is one of these edges, or one step off.
    fn beside(&mut self, v: f32, edge: f32, [below, at, above]: [Edge; 3]) {
        let off = i64::from(v.abs().to_bits()) - i64::from(edge.to_bits());
        if off.abs() <= 1 {
            self.hit_if(true, [below, at, above][(off + 1) as usize]);
        }
    }

    fn count_texel(&mut self, t: [f32; 3]) {
        use Edge::*;
        let d = differences(t);
        for d in d {
            self.beside(d, CLEAR, [ClearBelow, ClearAt, ClearAbove]);
            self.beside(d, LEAST, [LeastBelow, LeastAt, LeastAbove]);
            self.beside(d, MOST, [MostBelow, MostAt, MostAbove]);
        }
        for v in t {
            if v > 0.0 {
                self.beside(v, CHANNEL, [ChannelBelow, ChannelAt, ChannelAbove]);
            }
            self.hit_if(v == -CHANNEL, ChannelMinus);
            self.hit_if(v == -step(CHANNEL, 1), ChannelMinusBeyond);
            self.hit_if(v.abs() == MOST, Channel4096);
            self.hit_if(f64::from(v.abs()) == LIMIT, ChannelLimit);
            self.hit_if(v.to_bits() == 0, ZeroPlus);
            self.hit_if(v.to_bits() == 0x8000_0000, ZeroMinus);
        }
        let zero = |bits: u32| t.iter().any(|v| v.to_bits() == bits);
        self.hit_if(zero(0) && zero(0x8000_0000), ZeroBoth);
        let equal = d.iter().filter(|d| **d == 0.0).count();
        self.hit_if(equal == 1, TwoEqual);
        self.hit_if(equal == 3, AllEqual);
    }

    /// The texels around one and itself, none for those outside, by their orders.
    fn count_block(&mut self, block: [Option<[f32; 3]>; 9], thin: bool) {
        use Edge::*;
        const DOUBTS: [Edge; 9] = [Doubt0, Doubt1, Doubt2, Doubt3, Doubt4, Doubt5, Doubt6, Doubt7, Doubt8];
        const OTHERS: [Edge; 9] = [Other0, Other1, Other2, Other3, Other4, Other5, Other6, Other7, Other8];
        let inside: Vec<(usize, [f32; 3])> = block.into_iter().enumerate().filter_map(|(place, t)| Some((place, t?))).collect();
        let whole = inside.len() == 9;
        let [settled, doubt, other] = if thin { [ThinSettled, ThinDoubt, ThinOther] } else { [BorderSettled, BorderDoubt, BorderOther] };
        // One that differs is told from two, so a third is needed.
        if inside.len() < 3 {
            return;
        }
        for &(place, t) in &inside {
            let mut rest = inside.iter().filter(|(p, _)| *p != place).map(|(_, t)| order(*t));
            let first = rest.next().flatten();
            if first.is_none() || !rest.all(|o| o == first) {
                continue;
            }
            match order(t) {
                None => self.hit_if(true, if whole { DOUBTS[place] } else { doubt }),
                own if own != first => self.hit_if(true, if whole { OTHERS[place] } else { other }),
                _ => {
                    self.hit_if(true, if whole { Settled } else { settled });
                    self.hit_if(whole && inside.iter().any(|(_, t)| differences(*t).contains(&0.0)), SettledEqual);
                    return;
                }
            }
        }
    }

    /// Four texels: a, the one in its row, the one in its column and the one across, with what is judged of a.
    fn count_four(&mut self, four: [[f32; 3]; 4], tests: u32, flagged: bool) {
        use Edge::*;
        let orders = four.map(order);
        let each = four.map(differences);
        let mut both = 0;
        for (p, (i, j)) in [(1, 0), (2, 1), (0, 2)].into_iter().enumerate() {
            let [da, dd] = [each[0][p], each[3][p]];
            let middle = four[1][i] - four[1][j] + four[2][i] - four[2][j];
            self.beside(middle, MIDDLE, [MiddleBelow, MiddleAt, MiddleAbove]);
            let (above, below) = (each.iter().any(|d| d[p] > 0.0), each.iter().any(|d| d[p] < 0.0));
            both += usize::from(above && below);
            if !(above && below) {
                let ample = |d: f32| d == 0.0 || (LEAST..=MOST).contains(&d.abs());
                let kept = ample(da) && ample(dd) && (middle == 0.0 || middle.abs() >= LEAST || (da.abs() >= LEAST && dd.abs() >= LEAST)) && middle.abs() <= MIDDLE;
                self.hit_if(kept && orders.contains(&None), PairKept);
                self.hit_if(!kept, PairBeyond);
            }
        }
        let one = both == 1 && !orders.contains(&None);
        self.hit_if(one, PairOpposite);
        self.hit_if(one && tests > 0, PairTested);
        self.hit_if(one && flagged, PairFlagged);
    }

    /// Counts a case of this family that was accepted.
    pub fn count(&mut self, case: &Case, judged: &Outcome) {
        use Edge::*;
        if judged.answer.refusal != 0 || !KINDS.contains(&case.kind) {
            return;
        }
        let (w, h, n) = (case.input.width as i64, case.input.height as i64, case.input.channels);
        self.hit_if(true, [Mode0, Mode1, Mode2, Mode3][case.input.mode as usize]);
        self.hit_if(true, if n == 3 { Channels3 } else { Channels4 });
        self.hit_if(w == 1, OneWide);
        self.hit_if(h == 1, OneHigh);
        let at = |x: i64, y: i64| {
            let k = (y * w + x) as usize * n;
            (0 <= x && x < w && 0 <= y && y < h).then(|| [case.samples[k], case.samples[k + 1], case.samples[k + 2]])
        };
        for y in 0..h {
            for x in 0..w {
                let k = (y * w + x) as usize;
                let t = at(x, y).expect("inside");
                let flagged = judged.stencil[k] & ERROR != 0;
                self.count_texel(t);
                self.hit_if(flagged, if order(t).is_some() { FlagOrdered } else { FlagDoubt });
                self.count_block(std::array::from_fn(|p| at(x + p as i64 % 3 - 1, y + p as i64 / 3 - 1)), w.min(h) == 1);
                for (dx, dy) in [(-1, -1), (1, -1), (-1, 1), (1, 1)] {
                    if let (Some(b), Some(c), Some(d)) = (at(x + dx, y), at(x, y + dy), at(x + dx, y + dy)) {
                        self.count_four([t, b, c, d], judged.tests[k], flagged);
                    }
                }
            }
        }
    }

    /// Prints the counts and answers how many edges were not reached.
    pub fn print(&self) -> usize {
        for (name, count) in EDGES.iter().zip(&self.0) {
            println!("{count:>12}  {name}");
        }
        self.0.iter().filter(|&&count| count == 0).count()
    }
}
