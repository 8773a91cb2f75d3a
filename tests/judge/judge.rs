//! The second judge: a plain, slow reading of the scope document in Rust, whose f32 and f64 are IEEE 754 with each operation rounded once.
//! It is written from that document and from the readings of its open points, not from the original and not from the proved pass,
//! and it judges what the original cannot: refusals, places, counts of cells and the sign of a zero.
//! `Seen` counts how often each branch of the reading was reached.
//! Range tests are read in two steps: first all that a texel gives rise to, whatever they say; then how many of them are made in order and with early stops.

/// The largest size of a sample, a coordinate, a ratio or a length.
pub const LIMIT: f64 = 1_048_576.0;
const SIDE_LIMIT: usize = 4096;
const SEGMENT_LIMIT: usize = 65_536;
pub const ERROR: u8 = 1;
pub const PROTECTED: u8 = 2;
/// Stands beside PROTECTED where a corner protects.
pub const CORNER: u8 = 4;
/// The most range tests for a texel: three at each of four sides, and at each of four diagonals three pairs of two roots with three each.
pub const MOST_TESTS: u32 = 84;

/// What comes in, the three lent slices aside.
#[derive(Clone, Debug)]
pub struct Input {
    pub width: usize,
    pub height: usize,
    pub channels: usize,
    pub mode: u8,
    pub ratio: f64,
    /// horizontal, vertical, diagonal
    pub lengths: [f64; 3],
    pub colours: Vec<u8>,
    pub coords: Vec<f64>,
    pub ends: Vec<usize>,
}

/// What comes back, the three lent slices aside.
#[derive(Clone, Copy, PartialEq, Eq, Debug, Default)]
pub struct Answer {
    pub refusal: u8,
    pub place: usize,
    pub protected: usize,
    pub error: usize,
    pub corner: usize,
    /// Range tests over the whole bitmap.
    pub tests: usize,
}

macro_rules! branches {
    ($($name:ident : $text:expr,)*) => {
        #[derive(Clone, Copy)]
        #[repr(usize)]
        pub enum Branch { $($name,)* }
        pub const BRANCHES: &[&str] = &[$($text,)*];
    };
}

branches! {
    Refused1: "refusal 1 0, channels",
    Refused2Width0: "refusal 2 0, width 0",
    Refused2WidthOver: "refusal 2 0, width over",
    Refused2Height0: "refusal 2 0, height 0",
    Refused2HeightOver: "refusal 2 0, height over",
    Refused3Short: "refusal 3 0, samples short",
    Refused3Long: "refusal 3 0, samples long",
    Refused4Short: "refusal 4 0, stencil short",
    Refused4Long: "refusal 4 0, stencil long",
    Refused60None: "refusal 60 0, no room",
    Refused60ByOne: "refusal 60 0, room one short",
    Refused60Short: "refusal 60 0, room shorter",
    Order3And60: "order, 3 before a short room",
    Order4And60: "order, 4 before a short room",
    Order60And5: "order, a short room before 5",
    Order60And6: "order, a short room before 6",
    Order60And7: "order, a short room before 7",
    Order60And8: "order, a short room before 8",
    Order60And9: "order, a short room before 9",
    Refused5Mode: "refusal 5 0, mode",
    Refused5Ratio: "refusal 5 1, ratio",
    Refused5Horizontal: "refusal 5 2, horizontal length",
    Refused5Vertical: "refusal 5 3, vertical length",
    Refused5Diagonal: "refusal 5 4, diagonal length",
    Refused5Nan: "refusal 5, a NaN",
    Refused5Below: "refusal 5, below 0",
    Refused5Above: "refusal 5, above the limit",
    Refused6Nan: "refusal 6, a NaN sample",
    Refused6Infinite: "refusal 6, an infinite sample",
    Refused6Above: "refusal 6, a finite sample above the limit",
    Refused6First: "refusal 6 at the first sample",
    Refused6Last: "refusal 6 at the last sample",
    Refused6Fourth: "refusal 6 in a fourth channel",
    Refused7Short: "refusal 7 0, coordinates short",
    Refused7Long: "refusal 7 0, coordinates long",
    Refused7Many: "refusal 7 0, too many segments",
    Refused8Below: "refusal 8, an end below the one before",
    Refused8Above: "refusal 8, an end above the segment count",
    Refused8Last: "refusal 8, the last end short of the count",
    Refused8Empty: "refusal 8, no ends for some segments",
    Refused9Colour: "refusal 9, colour",
    Refused9X: "refusal 9, x",
    Refused9Y: "refusal 9, y",
    Refused9Nan: "refusal 9, a NaN coordinate",
    Refused9Infinite: "refusal 9, an infinite coordinate",
    Refused9Above: "refusal 9, a finite coordinate above the limit",
    Mode0: "accepted, mode 0",
    Mode1: "accepted, mode 1",
    Mode2: "accepted, mode 2",
    Mode3: "accepted, mode 3",
    Channels3: "accepted, 3 channels",
    Channels4: "accepted, 4 channels",
    Size1: "accepted, 1 x 1",
    Row: "accepted, one row",
    Column: "accepted, one column",
    SideLimit: "accepted, a side of 4,096",
    RoomExact: "accepted, room for two rows",
    RoomLonger: "accepted, room for more",
    RoomNan: "accepted, a NaN in the room",
    RoomMinusZero: "accepted, a minus zero in the room",
    RoomDisabled: "accepted, a dirty room in Disabled",
    NoContours: "accepted, no contours",
    CornerEmpty: "corners, an empty contour skipped",
    CornerSingle: "corners, a contour of one segment",
    CornerNone: "corners, no shared bit",
    CornerOne: "corners, one shared bit",
    CornerTwo: "corners, two shared bits",
    CornerThree: "corners, three shared bits",
    CornerInside: "corners, cell inside",
    CornerLeft: "corners, cell off the left",
    CornerRight: "corners, cell off the right",
    CornerBelow: "corners, cell off the bottom",
    CornerAbove: "corners, cell off the top",
    CornerNegative: "corners, floor below -1",
    CornerInteger: "corners, x - 0.5 whole",
    CornerAgain: "corners, a cell protected twice",
    CornerAlone: "corners, no edge protects too",
    CornerAndEdge: "corners, an edge protects too",
    CornerDisabled: "corners, none in Disabled",
    CornerIndiscriminate: "corners, none in Indiscriminate",
    CornerEdgeOnly: "corners, none in EdgeOnly",
    EdgeFarHorizontal: "edges, horizontal pair too far",
    EdgeFarVertical: "edges, vertical pair too far",
    EdgeFarDiagonal: "edges, diagonal pair too far",
    EdgeNearHorizontal: "edges, horizontal pair near",
    EdgeNearVertical: "edges, vertical pair near",
    EdgeNearRising: "edges, rising diagonal pair near",
    EdgeNearFalling: "edges, falling diagonal pair near",
    EdgeRadiusTie: "edges, sum equal to the radius",
    EdgeTNan: "edges, t not a number",
    EdgeTLow: "edges, t <= 0",
    EdgeTZero: "edges, t = 0",
    EdgeTHigh: "edges, t >= 1",
    EdgeTOne: "edges, t = 1",
    EdgeNotMedian: "edges, mixed channel is no median",
    EdgeMasked0: "edges, channel 0 masked",
    EdgeMasked1: "edges, channel 1 masked",
    EdgeMasked2: "edges, channel 2 masked",
    EdgeMaskedSeveral: "edges, several channels masked",
    EdgeProtectsA: "edges, a protected",
    EdgeProtectsB: "edges, b protected",
    EdgeSparesA: "edges, masked and a not protected",
    EdgeSparesB: "edges, masked and b not protected",
    EdgeAlone: "edges, no corner protects too",
    CandidateAbove: "range, both above and xm not",
    CandidateAboveTie: "range, both above and xm = 0.5",
    CandidateBelow: "range, both below and xm not",
    CandidateBelowTie: "range, both below and xm = 0.5",
    CandidateMedian: "range, unprotected and median not xm",
    CandidateSaved: "range, protected and median not xm: no candidate",
    CandidateNo: "range, median is xm: no candidate",
    OutALow: "range, below a's range",
    OutAHigh: "range, above a's range",
    OutBLow: "range, within a's, below b's range",
    OutBHigh: "range, within a's, above b's range",
    Within: "range, candidate within both",
    WithinEnd: "range, candidate on an end",
    LinearLeft: "linear, left neighbour",
    LinearRight: "linear, right neighbour",
    LinearBelow: "linear, neighbour below",
    LinearAbove: "linear, neighbour above",
    LinearGuarded: "linear, guard fails",
    LinearTie: "linear, guard at equality",
    LinearNan: "linear, t not a number",
    LinearLow: "linear, t <= 0.01",
    LinearHigh: "linear, t >= 0.99",
    LinearLowEqual: "linear, t = 0.01",
    LinearHighEqual: "linear, t = 0.99",
    LinearInside10: "linear, pair 1-0 inside",
    LinearInside21: "linear, pair 2-1 inside",
    LinearInside02: "linear, pair 0-2 inside",
    LinearArtifact10: "linear, artifact at pair 1-0",
    LinearArtifact21: "linear, artifact at pair 2-1",
    LinearArtifact02: "linear, artifact at pair 0-2",
    DiagonalLowerLeft: "diagonal, lower left",
    DiagonalLowerRight: "diagonal, lower right",
    DiagonalUpperLeft: "diagonal, upper left",
    DiagonalUpperRight: "diagonal, upper right",
    DiagonalGuarded: "diagonal, guard fails",
    DiagonalTie: "diagonal, guard at equality",
    QuadraticZero: "quadratic, a = 0",
    QuadraticSteep: "quadratic, |b| > 1e12 |a| > 0",
    QuadraticNone: "quadratic, a = 0 and b = 0",
    QuadraticLine: "quadratic, -c/b",
    QuadraticTwo: "quadratic, D > 0",
    QuadraticOne: "quadratic, D = 0",
    QuadraticNegative: "quadratic, D < 0",
    RootLow: "diagonal, root <= 0.01",
    RootHigh: "diagonal, root >= 0.99",
    RootLowEqual: "diagonal, root = 0.01",
    RootHighEqual: "diagonal, root = 0.99",
    RootFirst: "diagonal, first of two roots inside",
    RootSecond: "diagonal, second of two roots inside",
    RootBoth: "diagonal, both roots inside",
    RootOnly: "diagonal, only root inside",
    TurnNan: "diagonal, turning point not a number",
    TurnOut: "diagonal, turning point outside",
    TurnUpper0: "diagonal, first turning point is the upper end",
    TurnLower0: "diagonal, first turning point is the lower end",
    TurnUpper1: "diagonal, second turning point is the upper end",
    TurnLower1: "diagonal, second turning point is the lower end",
    TurnAtRoot: "diagonal, turning point at the root",
    DiagonalByPlain: "diagonal, artifact by the plain range",
    DiagonalByTurn0: "diagonal, artifact by the first turning point alone",
    DiagonalByTurn1: "diagonal, artifact by the second turning point alone",
    DiagonalArtifactFirst: "diagonal, artifact at the first of two roots",
    DiagonalArtifactSecond: "diagonal, artifact at the second of two roots",
    DiagonalArtifact10: "diagonal, artifact at pair 1-0",
    DiagonalArtifact21: "diagonal, artifact at pair 2-1",
    DiagonalArtifact02: "diagonal, artifact at pair 0-2",
    TestsOne: "tests, one at a root",
    TestsTwo: "tests, two at a root",
    TestsThree: "tests, three at a root",
    TestsAfterPlain: "tests, a turning point's after an artifact by the plain range",
    TestsAfterArtifact: "tests, fewer if a root's ended at its first artifact",
    TestsLaterRoot: "tests, a later root left out",
    TestsLaterPair: "tests, a later pair left out",
    TestsLaterNeighbour: "tests, a later neighbour left out",
    TestsRootOrder: "tests, others with the roots in another order",
    TestsPairOrder: "tests, others with the pairs in another order",
    TestsSideOrder: "tests, others with the sides in another order",
    TestsDiagonalOrder: "tests, others with the diagonals in another order",
    TestsNoCandidate: "tests, one that finds no candidate",
    TestsNone: "tests, none for a texel",
    TestsMost: "tests, 84 for a texel",
    TestsDisabled: "tests, none in Disabled",
    FlagLinearOnly: "flag, by linear alone",
    FlagDiagonalOnly: "flag, by diagonal alone",
    FlagBoth: "flag, by both",
    FlagProtected: "flag, on a protected texel",
    FlagCorner: "flag, on a texel that a corner protects",
    FlagEdge: "flag, on a texel that an edge alone protects",
    FlagNone: "no flag",
    CollapseMinusZero: "collapse, to minus zero",
    CollapseZeros: "collapse, to one of two zeros of different signs",
    CollapseFourth: "collapse, fourth channel kept",
    CollapseChanges: "collapse, a sample changed",
}

/// How often each branch was reached.
pub struct Seen {
    pub counts: Vec<u64>,
    /// A detector is beyond its first artifact, where nothing decides: what it looks at there reaches no branch.
    beyond: bool,
}

impl Seen {
    pub fn new() -> Seen {
        Seen { counts: vec![0; BRANCHES.len()], beyond: false }
    }
    fn hit(&mut self, b: Branch) {
        self.counts[b as usize] += u64::from(!self.beyond);
    }
    fn hit_if(&mut self, yes: bool, b: Branch) {
        if yes {
            self.hit(b);
        }
    }
}

// Number rules.

/// x < y, or x is −0 and y is +0.
fn below(x: f32, y: f32) -> bool {
    x < y || (x == 0.0 && x.is_sign_negative() && y == 0.0 && y.is_sign_positive())
}

fn min(x: f32, y: f32) -> f32 {
    if x.is_nan() || below(y, x) {
        y
    } else {
        x
    }
}

fn max(x: f32, y: f32) -> f32 {
    if x.is_nan() || below(x, y) {
        y
    } else {
        x
    }
}

fn median(a: f32, b: f32, c: f32) -> f32 {
    max(min(a, b), min(max(a, b), c))
}

fn median_of(t: [f32; 3]) -> f32 {
    median(t[0], t[1], t[2])
}

fn narrow(x: f64) -> f32 {
    if x.is_nan() {
        f32::from_bits(0x7FC0_0000)
    } else {
        x as f32
    }
}

fn mix(a: f32, b: f32, w: f64) -> f32 {
    narrow((1.0 - w) * f64::from(a) + w * f64::from(b))
}

/// The roots in the order of the rule: how many, and their values.
fn solve_quadratic(a: f64, b: f64, c: f64, seen: &mut Seen) -> (usize, [f64; 2]) {
    if a == 0.0 || b.abs() > 1e12 * a.abs() {
        seen.hit(if a == 0.0 { Branch::QuadraticZero } else { Branch::QuadraticSteep });
        if b == 0.0 {
            seen.hit(Branch::QuadraticNone);
            return (0, [0.0; 2]);
        }
        seen.hit(Branch::QuadraticLine);
        return (1, [-c / b, 0.0]);
    }
    let d = b * b - 4.0 * a * c;
    if d > 0.0 {
        seen.hit(Branch::QuadraticTwo);
        let root = d.sqrt();
        (2, [(-b + root) / (2.0 * a), (-b - root) / (2.0 * a)])
    } else if d == 0.0 {
        seen.hit(Branch::QuadraticOne);
        (1, [-b / (2.0 * a), 0.0])
    } else {
        seen.hit(Branch::QuadraticNegative);
        (0, [0.0; 2])
    }
}

// Checks.

fn bad_setting(v: f64) -> bool {
    v.is_nan() || v < 0.0 || v > LIMIT
}

fn bad_sample(v: f32) -> bool {
    v.is_nan() || v.is_infinite() || f64::from(v).abs() > LIMIT
}

fn bad_coordinate(v: f64) -> bool {
    v.is_nan() || v.is_infinite() || v.abs() > LIMIT
}

/// Check 60, where two rows of `width` take more than there is; which later check fails too is counted.
fn room_refusal(input: &Input, samples: &[f32], stencil_len: usize, room_len: usize, seen: &mut Seen) -> (u8, usize) {
    use Branch::*;
    seen.hit(if room_len == 0 {
        Refused60None
    } else if room_len + 1 == 2 * input.width {
        Refused60ByOne
    } else {
        Refused60Short
    });
    if let Some((later, _)) = refusal(input, samples, stencil_len, 2 * input.width, &mut Seen::new()) {
        seen.hit([Order60And5, Order60And6, Order60And7, Order60And8, Order60And9][later as usize - 5]);
    }
    (60, 0)
}

/// The number and the place of the first check that fails, if one does.
fn refusal(input: &Input, samples: &[f32], stencil_len: usize, room_len: usize, seen: &mut Seen) -> Option<(u8, usize)> {
    use Branch::*;
    let (w, h, n) = (input.width, input.height, input.channels);
    if n != 3 && n != 4 {
        seen.hit(Refused1);
        return Some((1, 0));
    }
    for (side, zero, over) in [(w, Refused2Width0, Refused2WidthOver), (h, Refused2Height0, Refused2HeightOver)] {
        if !(1..=SIDE_LIMIT).contains(&side) {
            seen.hit(if side == 0 { zero } else { over });
            return Some((2, 0));
        }
    }
    if samples.len() != w * h * n {
        seen.hit(if samples.len() < w * h * n { Refused3Short } else { Refused3Long });
        seen.hit_if(room_len < 2 * w, Order3And60);
        return Some((3, 0));
    }
    if stencil_len != w * h {
        seen.hit(if stencil_len < w * h { Refused4Short } else { Refused4Long });
        seen.hit_if(room_len < 2 * w, Order4And60);
        return Some((4, 0));
    }
    if room_len < 2 * w {
        return Some(room_refusal(input, samples, stencil_len, room_len, seen));
    }
    if input.mode > 3 {
        seen.hit(Refused5Mode);
        return Some((5, 0));
    }
    let settings = [input.ratio, input.lengths[0], input.lengths[1], input.lengths[2]];
    let names = [Refused5Ratio, Refused5Horizontal, Refused5Vertical, Refused5Diagonal];
    for i in 0..4 {
        if bad_setting(settings[i]) {
            seen.hit(names[i]);
            seen.hit(if settings[i].is_nan() {
                Refused5Nan
            } else if settings[i] < 0.0 {
                Refused5Below
            } else {
                Refused5Above
            });
            return Some((5, i + 1));
        }
    }
    for (i, &v) in samples.iter().enumerate() {
        if bad_sample(v) {
            seen.hit(if v.is_nan() {
                Refused6Nan
            } else if v.is_infinite() {
                Refused6Infinite
            } else {
                Refused6Above
            });
            seen.hit_if(i == 0, Refused6First);
            seen.hit_if(i + 1 == samples.len(), Refused6Last);
            seen.hit_if(n == 4 && i % 4 == 3, Refused6Fourth);
            return Some((6, i));
        }
    }
    let segments = input.colours.len();
    if input.coords.len() != 2 * segments {
        seen.hit(if input.coords.len() < 2 * segments { Refused7Short } else { Refused7Long });
        return Some((7, 0));
    }
    if segments > SEGMENT_LIMIT {
        seen.hit(Refused7Many);
        return Some((7, 0));
    }
    let mut before = 0;
    for (i, &end) in input.ends.iter().enumerate() {
        if end < before {
            seen.hit(Refused8Below);
            return Some((8, i));
        }
        if end > segments {
            seen.hit(Refused8Above);
            return Some((8, i));
        }
        before = end;
    }
    if before != segments {
        seen.hit(if input.ends.is_empty() { Refused8Empty } else { Refused8Last });
        return Some((8, input.ends.len()));
    }
    for s in 0..segments {
        if input.colours[s] > 7 {
            seen.hit(Refused9Colour);
            return Some((9, s));
        }
        for (v, name) in [(input.coords[2 * s], Refused9X), (input.coords[2 * s + 1], Refused9Y)] {
            if bad_coordinate(v) {
                seen.hit(name);
                seen.hit(if v.is_nan() {
                    Refused9Nan
                } else if v.is_infinite() {
                    Refused9Infinite
                } else {
                    Refused9Above
                });
                return Some((9, s));
            }
        }
    }
    None
}

// The pass.

struct Field<'a> {
    width: usize,
    height: usize,
    channels: usize,
    samples: &'a [f32],
}

impl Field<'_> {
    /// The first three channels of a texel.
    fn texel(&self, x: usize, y: usize) -> [f32; 3] {
        let at = (y * self.width + x) * self.channels;
        [self.samples[at], self.samples[at + 1], self.samples[at + 2]]
    }
    fn inside(&self, x: i64, y: i64) -> bool {
        0 <= x && x < self.width as i64 && 0 <= y && y < self.height as i64
    }
}

fn protect_corners(input: &Input, stencil: &mut [u8], seen: &mut Seen) {
    let mut start = 0;
    for &end in &input.ends {
        seen.hit_if(start == end, Branch::CornerEmpty);
        seen.hit_if(start + 1 == end, Branch::CornerSingle);
        for s in start..end {
            let before = if s == start { end - 1 } else { s - 1 };
            let shared = (input.colours[s] & input.colours[before]).count_ones();
            seen.hit([Branch::CornerNone, Branch::CornerOne, Branch::CornerTwo, Branch::CornerThree][shared as usize]);
            if shared > 1 {
                continue;
            }
            let (x, y) = (input.coords[2 * s], input.coords[2 * s + 1]);
            let (l, b) = ((x - 0.5).floor() as i64, (y - 0.5).floor() as i64);
            seen.hit_if(l < -1 || b < -1, Branch::CornerNegative);
            seen.hit_if(x - 0.5 == (x - 0.5).floor(), Branch::CornerInteger);
            for (cx, cy) in [(l, b), (l + 1, b), (l, b + 1), (l + 1, b + 1)] {
                let (w, h) = (input.width as i64, input.height as i64);
                seen.hit_if(cx < 0, Branch::CornerLeft);
                seen.hit_if(cx >= w, Branch::CornerRight);
                seen.hit_if(cy < 0, Branch::CornerBelow);
                seen.hit_if(cy >= h, Branch::CornerAbove);
                if 0 <= cx && cx < w && 0 <= cy && cy < h {
                    seen.hit(Branch::CornerInside);
                    let cell = &mut stencil[cy as usize * input.width + cx as usize];
                    seen.hit_if(*cell != 0, Branch::CornerAgain);
                    *cell = PROTECTED | CORNER;
                }
            }
        }
        start = end;
    }
}

/// Whether a and b of an edge pair are protected.
fn edge_pair(a: [f32; 3], b: [f32; 3], radius: f32, near: Branch, far: Branch, seen: &mut Seen) -> (bool, bool) {
    let (am, bm) = (median_of(a), median_of(b));
    let sum = (am - 0.5f32).abs() + (bm - 0.5f32).abs();
    seen.hit_if(sum == radius, Branch::EdgeRadiusTie);
    if !(sum < radius) {
        seen.hit(far);
        return (false, false);
    }
    seen.hit(near);
    let mut mask = [false; 3];
    for i in 0..3 {
        let divisor: f32 = a[i] - b[i];
        let t = (f64::from(a[i]) - 0.5) / f64::from(divisor);
        if 0.0 < t && t < 1.0 {
            let mixed = [mix(a[0], b[0], t), mix(a[1], b[1], t), mix(a[2], b[2], t)];
            mask[i] = mixed[i] == median_of(mixed);
            seen.hit_if(!mask[i], Branch::EdgeNotMedian);
        } else {
            seen.hit(if t.is_nan() {
                Branch::EdgeTNan
            } else if t <= 0.0 {
                Branch::EdgeTLow
            } else {
                Branch::EdgeTHigh
            });
            seen.hit_if(t == 0.0, Branch::EdgeTZero);
            seen.hit_if(t == 1.0, Branch::EdgeTOne);
        }
    }
    seen.hit_if(mask[0], Branch::EdgeMasked0);
    seen.hit_if(mask[1], Branch::EdgeMasked1);
    seen.hit_if(mask[2], Branch::EdgeMasked2);
    seen.hit_if(mask.iter().filter(|&&m| m).count() > 1, Branch::EdgeMaskedSeveral);
    let differs = |t: [f32; 3], m: f32| (0..3).any(|i| mask[i] && t[i] != m);
    let (pa, pb) = (differs(a, am), differs(b, bm));
    let any = mask.iter().any(|&m| m);
    seen.hit_if(pa, Branch::EdgeProtectsA);
    seen.hit_if(pb, Branch::EdgeProtectsB);
    seen.hit_if(any && !pa, Branch::EdgeSparesA);
    seen.hit_if(any && !pb, Branch::EdgeSparesB);
    (pa, pb)
}

fn protect_edges(input: &Input, field: &Field, stencil: &mut [u8], seen: &mut Seen) {
    use Branch::*;
    let radius = |length: f64| narrow(1.001 * length);
    let [horizontal, vertical, diagonal] = input.lengths;
    let (w, h) = (field.width, field.height);
    let mut pair = |ax: usize, ay: usize, bx: usize, by: usize, length: f64, near: Branch, far: Branch| {
        let (pa, pb) = edge_pair(field.texel(ax, ay), field.texel(bx, by), radius(length), near, far, seen);
        if pa {
            stencil[ay * w + ax] |= PROTECTED;
        }
        if pb {
            stencil[by * w + bx] |= PROTECTED;
        }
    };
    for y in 0..h {
        for x in 0..w {
            if x + 1 < w {
                pair(x, y, x + 1, y, horizontal, EdgeNearHorizontal, EdgeFarHorizontal);
            }
            if y + 1 < h {
                pair(x, y, x, y + 1, vertical, EdgeNearVertical, EdgeFarVertical);
            }
            if x + 1 < w && y + 1 < h {
                pair(x, y, x + 1, y + 1, diagonal, EdgeNearRising, EdgeFarDiagonal);
                pair(x + 1, y, x, y + 1, diagonal, EdgeNearFalling, EdgeFarDiagonal);
            }
        }
    }
}

/// Fills the stencil with what the mode protects. Corners and edges are read apart, so that neither sees what the other writes.
fn protect(input: &Input, field: &Field, stencil: &mut [u8], seen: &mut Seen) {
    use Branch::*;
    let (mut corners, mut edges) = (vec![0; stencil.len()], vec![0; stencil.len()]);
    if input.mode != 2 {
        stencil.fill(if input.mode == 3 { PROTECTED } else { 0 });
        // The outlines are not asked in this mode; that they have corners inside is counted.
        protect_corners(input, &mut corners, &mut Seen::new());
        let unasked = if input.mode == 0 { CornerDisabled } else if input.mode == 1 { CornerIndiscriminate } else { CornerEdgeOnly };
        seen.hit_if(corners.iter().any(|&c| c != 0), unasked);
        return;
    }
    protect_corners(input, &mut corners, seen);
    protect_edges(input, field, &mut edges, seen);
    for (cell, (corner, edge)) in stencil.iter_mut().zip(corners.into_iter().zip(edges)) {
        seen.hit_if(corner != 0 && edge == 0, CornerAlone);
        seen.hit_if(corner != 0 && edge != 0, CornerAndEdge);
        seen.hit_if(corner == 0 && edge != 0, EdgeAlone);
        *cell = corner | edge;
    }
}

/// What a range test says.
#[derive(Clone, Copy, PartialEq, Eq)]
enum Said {
    NoCandidate,
    Candidate,
    Artifact,
}

/// The range tests at a crossing or a root in their order, none where it is not strictly inside: the plain one, then one for each turning point.
type Point = [Option<Said>; 3];
/// A pair's roots in their order; a linear pair has its crossing alone.
type Pair = [Point; 2];
/// Every range test that a neighbour gives rise to, also beyond an artifact; none where its guard fails or it is out of bounds.
type Neighbour = [Pair; 3];
const UNTESTED: Neighbour = [[[None; 3]; 2]; 3];

fn has_artifact(point: &Point) -> bool {
    point.contains(&Some(Said::Artifact))
}

fn any_artifact(neighbours: &[Neighbour]) -> bool {
    neighbours.iter().flatten().flatten().any(has_artifact)
}

/// What a detector is handed: the span of its direction and whether its texel is protected.
#[derive(Clone, Copy)]
struct Detector {
    span: f64,
    protected: bool,
}

impl Detector {
    fn range_test(self, at: f64, bt: f64, xt: f64, am: f32, bm: f32, xm: f32, seen: &mut Seen) -> Said {
        use Branch::*;
        let above = am > 0.5 && bm > 0.5 && xm <= 0.5;
        let below = am < 0.5 && bm < 0.5 && xm >= 0.5;
        let not_median = median(am, bm, xm) != xm;
        seen.hit_if(above, CandidateAbove);
        seen.hit_if(above && xm == 0.5, CandidateAboveTie);
        seen.hit_if(below, CandidateBelow);
        seen.hit_if(below && xm == 0.5, CandidateBelowTie);
        if !(above || below || (!self.protected && not_median)) {
            seen.hit(if not_median { CandidateSaved } else { CandidateNo });
            return Said::NoCandidate;
        }
        seen.hit_if(!above && !below, CandidateMedian);
        let (am, bm, xm) = (f64::from(am), f64::from(bm), f64::from(xm));
        let a_reach = (xt - at) * self.span;
        let b_reach = (bt - xt) * self.span;
        let ends = [am - a_reach, am + a_reach, bm - b_reach, bm + b_reach];
        let within = ends[0] <= xm && xm <= ends[1] && ends[2] <= xm && xm <= ends[3];
        seen.hit_if(within, Within);
        seen.hit_if(within && ends.contains(&xm), WithinEnd);
        if !within {
            seen.hit(if xm < ends[0] {
                OutALow
            } else if xm > ends[1] {
                OutAHigh
            } else if xm < ends[2] {
                OutBLow
            } else {
                OutBHigh
            });
        }
        if within { Said::Candidate } else { Said::Artifact }
    }
}

const EPSILON: f64 = 0.01;

fn strictly_inside(t: f64) -> bool {
    t > EPSILON && t < 1.0 - EPSILON
}

const PAIRS: [(usize, usize); 3] = [(1, 0), (2, 1), (0, 2)];

fn guard(am: f32, bm: f32, guarded: Branch, tie: Branch, seen: &mut Seen) -> bool {
    let (a, b) = ((am - 0.5f32).abs(), (bm - 0.5f32).abs());
    seen.hit_if(a == b, tie);
    seen.hit_if(!(a >= b), guarded);
    a >= b
}

/// The range test at the crossing of linear pair `p`.
fn linear_pair(det: Detector, a: [f32; 3], b: [f32; 3], p: usize, seen: &mut Seen) -> Point {
    use Branch::*;
    let (i, j) = PAIRS[p];
    let (da, db): (f32, f32) = (a[i] - a[j], b[i] - b[j]);
    let divisor: f32 = da - db;
    let t = f64::from(da) / f64::from(divisor);
    if !strictly_inside(t) {
        seen.hit(if t.is_nan() {
            LinearNan
        } else if t <= EPSILON {
            LinearLow
        } else {
            LinearHigh
        });
        seen.hit_if(t == EPSILON, LinearLowEqual);
        seen.hit_if(t == 1.0 - EPSILON, LinearHighEqual);
        return [None; 3];
    }
    seen.hit([LinearInside10, LinearInside21, LinearInside02][p]);
    let xm = median(mix(a[0], b[0], t), mix(a[1], b[1], t), mix(a[2], b[2], t));
    let said = det.range_test(0.0, 1.0, t, median_of(a), median_of(b), xm, seen);
    seen.hit_if(said == Said::Artifact, [LinearArtifact10, LinearArtifact21, LinearArtifact02][p]);
    [Some(said), None, None]
}

fn linear(det: Detector, a: [f32; 3], b: [f32; 3], seen: &mut Seen) -> Neighbour {
    let mut told = UNTESTED;
    if guard(median_of(a), median_of(b), Branch::LinearGuarded, Branch::LinearTie, seen) {
        for p in 0..3 {
            told[p][0] = linear_pair(det, a, b, p, seen);
            seen.beyond |= has_artifact(&told[p][0]);
        }
    }
    seen.beyond = false;
    told
}

/// The four texels of a diagonal test and the bilinear form along the diagonal, whose formulas the document takes from the original:
/// abc, l and q in f32, value(t) = t·(t·q + l) + a in f64 and narrowed, turning point −0.5·l / q in f64.
struct Bilinear {
    a: [f32; 3],
    l: [f32; 3],
    q: [f32; 3],
}

impl Bilinear {
    fn new(a: [f32; 3], b: [f32; 3], c: [f32; 3], d: [f32; 3]) -> Bilinear {
        let (mut l, mut q) = ([0f32; 3], [0f32; 3]);
        for i in 0..3 {
            let abc: f32 = a[i] - b[i] - c[i];
            l[i] = -a[i] - abc;
            q[i] = d[i] + abc;
        }
        Bilinear { a, l, q }
    }
    fn median_at(&self, t: f64) -> f32 {
        let value = |i: usize| narrow(t * (t * f64::from(self.q[i]) + f64::from(self.l[i])) + f64::from(self.a[i]));
        median(value(0), value(1), value(2))
    }
    fn turning_point(&self, i: usize) -> f64 {
        -0.5 * f64::from(self.l[i]) / f64::from(self.q[i])
    }
}

/// The range tests at a root: its plain one, and one for each turning point strictly inside 0..1.
fn root_tests(det: Detector, form: &Bilinear, am: f32, dm: f32, t: f64, turns: [f64; 2], seen: &mut Seen) -> Point {
    use Branch::*;
    let xm = form.median_at(t);
    let mut told = [Some(det.range_test(0.0, 1.0, t, am, dm, xm, seen)), None, None];
    for (k, turn) in turns.into_iter().enumerate() {
        if !(turn > 0.0 && turn < 1.0) {
            seen.hit(if turn.is_nan() { TurnNan } else { TurnOut });
            continue;
        }
        let em = form.median_at(turn);
        seen.hit_if(turn == t, TurnAtRoot);
        told[k + 1] = Some(if turn > t {
            seen.hit([TurnUpper0, TurnUpper1][k]);
            det.range_test(0.0, turn, t, am, em, xm, seen)
        } else {
            seen.hit([TurnLower0, TurnLower1][k]);
            det.range_test(turn, 1.0, t, em, dm, xm, seen)
        });
    }
    let [plain, first, second] = told.map(|said| said == Some(Said::Artifact));
    let made = told.iter().flatten().count();
    seen.hit([TestsOne, TestsTwo, TestsThree][made - 1]);
    seen.hit_if(plain && made > 1, TestsAfterPlain);
    seen.hit_if(plain, DiagonalByPlain);
    seen.hit_if(!plain && first && !second, DiagonalByTurn0);
    seen.hit_if(!plain && second && !first, DiagonalByTurn1);
    told
}

/// The range tests of diagonal pair `p` of the texels a, b, c and d, root by root.
fn diagonal_pair(det: Detector, form: &Bilinear, [a, b, c, d]: [[f32; 3]; 4], p: usize, seen: &mut Seen) -> Pair {
    use Branch::*;
    let (i, j) = PAIRS[p];
    let d_a: f32 = a[i] - a[j];
    let d_bc: f32 = b[i] - b[j] + c[i] - c[j];
    let d_d: f32 = d[i] - d[j];
    let (qa, qb): (f32, f32) = (d_d - d_bc + d_a, d_bc - d_a - d_a);
    let (count, roots) = solve_quadratic(f64::from(qa), f64::from(qb), f64::from(d_a), seen);
    let turns = [form.turning_point(j), form.turning_point(i)];
    let inside = [count > 0 && strictly_inside(roots[0]), count > 1 && strictly_inside(roots[1])];
    seen.hit_if(count == 1 && inside[0], RootOnly);
    seen.hit_if(count == 2 && inside[0], RootFirst);
    seen.hit_if(inside[1], RootSecond);
    seen.hit_if(inside[0] && inside[1], RootBoth);
    let mut told = [[None; 3]; 2];
    for k in 0..count {
        let t = roots[k];
        seen.hit_if(t <= EPSILON, RootLow);
        seen.hit_if(t >= 1.0 - EPSILON, RootHigh);
        seen.hit_if(t == EPSILON, RootLowEqual);
        seen.hit_if(t == 1.0 - EPSILON, RootHighEqual);
        if inside[k] {
            told[k] = root_tests(det, form, median_of(a), median_of(d), t, turns, seen);
        }
        if has_artifact(&told[k]) {
            seen.hit([DiagonalArtifact10, DiagonalArtifact21, DiagonalArtifact02][p]);
            seen.hit_if(count == 2, [DiagonalArtifactFirst, DiagonalArtifactSecond][k]);
            seen.beyond = true;
        }
    }
    told
}

fn diagonal(det: Detector, texels: [[f32; 3]; 4], seen: &mut Seen) -> Neighbour {
    let [a, b, c, d] = texels;
    let mut told = UNTESTED;
    if guard(median_of(a), median_of(d), Branch::DiagonalGuarded, Branch::DiagonalTie, seen) {
        let form = Bilinear::new(a, b, c, d);
        for p in 0..3 {
            told[p] = diagonal_pair(det, &form, texels, p, seen);
        }
    }
    seen.beyond = false;
    told
}

/// The neighbours in the order in which they are asked: to the side, up or down, and their branches.
const NEIGHBOURS: [(i64, i64, Branch); 8] = [
    (-1, 0, Branch::LinearLeft),
    (0, -1, Branch::LinearBelow),
    (1, 0, Branch::LinearRight),
    (0, 1, Branch::LinearAbove),
    (-1, -1, Branch::DiagonalLowerLeft),
    (1, -1, Branch::DiagonalLowerRight),
    (-1, 1, Branch::DiagonalUpperLeft),
    (1, 1, Branch::DiagonalUpperRight),
];

/// Every range test of a texel, from its neighbourhood, its protected bit and the spans.
fn tests_around(input: &Input, field: &Field, x: usize, y: usize, protected: bool, seen: &mut Seen) -> [Neighbour; 8] {
    let detector = |k: usize| Detector { span: input.ratio * input.lengths[k], protected };
    let a = field.texel(x, y);
    let (x, y) = (x as i64, y as i64);
    let at = |x: i64, y: i64| field.texel(x as usize, y as usize);
    let mut told = [UNTESTED; 8];
    for (k, (dx, dy, name)) in NEIGHBOURS.into_iter().enumerate() {
        if field.inside(x + dx, y + dy) {
            seen.hit(name);
            let other = at(x + dx, y + dy);
            told[k] = match (dx, dy) {
                (_, 0) => linear(detector(0), a, other, seen),
                (0, _) => linear(detector(1), a, other, seen),
                _ => diagonal(detector(2), [a, at(x + dx, y), at(x, y + dy), other], seen),
            };
        }
    }
    told
}

/// How range tests are counted. The first is the rule: every test at a root, then roots, pairs and neighbours in order up to the first with an artifact.
/// Each of the others is wrong in one way; they are there so that the comparison can be shown to tell them from the rule.
#[derive(Clone, Copy, PartialEq, Eq, Debug)]
pub enum Counting {
    Rule,
    RootsCutShort,
    RootsGoOn,
    PairsGoOn,
    NeighboursGoOn,
    RootsOtherwise,
    PairsOtherwise,
    SidesOtherwise,
    DiagonalsOtherwise,
    CandidatesAlone,
    DisabledToo,
}

/// Each wrong way for a texel, and the branch of a texel for which it gives another number than the rule.
const WRONG_WAYS: [(Counting, Branch); 9] = [
    (Counting::RootsCutShort, Branch::TestsAfterArtifact),
    (Counting::RootsGoOn, Branch::TestsLaterRoot),
    (Counting::PairsGoOn, Branch::TestsLaterPair),
    (Counting::NeighboursGoOn, Branch::TestsLaterNeighbour),
    (Counting::RootsOtherwise, Branch::TestsRootOrder),
    (Counting::PairsOtherwise, Branch::TestsPairOrder),
    (Counting::SidesOtherwise, Branch::TestsSideOrder),
    (Counting::DiagonalsOtherwise, Branch::TestsDiagonalOrder),
    (Counting::CandidatesAlone, Branch::TestsNoCandidate),
];

/// The tests of these in order, up to the first that has an artifact or of all of them, and whether one has.
fn in_order<T>(list: impl IntoIterator<Item = T>, all: bool, one: impl Fn(T) -> (u32, bool)) -> (u32, bool) {
    let (mut count, mut artifact) = (0, false);
    for item in list {
        if artifact && !all {
            break;
        }
        let (tests, found) = one(item);
        count += tests;
        artifact |= found;
    }
    (count, artifact)
}

impl Counting {
    fn test(self, said: Said) -> (u32, bool) {
        (u32::from(self != Counting::CandidatesAlone || said != Said::NoCandidate), said == Said::Artifact)
    }
    fn point(self, point: &Point) -> (u32, bool) {
        in_order(point.iter().flatten(), self != Counting::RootsCutShort, |&said| self.test(said))
    }
    fn pair(self, pair: &Pair) -> (u32, bool) {
        let order = if self == Counting::RootsOtherwise { [1, 0] } else { [0, 1] };
        in_order(order, self == Counting::RootsGoOn, |k: usize| self.point(&pair[k]))
    }
    fn neighbour(self, neighbour: &Neighbour) -> (u32, bool) {
        let order = if self == Counting::PairsOtherwise { [2, 1, 0] } else { [0, 1, 2] };
        in_order(order, self == Counting::PairsGoOn, |k: usize| self.pair(&neighbour[k]))
    }
    fn texel(self, around: &[Neighbour; 8]) -> u32 {
        let order = match self {
            Counting::SidesOtherwise => [0, 2, 1, 3, 4, 5, 6, 7],
            Counting::DiagonalsOtherwise => [0, 1, 2, 3, 4, 6, 5, 7],
            _ => [0, 1, 2, 3, 4, 5, 6, 7],
        };
        in_order(order, self == Counting::NeighboursGoOn, |k: usize| self.neighbour(&around[k])).0
    }
}

/// Whether the texel is an error, and how many range tests are made for it.
fn verdict(around: &[Neighbour; 8], protected: bool, counting: Counting, seen: &mut Seen) -> (bool, u32) {
    use Branch::*;
    let (by_linear, by_diagonal) = (any_artifact(&around[..4]), any_artifact(&around[4..]));
    let flagged = by_linear || by_diagonal;
    seen.hit(match (by_linear, by_diagonal) {
        (true, false) => FlagLinearOnly,
        (false, true) => FlagDiagonalOnly,
        (true, true) => FlagBoth,
        (false, false) => FlagNone,
    });
    seen.hit_if(protected && flagged, FlagProtected);
    let tests = Counting::Rule.texel(around);
    seen.hit_if(tests == 0, TestsNone);
    seen.hit_if(tests == MOST_TESTS, TestsMost);
    for (wrong, branch) in WRONG_WAYS {
        seen.hit_if(tests > 0 && wrong.texel(around) != tests, branch);
    }
    (flagged, if counting == Counting::Rule { tests } else { counting.texel(around) })
}

/// Sets the bit of each texel that is an error, and answers the range tests of each.
fn find_errors(input: &Input, field: &Field, stencil: &mut [u8], counting: Counting, seen: &mut Seen) -> Vec<u32> {
    let mut tests = Vec::with_capacity(stencil.len());
    for (k, cell) in stencil.iter_mut().enumerate() {
        let protected = *cell & PROTECTED != 0;
        let around = tests_around(input, field, k % field.width, k / field.width, protected, seen);
        let (flagged, made) = verdict(&around, protected, counting, seen);
        tests.push(made);
        if flagged {
            seen.hit_if(*cell & CORNER != 0, Branch::FlagCorner);
            seen.hit_if(input.mode == 2 && *cell == PROTECTED, Branch::FlagEdge);
            *cell |= ERROR;
        }
    }
    tests
}

/// The texels that finding reads for one, in order: itself, then each neighbour that is inside when its own test begins, up to the first with an artifact.
/// Of a diagonal that is the texel across, for the guard; where that passes, the ones beside in the row and in the column as well.
fn reads_for(input: &Input, field: &Field, x: usize, y: usize, protected: bool, seen: &mut Seen) -> Vec<(usize, usize)> {
    let around = tests_around(input, field, x, y, protected, seen);
    let am = median_of(field.texel(x, y));
    let mut read = vec![(x, y)];
    for (neighbour, (dx, dy, _)) in around.iter().zip(NEIGHBOURS) {
        let (nx, ny) = (x as i64 + dx, y as i64 + dy);
        if !field.inside(nx, ny) {
            continue;
        }
        let (nx, ny) = (nx as usize, ny as usize);
        read.push((nx, ny));
        let across = dx != 0 && dy != 0;
        if across && guard(am, median_of(field.texel(nx, ny)), Branch::DiagonalGuarded, Branch::DiagonalTie, seen) {
            read.extend([(nx, y), (x, ny)]);
        }
        if any_artifact(std::slice::from_ref(neighbour)) {
            break;
        }
    }
    read
}

/// The texels that finding reads for each, over the samples before the pass and the stencil after it; none in Disabled.
#[allow(dead_code)] // most programs do not ask what is read
pub fn reads(input: &Input, samples: &[f32], stencil: &[u8]) -> Vec<Vec<(usize, usize)>> {
    if input.mode == 0 {
        return vec![];
    }
    let field = Field { width: input.width, height: input.height, channels: input.channels, samples };
    let seen = &mut Seen::new();
    let one = |(k, cell): (usize, &u8)| reads_for(input, &field, k % input.width, k / input.width, cell & PROTECTED != 0, seen);
    stencil.iter().enumerate().map(one).collect()
}

fn collapse(field_channels: usize, samples: &mut [f32], stencil: &[u8], seen: &mut Seen) {
    for (cell, texel) in stencil.iter().zip(samples.chunks_mut(field_channels)) {
        if cell & ERROR != 0 {
            let m = median(texel[0], texel[1], texel[2]);
            seen.hit_if(m.to_bits() == 0x8000_0000, Branch::CollapseMinusZero);
            seen.hit_if(m == 0.0 && texel[..3].iter().any(|v| *v == m && v.to_bits() != m.to_bits()), Branch::CollapseZeros);
            seen.hit_if(field_channels == 4, Branch::CollapseFourth);
            seen.hit_if(texel[..3].iter().any(|v| v.to_bits() != m.to_bits()), Branch::CollapseChanges);
            texel[..3].fill(m);
        }
    }
}

/// The number of range tests of each texel in Disabled: none. That some would be made in another mode is counted.
fn disabled_tests(input: &Input, field: &Field, counting: Counting, seen: &mut Seen) -> Vec<u32> {
    let untested = vec![0; field.width * field.height];
    let tests = find_errors(input, field, &mut vec![0; untested.len()], Counting::Rule, &mut Seen::new());
    seen.hit_if(tests.iter().any(|&n| n > 0), Branch::TestsDisabled);
    if counting == Counting::DisabledToo { tests } else { untested }
}

/// The whole pass over lent samples, a lent stencil and a lent room, which is written zeros to and not read: its answer, and the range tests of each texel, counted
/// in this way; in a refusal there are no texels.
pub fn judge_counting(input: &Input, samples: &mut [f32], stencil: &mut [u8], room: &mut [f32], counting: Counting, seen: &mut Seen) -> (Answer, Vec<u32>) {
    use Branch::*;
    if let Some((refusal, place)) = refusal(input, samples, stencil.len(), room.len(), seen) {
        return (Answer { refusal, place, ..Answer::default() }, vec![]);
    }
    let (w, h) = (input.width, input.height);
    seen.hit(if room.len() == 2 * w { RoomExact } else { RoomLonger });
    seen.hit_if(room.iter().any(|v| v.is_nan()), RoomNan);
    seen.hit_if(room.iter().any(|v| v.to_bits() == 0x8000_0000), RoomMinusZero);
    seen.hit_if(input.mode == 0 && room.iter().any(|v| v.to_bits() != 0), RoomDisabled);
    room.fill(0.0);
    seen.hit([Mode0, Mode1, Mode2, Mode3][input.mode as usize]);
    seen.hit(if input.channels == 3 { Channels3 } else { Channels4 });
    seen.hit_if(w == 1 && h == 1, Size1);
    seen.hit_if(h == 1, Row);
    seen.hit_if(w == 1, Column);
    seen.hit_if(w == SIDE_LIMIT || h == SIDE_LIMIT, SideLimit);
    seen.hit_if(input.ends.is_empty(), NoContours);
    let field = Field { width: w, height: h, channels: input.channels, samples };
    protect(input, &field, stencil, seen);
    let tests = if input.mode == 0 {
        disabled_tests(input, &field, counting, seen)
    } else {
        find_errors(input, &field, stencil, counting, seen)
    };
    collapse(input.channels, samples, stencil, seen);
    let count = |bit: u8| stencil.iter().filter(|&&s| s & bit != 0).count();
    let sum = tests.iter().map(|&n| n as usize).sum();
    (Answer { refusal: 0, place: 0, protected: count(PROTECTED), error: count(ERROR), corner: count(CORNER), tests: sum }, tests)
}

/// The whole pass by the rules.
#[allow(dead_code)] // a program may ask for the counts of each texel instead
pub fn judge(input: &Input, samples: &mut [f32], stencil: &mut [u8], room: &mut [f32], seen: &mut Seen) -> Answer {
    judge_counting(input, samples, stencil, room, Counting::Rule, seen).0
}
