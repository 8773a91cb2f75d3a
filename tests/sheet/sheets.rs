//! Sheets for the runs that are accepted: a field over the whole sheet, so that a cell's neighbours bear on its edges, some cells with one of their own; settings
//! and a mode for each cell; and outlines whose runs lie anywhere in lists that hold more than is taken.

use crate::cases::{bad_sample, checkered, contour, fill_field, lengths, ratio, room};
use crate::glyphs;
use crate::layouts::{layout, Layout};
use crate::rng::Rng;
use crate::sheet::{Area, Runs, Sheet};

type Contours = Vec<Vec<(u8, f64, f64)>>;

/// Kinds of fields that cases.rs fills.
const FIELDS: usize = 8;

/// The outlines' lists as they grow. What lies before the parts that may be taken, and is put after them, is refused wherever a run takes it.
struct Lists {
    colours: Vec<u8>,
    coords: Vec<f64>,
    ends: Vec<usize>,
    /// Where the colours and the coordinates that may be taken begin.
    clean: [usize; 2],
    /// The runs of ends that each outline so far has.
    blocks: Vec<(usize, usize)>,
}

/// So many elements that no run may take.
fn spoilt<T: Copy>(rng: &mut Rng, list: &mut Vec<T>, element: T) {
    let more = if rng.one_in(2) { 0 } else { 1 + rng.below(4) };
    list.extend(vec![element; more]);
}

impl Lists {
    fn new(rng: &mut Rng) -> Lists {
        let mut l = Lists { colours: vec![], coords: vec![], ends: vec![], clean: [0; 2], blocks: vec![] };
        l.spoil(rng);
        l.clean = [l.colours.len(), l.coords.len()];
        l
    }

    fn spoil(&mut self, rng: &mut Rng) {
        spoilt(rng, &mut self.colours, 200);
        spoilt(rng, &mut self.coords, f64::NAN);
        spoilt(rng, &mut self.ends, usize::MAX);
    }

    /// Outlines of its own.
    fn own(&mut self, contours: &Contours) -> Runs {
        let from = [self.colours.len(), self.coords.len(), self.ends.len()];
        for contour in contours {
            for &(colour, x, y) in contour {
                self.colours.push(colour);
                self.coords.extend([x, y]);
            }
            self.ends.push(self.colours.len() - from[0]);
        }
        self.blocks.push((from[2], contours.len()));
        [from[0], self.colours.len() - from[0], from[1], self.coords.len() - from[1], from[2], contours.len()]
    }

    /// The first contours of earlier ones, over colours and coordinates from anywhere.
    fn taken(&self, rng: &mut Rng) -> Option<Runs> {
        let &(from, most) = self.blocks.get(rng.below(self.blocks.len().max(1)))?;
        let count = rng.below(most + 1);
        let segments = if count == 0 { 0 } else { self.ends[from + count - 1] };
        let colours = self.clean[0] + rng.below(self.colours.len() - self.clean[0] - segments + 1);
        let coords = self.clean[1] + rng.below(self.coords.len() - self.clean[1] - 2 * segments + 1);
        Some([colours, segments, coords, 2 * segments, from, count])
    }

    /// Nothing, from anywhere.
    fn nothing(&self, rng: &mut Rng) -> Runs {
        [rng.below(self.colours.len() + 1), 0, rng.below(self.coords.len() + 1), 0, rng.below(self.ends.len() + 1), 0]
    }
}

fn settings(rng: &mut Rng) -> [f64; 4] {
    let [horizontal, vertical, diagonal] = lengths(rng);
    [ratio(rng), horizontal, vertical, diagonal]
}

fn mode(rng: &mut Rng) -> u8 {
    if rng.one_in(20) { 0 } else { rng.pick(&[1, 1, 2, 2, 2, 3]) }
}

/// A chessboard that takes many range tests, and lengths that stop few.
fn board(rng: &mut Rng, width: usize, height: usize, channels: usize) -> Vec<f32> {
    let often = 2 + rng.below(20);
    let mut samples = Vec::with_capacity(width * height * channels);
    for texel in checkered(width, height) {
        let moved = if rng.one_in(often) { 0.25 * rng.unit() as f32 } else { 0.0 };
        samples.extend((0..channels).map(|c| 0.5 + texel[c % 3] + moved));
    }
    samples
}

/// What one cell has for itself.
struct Own {
    mode: u8,
    settings: [f64; 4],
    contours: Option<Contours>,
}

/// A glyph in the cell, with the lengths of its range.
fn glyph(rng: &mut Rng, sheet: &mut Sheet, a: Area) -> Own {
    let glyph = glyphs::glyph(rng, a.width, a.height);
    let range = rng.pick(&[1.0, 2.0, 4.0, 6.5, 0.5]);
    let mut samples = glyphs::field(&glyph, a.width, a.height, sheet.channels, range);
    if rng.one_in(2) {
        glyphs::noise(rng, &mut samples, 0.1);
    }
    if rng.one_in(2) {
        glyphs::invert(rng, &mut samples, sheet.channels, 6);
    }
    sheet.paste(a, &samples);
    let step = 1.0 / range;
    Own { mode: if rng.one_in(3) { mode(rng) } else { 2 }, settings: [10.0 / 9.0, step, step, std::f64::consts::SQRT_2 * step], contours: Some(glyph.contours) }
}

fn own(rng: &mut Rng, sheet: &mut Sheet, a: Area, field: usize) -> Own {
    let glyphs = field == FIELDS || rng.one_in(12);
    if glyphs && a.width * a.height >= 4 {
        return glyph(rng, sheet, a);
    }
    if rng.one_in(5) {
        let kind = rng.below(FIELDS);
        let samples = fill_field(rng, kind, a.width, a.height, sheet.channels);
        sheet.paste(a, &samples);
    }
    let long = field > FIELDS && rng.one_in(2);
    Own { mode: mode(rng), settings: if long { [1.0, 64.0, 64.0, 64.0] } else { settings(rng) }, contours: None }
}

fn runs(rng: &mut Rng, lists: &mut Lists, sheet: &Sheet, a: Area, contours: Option<Contours>) -> Runs {
    if let Some(contours) = contours {
        return lists.own(&contours);
    }
    match rng.below(8) {
        0..=2 => lists.own(&(0..rng.below(4)).map(|_| contour(rng, a.width, a.height)).collect()),
        3..=4 => lists.taken(rng).unwrap_or([0; 6]),
        5 if sheet.count() > 0 => sheet.runs(rng.below(sheet.count())),
        _ => lists.nothing(rng),
    }
}

/// Samples outside every cell that no check would accept.
pub fn spoil_outside(rng: &mut Rng, sheet: &mut Sheet) {
    let (holders, n, every) = (sheet.holders(), sheet.channels, 1 + rng.below(4));
    for k in (0..holders.len()).filter(|&k| holders[k].is_none()) {
        if rng.one_in(every) {
            let one = rng.below(2 * n);
            (0..n).filter(|&c| one >= n || one == c).for_each(|c| sheet.samples[k * n + c] = bad_sample(rng));
        }
    }
}

/// A sheet with its cells laid out so.
pub fn sheet_of(rng: &mut Rng, l: Layout, channels: usize) -> Sheet {
    let field = rng.below(FIELDS + 2);
    let samples = match field {
        FIELDS => fill_field(rng, 0, l.width, l.height, channels),
        _ if field > FIELDS => board(rng, l.width, l.height, channels),
        _ => fill_field(rng, field, l.width, l.height, channels),
    };
    let old = rng.next();
    let stencil = (0..l.width * l.height).map(|i| (old.rotate_left(i as u32 % 64) & 0xFF) as u8).collect();
    let (width, height) = (l.width, l.height);
    let room = room(width, old);
    let mut sheet = Sheet { kind: l.kind, width, height, channels, samples, stencil, room, cells: vec![], modes: vec![], settings: vec![], colours: vec![], coords: vec![], ends: vec![] };
    let mut lists = Lists::new(rng);
    for a in l.areas {
        let own = own(rng, &mut sheet, a, field);
        let runs = runs(rng, &mut lists, &sheet, a, own.contours);
        sheet.push_cell(a, runs, own.mode, own.settings);
    }
    lists.spoil(rng);
    (sheet.colours, sheet.coords, sheet.ends) = (lists.colours, lists.coords, lists.ends);
    // Empty runs at the very end of their lists.
    let lengths = [sheet.colours.len(), sheet.coords.len(), sheet.ends.len()];
    for c in 0..sheet.count() {
        for (k, &length) in lengths.iter().enumerate() {
            let at = 10 * c + 4 + 2 * k;
            if sheet.cells[at + 1] == 0 && rng.one_in(4) {
                sheet.cells[at] = length;
            }
        }
    }
    if rng.one_in(2) {
        spoil_outside(rng, &mut sheet);
    }
    sheet
}

/// A sheet that is accepted.
pub fn accepted(rng: &mut Rng) -> Sheet {
    let l = layout(rng);
    let channels = 3 + usize::from(rng.one_in(3));
    sheet_of(rng, l, channels)
}
