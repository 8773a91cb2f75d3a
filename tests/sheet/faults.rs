//! Faults put into sheets that were accepted: in the sheet's sizes and lengths, in where cells lie, in their runs, and in a cell's own contents.

use crate::cases;
use crate::checks;
use crate::layouts::{most, none, row, transposed, whole};
use crate::rng::Rng;
use crate::rooms;
use crate::sheet::{Area, Sheet};
use crate::sheets::{accepted, sheet_of};

/// Faults of the sheet, of a cell's runs, of where it lies, and of its own contents. Of several the last come first, while a cell can still be cut out.
const FAULTS: usize = 28;

/// One more or one less, or as many as a cell has.
fn resize<T: Copy>(rng: &mut Rng, list: &mut Vec<T>, a_cell: usize, element: T) {
    let by = if rng.one_in(3) { a_cell } else { 1 };
    if rng.one_in(2) {
        list.extend(vec![element; by]);
    } else {
        list.truncate(list.len().saturating_sub(by));
    }
}

/// A start and a count whose sum is past the largest number and comes out as `sum` where that is not seen.
fn no_sum(rng: &mut Rng, sum: usize) -> (usize, usize) {
    let back = rng.pick(&[0, 1, 7, 4096, 1 << 32, usize::MAX / 2]);
    let count = sum.saturating_add(1).saturating_add(back);
    let from = usize::MAX - back;
    if rng.one_in(2) { (from, count) } else { (count, from) }
}

/// Puts a fault of a cell's own into cell c.
fn spoil_contents(rng: &mut Rng, s: &mut Sheet, c: usize) {
    let mut case = s.alone(c);
    let fault = 7 + rng.below(cases::FAULTS - 7);
    cases::break_it(rng, &mut case, fault);
    s.put_back(c, &case);
}

/// Puts cell c elsewhere, so that it shares texels with cell d: one at a corner, all, some within, or those of one column or row more.
fn overlap(rng: &mut Rng, s: &mut Sheet, c: usize, d: usize) {
    let (a, b) = (s.area(c), s.area(d));
    let corner = [b.x + rng.below(2) * (b.width - 1), b.y + rng.below(2) * (b.height - 1)];
    let moved = match rng.below(6) {
        0 => Area { x: corner[0], y: corner[1], width: 1, height: 1 },
        // the last texel of the one is the first of the other
        1 => Area { x: (b.x + 1).saturating_sub(a.width), y: (b.y + 1).saturating_sub(a.height), width: a.width.min(b.x + 1), height: a.height.min(b.y + 1) },
        2 => b,
        3 => Area { x: b.x + rng.below(b.width), y: b.y + rng.below(b.height), width: 1, height: 1 },
        4 => Area { width: (a.width + 1).min(s.width - a.x), ..a },
        _ => Area { height: (a.height + 1).min(s.height - a.y), ..a },
    };
    s.set_area(c, moved);
}

/// Puts one fault of kind `fault` (below `FAULTS`) into the sheet, where there is room for it.
fn break_it(rng: &mut Rng, s: &mut Sheet, fault: usize) {
    let over = [4097, 65_536, 1 << 32, 1 << 63, usize::MAX];
    let count = s.modes.len().min(s.cells.len() / 10).min(s.settings.len() / 4);
    match fault {
        0 => s.channels = rng.pick(&[0, 1, 2, 5, 7, 256, 1 << 32, usize::MAX]),
        1 => s.width = if rng.one_in(2) { 0 } else { rng.pick(&over) },
        2 => s.height = if rng.one_in(2) { 0 } else { rng.pick(&over) },
        3 => {
            let n = s.channels.clamp(1, 4);
            resize(rng, &mut s.samples, n, 0.5)
        }
        4 => resize(rng, &mut s.stencil, 1, 7),
        5 => resize(rng, &mut s.modes, 1, 1),
        6 => resize(rng, &mut s.cells, 10, 1),
        7 => resize(rng, &mut s.settings, 4, 0.25),
        8 => (s.width, s.height) = (s.height, s.width),
        9 => {
            let cells = 4097 + rng.below(2);
            s.modes.resize(cells, 1);
            s.cells.resize(10 * cells, 0);
            s.settings.resize(4 * cells, 1.0);
        }
        _ if count == 0 => {}
        _ => {
            let c = if rng.one_in(3) { rng.pick(&[0, count - 1]) } else { rng.below(count) };
            match fault {
                10..=12 => break_runs(rng, s, c, fault - 10),
                13..=16 => break_area(rng, s, c, fault - 13),
                17..=19 => {
                    let d = rng.below(count);
                    if c != d && checks::fits(s, c) && checks::fits(s, d) {
                        overlap(rng, s, c, d);
                    }
                }
                _ => {
                    if checks::fits(s, c) {
                        spoil_contents(rng, s, c);
                    }
                }
            }
        }
    }
}

/// One of cell c's runs is not inside its list: one beyond or more, without a sum, or empty.
fn break_runs(rng: &mut Rng, s: &mut Sheet, c: usize, fault: usize) {
    let mut runs = s.runs(c);
    let k = rng.below(3);
    let length = [s.colours.len(), s.coords.len(), s.ends.len()][k];
    let [from, count] = [runs[2 * k], runs[2 * k + 1]];
    let far = if rng.one_in(4) { 50 } else { 0 };
    (runs[2 * k], runs[2 * k + 1]) = match fault {
        0 if rng.one_in(2) => (from, (length + 1).saturating_sub(from) + far),
        0 => ((length + 1).saturating_sub(count) + far, count),
        1 => {
            let sum = rng.below(length + 1);
            no_sum(rng, sum)
        }
        _ => (if rng.one_in(4) { usize::MAX } else { length + 1 }, 0),
    };
    s.set_runs(c, runs);
}

/// Cell c is empty or not inside: one beyond or more, or without a sum.
fn break_area(rng: &mut Rng, s: &mut Sheet, c: usize, fault: usize) {
    let a = s.area(c);
    let far = if rng.one_in(4) { 100 } else { 1 };
    let moved = match (fault, rng.below(2)) {
        (0, 0) => Area { width: 0, ..a },
        (0, _) => Area { height: 0, ..a },
        (1, 0) => Area { width: s.width.saturating_sub(a.x).saturating_add(far), ..a },
        (1, _) => Area { height: s.height.saturating_sub(a.y).saturating_add(far), ..a },
        (2, 0) => Area { x: s.width.saturating_add(far).saturating_sub(a.width), ..a },
        (2, _) => Area { y: s.height.saturating_add(far).saturating_sub(a.height), ..a },
        (_, 0) => {
            let sum = rng.below(s.width.clamp(1, 4096));
            let (x, width) = no_sum(rng, sum);
            Area { x, width, ..a }
        }
        _ => {
            let sum = rng.below(s.height.clamp(1, 4096));
            let (y, height) = no_sum(rng, sum);
            Area { y, height, ..a }
        }
    };
    s.set_area(c, moved);
}

/// One to four faults in a sheet that was accepted before.
fn broken(rng: &mut Rng) -> Sheet {
    let mut s = accepted(rng);
    while s.samples.len() > 2000 {
        s = accepted(rng);
    }
    let mut faults: Vec<usize> = (0..rng.pick(&[1, 1, 1, 2, 3, 4])).map(|_| rng.below(FAULTS)).collect();
    faults.sort_by(|a, b| b.cmp(a));
    for fault in faults {
        break_it(rng, &mut s, fault);
    }
    s.kind = "broken";
    s
}

/// The sheet with another room, short or not.
fn lent(rng: &mut Rng, s: Sheet, short: bool) -> Sheet {
    let width = s.width.min(4096);
    let length = if short { rooms::too_short(rng, width) } else { rooms::enough(rng, width) };
    Sheet { room: rooms::dirty(rng, length), ..s }
}

/// Sheet `index` of the run `seed`; its room is seldom short, and where something else is wrong as often as not.
pub fn sheet(seed: u64, index: u64) -> Sheet {
    let mut rng = Rng::new(seed, index);
    let s = if rng.one_in(4) { broken(&mut rng) } else { accepted(&mut rng) };
    let mut own = Rng::new(seed ^ 0x600D, index);
    let short = own.one_in(if s.kind == "broken" { 2 } else { 30 });
    lent(&mut own, s, short)
}

// What is tried in every run, whatever the seed.

/// Few cells that touch, each with outlines of its own.
fn small(rng: &mut Rng, channels: usize) -> Sheet {
    loop {
        let s = accepted(rng);
        let outlined = |c: usize| s.runs(c).into_iter().all(|n| n > 0);
        if s.channels == channels && (2..=5).contains(&s.count()) && s.samples.len() < 400 && (0..s.count()).any(outlined) {
            return s;
        }
    }
}

/// The largest sizes and counts that are accepted, and one more.
fn limits(rng: &mut Rng) -> Vec<Sheet> {
    let mut sheets = Vec::new();
    for l in [most(1, 1), most(2, 1), row(4096), transposed(row(4096)), whole(4096, 1), transposed(whole(4096, 2)), none(4096, 1), none(1, 1)] {
        let channels = 3 + rng.below(2);
        sheets.push(sheet_of(rng, l, channels));
    }
    for number in [0, 50, 51, 52, 53, 5, 6] {
        let mut s = sheet_of(rng, most(1, 1), 3);
        let last = s.count() - 1;
        let (area, runs) = (s.area(last), s.runs(last));
        match number {
            50 => {
                let first = s.area(0);
                s.push_cell(first, [0; 6], 1, [1.0; 4]);
            }
            51 => s.set_area(last, Area { width: 2, ..area }),
            52 => s.set_area(last, Area { x: area.x - 1, ..area }),
            53 => s.set_runs(last, [runs[0], runs[1], runs[2], runs[3], s.ends.len() + 1, 0]),
            5 => s.settings[4 * last + 3] = -1.0,
            6 => s.paste(area, &[0.5, 0.5, f32::NAN]),
            _ => {}
        }
        sheets.push(s);
    }
    for segments in [65_536usize, 65_537] {
        let mut s = small(rng, 3);
        let coords: Vec<f64> = (0..2 * segments).map(|k| (k % 13) as f64 - 2.0).collect();
        let runs = s.append(&vec![3; segments], &coords, &[segments]);
        s.set_runs(1, runs);
        sheets.push(s);
    }
    sheets
}

/// Every fault many times in a few small sheets, and every two of them; each beside a short room; and the limits.
pub fn always() -> Vec<Sheet> {
    let mut rng = Rng::new(1, 1);
    let mut sheets = limits(&mut rng);
    for channels in [3, 4, 3, 4] {
        let base = small(&mut rng, channels);
        sheets.push(base.clone());
        let mut own = Rng::new(60, channels as u64);
        for length in [0, 1, base.width, 2 * base.width - 1, 2 * base.width, 2 * base.width + 1] {
            sheets.push(Sheet { room: rooms::dirty(&mut own, length), ..base.clone() });
        }
        for fault in 0..FAULTS {
            for _ in 0..4 {
                let mut s = base.clone();
                break_it(&mut own, &mut s, fault);
                sheets.push(lent(&mut own, s, true));
            }
            for _ in 0..8 {
                let mut s = base.clone();
                break_it(&mut rng, &mut s, fault);
                sheets.push(s);
            }
            for earlier in 0..=fault {
                let mut s = base.clone();
                break_it(&mut rng, &mut s, fault);
                break_it(&mut rng, &mut s, earlier);
                sheets.push(s);
            }
        }
    }
    sheets.iter_mut().for_each(|s| s.kind = "always");
    sheets
}
