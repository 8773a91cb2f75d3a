//! A case as text, and the smallest case like it over which the sides still differ.

use crate::cases::{contours_of, set_contours, Case};
use crate::judge::Seen;
use crate::sides::{by_judge, compare, Totals};
use std::fmt::Write;
use std::ops::Range;

pub fn text(case: &Case) -> String {
    let i = &case.input;
    let mut s = String::new();
    let bits: Vec<String> = [i.ratio, i.lengths[0], i.lengths[1], i.lengths[2]].iter().map(|v| format!("{v:?} ({:016X})", v.to_bits())).collect();
    let _ = writeln!(s, "  size {} {} {}, mode {}, ratio and lengths {}", i.width, i.height, i.channels, i.mode, bits.join(" "));
    let (n, m, room) = (case.samples.len(), case.stencil.len(), case.room.len());
    let _ = writeln!(s, "  {n} samples, {m} cells, room for {room}, {} colours, {} coordinates, ends {:?}", i.colours.len(), i.coords.len(), i.ends);
    if i.colours.len() <= 32 {
        let _ = writeln!(s, "  colours {:?} coordinates {:?}", i.colours, i.coords);
    }
    if case.samples.len() <= 64 {
        for (k, texel) in case.samples.chunks(i.channels.clamp(1, 4)).enumerate() {
            let values: Vec<String> = texel.iter().map(|v| format!("{v:?} ({:08X})", v.to_bits())).collect();
            let _ = writeln!(s, "  texel {k}: {}", values.join(" "));
        }
        let _ = writeln!(s, "  range tests of each texel, judged: {:?}", by_judge(case, &mut Seen::new()).tests);
    }
    s
}

fn differs(case: &Case) -> Option<String> {
    compare(case, &mut Seen::new(), &mut Totals::default()).err()
}

/// The case without these rows or columns, where its lengths are those of its size.
fn without(case: &Case, row: bool, gone: Range<usize>) -> Option<Case> {
    let (w, h, n) = (case.input.width, case.input.height, case.input.channels);
    if w.checked_mul(h) != Some(case.stencil.len()) || case.stencil.len().checked_mul(n) != Some(case.samples.len()) || w * h == 0 {
        return None;
    }
    let keep = |k: usize| !gone.contains(&if row { k / w } else { k % w });
    let mut c = case.clone();
    c.samples = (0..w * h).filter(|&k| keep(k)).flat_map(|k| case.samples[k * n..(k + 1) * n].to_vec()).collect();
    c.stencil = (0..w * h).filter(|&k| keep(k)).map(|k| case.stencil[k]).collect();
    if row {
        c.input.height -= gone.len();
    } else {
        c.input.width -= gone.len();
    }
    Some(c)
}

/// Every case that is one step simpler, the largest steps first.
fn simpler(case: &Case) -> Vec<Case> {
    let mut list = Vec::new();
    if case.stencil.len() <= 10_000 {
        for (row, n) in [(true, case.input.height.min(200)), (false, case.input.width.min(200))] {
            list.extend([0..n / 2, n / 2..n].into_iter().filter(|half| half.len() > 1).filter_map(|half| without(case, row, half)));
        }
        for (row, n) in [(true, case.input.height.min(200)), (false, case.input.width.min(200))] {
            list.extend((0..n).filter_map(|k| without(case, row, k..k + 1)));
        }
    }
    for length in [2 * case.input.width.min(4096), case.room.len()] {
        if length < case.room.len() || (length == case.room.len() && case.room.iter().any(|v| v.to_bits() != 0)) {
            list.push(Case { room: vec![0.0; length], ..case.clone() });
        }
    }
    let outlined = case.input.ends.last().copied().unwrap_or(0) == case.input.colours.len()
        && case.input.ends.windows(2).all(|e| e[0] <= e[1])
        && case.input.coords.len() == 2 * case.input.colours.len();
    if outlined {
        let contours = contours_of(&case.input);
        for k in 0..contours.len() {
            let mut fewer = contours.clone();
            fewer.remove(k);
            let mut c = case.clone();
            set_contours(&mut c.input, &fewer);
            list.push(c);
        }
    }
    if case.samples.len() <= 64 {
        for k in 0..case.samples.len() {
            for v in [0.0, 0.5, 1.0, 0.25, 0.75] {
                if case.samples[k].to_bits() == f32::to_bits(v) {
                    break;
                }
                let mut c = case.clone();
                c.samples[k] = v;
                list.push(c);
            }
        }
        for k in 0..4 {
            for v in [0.0, 1.0, 0.25] {
                let mut c = case.clone();
                let setting = if k == 0 { &mut c.input.ratio } else { &mut c.input.lengths[k - 1] };
                if setting.to_bits() == f64::to_bits(v) {
                    break;
                }
                *setting = v;
                list.push(c);
            }
        }
    }
    list
}

pub fn smallest(case: &Case) -> String {
    let mut best = case.clone();
    for _ in 0..400 {
        match simpler(&best).into_iter().find(|c| differs(c).is_some()) {
            Some(c) => best = c,
            None => break,
        }
    }
    format!("  smallest found: {}\n{}", differs(&best).unwrap_or_default(), text(&best))
}
