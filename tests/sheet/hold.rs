//! What a sheet has to come back as, and the proved function held to it: once as it is, and where it is accepted with its cells in another order, with one cell's
//! samples changed, with those outside every cell changed, and with another room.

use crate::call::{check, correct, safe_is_same, Answer, Lent};
use crate::checks;
use crate::judge::{self, CORNER, ERROR, PROTECTED};
use crate::layouts::shuffled;
use crate::rng::Rng;
use crate::rooms;
use crate::seen::{Kind, Seen};
use crate::sheet::{Area, Sheet};
use crate::sheets::spoil_outside;
use crate::sides::{self, between, bits, by_engine, compare, guarded, is_sample_guard, sample_guard, unguarded, Engine, CELL_GUARD};

pub struct Outcome {
    pub answer: Answer,
    pub samples: Vec<f32>,
    pub stencil: Vec<u8>,
    pub room: Vec<f32>,
}

/// How many of each were compared.
#[derive(Default)]
pub struct Totals {
    sheets: u64,
    accepted: u64,
    cells: u64,
    texels: u64,
    outside: u64,
    protected: u64,
    corner: u64,
    flagged: u64,
    tests: u64,
    calls: u64,
    refused: std::collections::BTreeMap<u8, u64>,
    /// Over the cells cut out.
    alone: sides::Totals,
}

impl Totals {
    pub fn print(&self, name: &str) {
        println!(
            "{name}: {} sheets, {} accepted with {} cells, {} texels in them and {} outside, {} protected, {} of these by a corner, {} flagged, {} range tests; {} calls of each function",
            self.sheets, self.accepted, self.cells, self.texels, self.outside, self.protected, self.corner, self.flagged, self.tests, self.calls
        );
        let refused: Vec<String> = self.refused.iter().map(|(number, count)| format!("{number}: {count}")).collect();
        println!("refused {}", if refused.is_empty() { "none".into() } else { refused.join(", ") });
        println!("cells cut out: {}; zeros whose sign differs from the original's: {}", self.alone.sides(), self.alone.zero_signs);
    }
}

/// The proved function, with guard elements on both sides of each slice that it may write; its checks alone answer the same, and their safe names.
pub fn by_library(s: &Sheet, totals: &mut Totals) -> Result<Outcome, String> {
    totals.calls += 1;
    let (mut samples, mut stencil, mut room) = (guarded(&s.samples, sample_guard()), guarded(&s.stencil, CELL_GUARD), guarded(&s.room, sample_guard()));
    let answer = correct(s.size(), between(&mut samples), between(&mut stencil), between(&mut room), s.given());
    let checked = check(s.size(), &s.samples, &s.stencil, &s.room, s.given());
    if checked != (Answer { refusal: answer.refusal, cell: answer.cell, place: answer.place, ..Answer::default() }) {
        return Err(format!("{answer:?}, the checks alone {checked:?}"));
    }
    let samples = unguarded(samples, is_sample_guard, "samples")?;
    let stencil = unguarded(stencil, |&byte| byte == CELL_GUARD, "stencil")?;
    let room = unguarded(room, is_sample_guard, "room")?;
    let lent = Lent { samples: &s.samples, stencil: &s.stencil, room: &s.room };
    if !safe_is_same(s.size(), lent, s.given(), answer, Lent { samples: &samples, stencil: &stencil, room: &room }) {
        return Err(format!("{answer:?}, and another by the safe name"));
    }
    Ok(Outcome { answer, samples, stencil, room })
}

/// A refusal: what was there, and no counts.
fn refused(s: &Sheet, refusal: u8, cell: usize, place: usize) -> Outcome {
    let answer = Answer { refusal, cell, place, ..Answer::default() };
    Outcome { answer, samples: s.samples.clone(), stencil: s.stencil.clone(), room: s.room.clone() }
}

/// The number of cell c's own check that fails, if one does.
fn own_refusal(s: &Sheet, c: usize) -> u8 {
    let mut case = s.alone(c);
    judge::judge(&case.input, &mut case.samples, &mut case.stencil, &mut case.room, &mut judge::Seen::new()).refusal
}

/// Which kind of a cell's own refusal it is.
fn count_own(s: &Sheet, answer: &Answer, seen: &mut Seen) {
    use Kind::*;
    let (number, c, place) = (answer.refusal, answer.cell, answer.place);
    let names = if c == 0 { [First5, First6, First7, First8, First9] } else { [Later5, Later6, Later7, Later8, Later9] };
    seen.hit(names[number as usize - 5]);
    let (a, runs) = (s.area(c), s.runs(c));
    seen.hit_if(number == 6 && s.texels(a)[place / s.channels] != place / s.channels, Place6);
    seen.hit_if(number == 8 && runs[4] > 0, Place8);
    seen.hit_if(number == 9 && runs[0] > 0, Place9);
    let later = |d: usize| (1..number).contains(&own_refusal(s, d));
    seen.hit_if(s.count() < 100 && (c + 1..s.count()).any(later), OrderEarlier);
}

/// What the sheet has to come back as: every cell cut out, corrected by every side that is there, all of which agree, and pasted back.
pub fn expected(s: &Sheet, seen: &mut Seen, totals: &mut Totals) -> Result<Outcome, String> {
    if let Some((number, cell)) = checks::failure(s, seen) {
        let own = |c: usize| checks::fits(s, c) && own_refusal(s, c) > 0;
        seen.hit_if(number == 53 && s.count() < 100 && (0..s.count()).any(own), Kind::Order53AndOwn);
        seen.hit_if(number == 60 && s.count() < 100 && (0..s.count()).any(own), Kind::Order60AndOwn);
        return Ok(refused(s, number, cell, 0));
    }
    let mut left = Outcome { answer: Answer::default(), samples: s.samples.clone(), stencil: vec![0; s.stencil.len()], room: vec![0.0; s.room.len()] };
    let sum = &mut left.answer;
    let mut with = [0; 4];
    for c in 0..s.count() {
        let case = s.alone(c);
        let own = compare(&case, &mut judge::Seen::new(), &mut totals.alone).map_err(|what| format!("cell {c} alone: {what}"))?;
        let a = own.answer;
        if a.refusal != 0 {
            let outcome = refused(s, a.refusal, c, a.place);
            count_own(s, &outcome.answer, seen);
            return Ok(outcome);
        }
        let n = s.channels;
        for (at, k) in s.texels(s.area(c)).into_iter().enumerate() {
            left.samples[k * n..(k + 1) * n].copy_from_slice(&own.samples[at * n..(at + 1) * n]);
            left.stencil[k] = own.stencil[at];
        }
        for (of, count) in with.iter_mut().zip([a.protected, a.error, a.corner, a.tests]) {
            *of += usize::from(count > 0);
        }
        sum.protected += a.protected;
        sum.error += a.error;
        sum.corner += a.corner;
        sum.tests += a.tests;
    }
    for (of, kind) in with.into_iter().zip([Kind::TwoProtected, Kind::TwoError, Kind::TwoCorner, Kind::TwoTests]) {
        seen.hit_if(of > 1, kind);
    }
    Ok(left)
}

/// The sheet came back as it has to, to the bit.
fn same(ours: &Outcome, due: &Outcome) -> Result<(), String> {
    if ours.answer != due.answer {
        return Err(format!("{:?}, expected {:?}", ours.answer, due.answer));
    }
    if let Some(k) = (0..due.stencil.len()).find(|&k| ours.stencil[k] != due.stencil[k]) {
        return Err(format!("byte {k} of the stencil is {}, expected {}", ours.stencil[k], due.stencil[k]));
    }
    if let Some(k) = (0..due.samples.len()).find(|&k| ours.samples[k].to_bits() != due.samples[k].to_bits()) {
        return Err(format!("sample {k} is {:08X}, expected {:08X}", ours.samples[k].to_bits(), due.samples[k].to_bits()));
    }
    if let Some(k) = (0..due.room.len()).find(|&k| ours.room[k].to_bits() != due.room[k].to_bits()) {
        return Err(format!("element {k} of the room is {:08X}, expected {:08X}", ours.room[k].to_bits(), due.room[k].to_bits()));
    }
    Ok(())
}

/// What kinds of cells an accepted sheet has.
fn count_cells(s: &Sheet, seen: &mut Seen) {
    use Kind::*;
    for c in 0..s.count() {
        let (a, runs) = (s.area(c), s.runs(c));
        seen.hit([Mode0, Mode1, Mode2, Mode3][s.modes[c] as usize]);
        seen.hit_if(a.width == 1 && a.height == 1, OneTexel);
        seen.hit_if(a.width.min(a.height) == 1 && a.width.max(a.height) >= 16, Thin);
        seen.hit_if(c > 0 && s.settings[4 * c - 4..4 * c] != s.settings[4 * c..4 * c + 4], OwnSettings);
        seen.hit_if(runs[1] == 0, NoOutlines);
        seen.hit_if((0..3).any(|k| runs[2 * k + 1] == 0 && runs[2 * k] > 0 && runs[2 * k] == [s.colours.len(), s.coords.len(), s.ends.len()][k]), RunAtEnd);
        seen.hit_if(runs.into_iter().all(|n| n > 0), RunLater);
        if s.count() <= 100 {
            let earlier: Vec<_> = (0..c).map(|d| s.runs(d)).filter(|_| runs[1] > 0).collect();
            seen.hit_if(earlier.contains(&runs), RunsShared);
            let in_part = |r: &[usize; 6]| r[0] != runs[0] && r[0] < runs[0] + runs[1] && runs[0] < r[0] + r[1];
            seen.hit_if(earlier.iter().any(in_part), RunsOverlap);
        }
    }
}

/// How two cells touch.
fn count_pair(a: Area, b: Area, seen: &mut Seen) {
    let meet = |p: usize, n: usize, q: usize, m: usize| p < q + m && q < p + n;
    let touch = |p: usize, n: usize, q: usize, m: usize| p + n == q || q + m == p;
    let (columns, rows) = (meet(a.x, a.width, b.x, b.width), meet(a.y, a.height, b.y, b.height));
    let (beside, above) = (touch(a.x, a.width, b.x, b.width), touch(a.y, a.height, b.y, b.height));
    seen.hit_if((columns && above) || (rows && beside), Kind::TouchSide);
    seen.hit_if(beside && above, Kind::TouchCorner);
    seen.hit_if(a.x.abs_diff(b.x) > 100 || a.y.abs_diff(b.y) > 100, Kind::FarApart);
}

/// What kind of sheet an accepted one is, and what came of it at its cells' edges.
fn count_sheet(s: &Sheet, due: &Outcome, seen: &mut Seen, totals: &mut Totals) {
    use Kind::*;
    let holders = s.holders();
    let whole = Area { x: 0, y: 0, width: s.width, height: s.height };
    seen.hit(if s.channels == 3 { Channels3 } else { Channels4 });
    seen.hit_if(s.count() == 0, NoCells);
    seen.hit_if(s.count() == 1 && s.area(0) == whole, Whole);
    seen.hit_if(s.count() == 4096, MostCells);
    seen.hit_if(s.width == 4096 || s.height == 4096, SideLimit);
    seen.hit_if((0..s.count()).all(|c| s.runs(c)[0] + s.runs(c)[1] < s.colours.len()), ListsLonger);
    seen.hit(if s.room.len() == 2 * s.width { RoomExact } else { RoomLonger });
    seen.hit_if(s.room.iter().any(|v| v.is_nan()), RoomNan);
    let outside = |k: &usize| holders[*k].is_none();
    let beyond: Vec<f32> = (0..holders.len()).filter(outside).flat_map(|k| s.samples_of(&[k])).collect();
    seen.hit_if(beyond.iter().any(|v| v.is_nan()), OutsideNan);
    seen.hit_if(beyond.iter().any(|v| v.abs() > 1_048_576.0), OutsideHuge);
    seen.hit_if((0..holders.len()).filter(outside).any(|k| s.stencil[k] != 0), OutsideByte);
    count_cells(s, seen);
    for c in 0..s.count().min(50) {
        (0..c).for_each(|d| count_pair(s.area(c), s.area(d), seen));
    }
    for k in (0..holders.len()).filter(|&k| due.stencil[k] & ERROR != 0) {
        let (x, y) = (k % s.width, k / s.width);
        let beside = [(x > 0).then(|| k - 1), (x + 1 < s.width).then_some(k + 1), (y > 0).then(|| k - s.width), (y + 1 < s.height).then_some(k + s.width)];
        seen.hit_if(beside.into_iter().flatten().any(|b| holders[b].is_some() && holders[b] != holders[k]), FlagBesideCell);
        seen.hit_if(beside.into_iter().flatten().any(|b| holders[b].is_none()), FlagBesideOutside);
    }
    totals.accepted += 1;
    totals.cells += s.count() as u64;
    totals.texels += holders.iter().flatten().count() as u64;
    totals.outside += holders.iter().filter(|h| h.is_none()).count() as u64;
    totals.protected += due.answer.protected as u64;
    totals.corner += due.answer.corner as u64;
    totals.flagged += due.answer.error as u64;
    totals.tests += due.answer.tests as u64;
    let bit = |bit: u8| due.stencil.iter().filter(|&&byte| byte & bit != 0).count();
    assert!([bit(PROTECTED), bit(ERROR), bit(CORNER)] == [due.answer.protected, due.answer.error, due.answer.corner], "the counts are those of the stencil");
}

/// Whether a pass that saw one texel around the cell would flag or protect others: so that a window that is too large can be told.
fn count_around(s: &Sheet, c: usize, due: &Outcome, seen: &mut Seen) {
    let a = s.area(c);
    let (left, below) = (a.x.min(1), a.y.min(1));
    let (width, height) = ((a.width + left + 1).min(s.width - a.x + left), (a.height + below + 1).min(s.height - a.y + below));
    let around = Area { x: a.x - left, y: a.y - below, width, height };
    let mut case = s.alone_in(c, around);
    for (k, v) in case.input.coords.iter_mut().enumerate() {
        *v += [left, below][k % 2] as f64;
    }
    let Ok(other) = by_engine(Engine::First, &case) else { return };
    if around == a || other.answer.refusal != 0 {
        return;
    }
    for (at, k) in s.texels(around).into_iter().enumerate() {
        let (x, y) = (k % s.width, k / s.width);
        if (a.x..a.x + a.width).contains(&x) && (a.y..a.y + a.height).contains(&y) {
            let differ = other.stencil[at] ^ due.stencil[k];
            seen.hit_if(differ & ERROR != 0, Kind::FlagOther);
            seen.hit_if(differ & PROTECTED != 0, Kind::ProtectedOther);
        }
    }
}

/// The cells in another order: the same sheet, stencil and counts.
fn hold_order(s: &Sheet, due: &Outcome, rng: &mut Rng, seen: &mut Seen, totals: &mut Totals) -> Result<(), String> {
    if s.count() < 2 {
        return Ok(());
    }
    let order = if rng.one_in(4) { (0..s.count()).rev().collect() } else { shuffled(rng, s.count()) };
    same(&by_library(&s.ordered(&order), totals)?, due).map_err(|what| format!("cells in another order: {what}"))?;
    seen.hit(Kind::OtherOrder);
    Ok(())
}

/// The samples of one cell changed: nothing beyond it is.
fn hold_changed(s: &Sheet, due: &Outcome, rng: &mut Rng, seen: &mut Seen, totals: &mut Totals) -> Result<(), String> {
    if s.count() == 0 {
        return Ok(());
    }
    let c = rng.below(s.count());
    let mut other = s.clone();
    let mut samples = s.alone(c).samples;
    for texel in samples.chunks_mut(s.channels) {
        match rng.below(4) {
            0 => texel.iter_mut().for_each(|v| *v = (1.0 - *v).clamp(-1_048_576.0, 1_048_576.0)),
            1 => texel.iter_mut().for_each(|v| *v = rng.unit() as f32),
            2 => texel.swap(0, 1),
            _ => {}
        }
    }
    other.paste(s.area(c), &samples);
    let ours = by_library(&other, totals)?;
    if ours.answer.refusal != 0 {
        return Err(format!("cell {c} changed: {:?}", ours.answer));
    }
    let holders = s.holders();
    let mut flags = false;
    for k in 0..holders.len() {
        if holders[k] == Some(c) {
            flags |= ours.stencil[k] != due.stencil[k];
            continue;
        }
        let texel = k * s.channels..(k + 1) * s.channels;
        if ours.stencil[k] != due.stencil[k] || bits(&ours.samples[texel.clone()]) != bits(&due.samples[texel]) {
            return Err(format!("cell {c} changed, and texel {k} of {:?} with it", holders[k]));
        }
    }
    seen.hit_if(flags && s.count() > 1, Kind::ChangedCell);
    Ok(())
}

/// The samples outside every cell changed: no cell is, and they stay.
fn hold_outside(s: &Sheet, due: &Outcome, rng: &mut Rng, seen: &mut Seen, totals: &mut Totals) -> Result<(), String> {
    let mut other = s.clone();
    spoil_outside(rng, &mut other);
    if bits(&other.samples) == bits(&s.samples) {
        return Ok(());
    }
    let (holders, n) = (s.holders(), s.channels);
    let samples = (0..s.samples.len()).map(|j| if holders[j / n].is_some() { due.samples[j] } else { other.samples[j] }).collect();
    let due = Outcome { answer: due.answer, samples, stencil: due.stencil.clone(), room: due.room.clone() };
    same(&by_library(&other, totals)?, &due).map_err(|what| format!("samples outside changed: {what}"))?;
    seen.hit(Kind::ChangedOutside);
    Ok(())
}

/// Another room, of another length or with something else in it: the same sheet.
fn hold_room(s: &Sheet, due: &Outcome, rng: &mut Rng, seen: &mut Seen, totals: &mut Totals) -> Result<(), String> {
    let length = rooms::enough(rng, s.width);
    let other = Sheet { room: rooms::dirty(rng, length), ..s.clone() };
    let due = Outcome { answer: due.answer, samples: due.samples.clone(), stencil: due.stencil.clone(), room: vec![0.0; length] };
    same(&by_library(&other, totals)?, &due).map_err(|what| format!("another room: {what}"))?;
    seen.hit(Kind::OtherRoom);
    Ok(())
}

/// Holds the proved function to what the sheet has to come back as.
pub fn hold(s: &Sheet, rng: &mut Rng, seen: &mut Seen, totals: &mut Totals) -> Result<(), String> {
    totals.sheets += 1;
    let due = expected(s, seen, totals)?;
    same(&by_library(s, totals)?, &due)?;
    if due.answer.refusal != 0 {
        *totals.refused.entry(due.answer.refusal).or_default() += 1;
        return Ok(());
    }
    count_sheet(s, &due, seen, totals);
    (0..s.count().min(64)).for_each(|c| count_around(s, c, &due, seen));
    hold_order(s, &due, rng, seen, totals)?;
    hold_changed(s, &due, rng, seen, totals)?;
    hold_outside(s, &due, rng, seen, totals)?;
    hold_room(s, &due, rng, seen, totals)
}
