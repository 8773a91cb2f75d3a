//! A plain reading of a sheet's own checks, 1, 50 to 53 and 60: sums have room for every sum, and two cells overlap where one texel is painted twice.
//! A cell's own checks, 5 to 9, are the second judge's over the cell alone.

use crate::seen::{Kind, Seen};
use crate::sheet::Sheet;

const SIDE_LIMIT: usize = 4096;
const CELL_LIMIT: usize = 4096;

fn sum(a: usize, b: usize) -> u128 {
    a as u128 + b as u128
}

fn bad_channels(s: &Sheet) -> Option<Kind> {
    (s.channels != 3 && s.channels != 4).then_some(Kind::Channels)
}

/// Too little, too much, or as it should be.
fn length(is: usize, should: u128, short: Kind, long: Kind) -> Option<Kind> {
    let is = is as u128;
    (is != should).then_some(if is < should { short } else { long })
}

fn bad_lengths(s: &Sheet) -> Option<Kind> {
    use Kind::*;
    for (side, zero, over) in [(s.width, Width0, WidthOver), (s.height, Height0, HeightOver)] {
        if side == 0 || side > SIDE_LIMIT {
            return Some(if side == 0 { zero } else { over });
        }
    }
    let (texels, cells) = (s.width as u128 * s.height as u128, s.modes.len() as u128);
    length(s.samples.len(), texels * s.channels as u128, SamplesShort, SamplesLong)
        .or_else(|| length(s.stencil.len(), texels, StencilShort, StencilLong))
        .or_else(|| (s.modes.len() > CELL_LIMIT).then_some(CellsOver))
        .or_else(|| length(s.cells.len(), 10 * cells, NumbersShort, NumbersLong))
        .or_else(|| length(s.settings.len(), 4 * cells, SettingsShort, SettingsLong))
}

/// Two rows of the sheet's width take more than there is.
fn bad_room(s: &Sheet) -> Option<Kind> {
    let (is, should) = (s.room.len() as u128, 2 * s.width as u128);
    (is < should).then_some(if is == 0 {
        Kind::RoomNone
    } else if is + 1 == should {
        Kind::RoomByOne
    } else {
        Kind::RoomShort
    })
}

/// How far beyond a side something ends.
fn beyond(from: usize, count: usize, side: usize, one: Kind, far: Kind, no_sum: Kind) -> Option<Kind> {
    let over = sum(from, count).checked_sub(side as u128)?;
    match over {
        0 => None,
        _ if sum(from, count) > usize::MAX as u128 => Some(no_sum),
        1 => Some(one),
        _ => Some(far),
    }
}

fn bad_area(s: &Sheet, c: usize) -> Option<Kind> {
    use Kind::*;
    let a = s.area(c);
    if a.width == 0 {
        return Some(CellWidth0);
    }
    if a.height == 0 {
        return Some(CellHeight0);
    }
    beyond(a.x, a.width, s.width, RightByOne, RightFar, RightSum).or_else(|| beyond(a.y, a.height, s.height, TopByOne, TopFar, TopSum))
}

fn bad_runs(s: &Sheet, c: usize) -> Option<Kind> {
    use Kind::*;
    let runs = s.runs(c);
    for (k, length, one) in [(0, s.colours.len(), ColoursBeyond), (2, s.coords.len(), CoordsBeyond), (4, s.ends.len(), EndsBeyond)] {
        let one = if runs[k + 1] == 0 { RunEmpty } else { one };
        if let Some(kind) = beyond(runs[k], runs[k + 1], length, one, RunFar, RunSum) {
            return Some(kind);
        }
    }
    None
}

/// Whether cell c can be cut out of a sheet whose own lengths are right: it lies inside, and its runs do.
pub fn fits(s: &Sheet, c: usize) -> bool {
    bad_channels(s).is_none() && bad_lengths(s).is_none() && bad_area(s, c).is_none() && bad_runs(s, c).is_none()
}

/// The cells that paint a texel which an earlier one has painted, and how they do. Only what lies inside the sheet is painted.
fn overlaps(s: &Sheet) -> Vec<(usize, Kind)> {
    let mut painted = vec![false; s.width * s.height];
    let mut found = Vec::new();
    for c in 0..s.count() {
        let a = s.area(c);
        let inside = |from: usize, count: usize, side: usize| from.min(side)..sum(from, count).min(side as u128) as usize;
        let (mut twice, mut all) = (0, 0);
        for row in inside(a.y, a.height, s.height) {
            for texel in &mut painted[row * s.width..(row + 1) * s.width][inside(a.x, a.width, s.width)] {
                twice += usize::from(*texel);
                all += 1;
                *texel = true;
            }
        }
        if twice > 0 {
            found.push((c, if twice == all { Kind::OverlapAll } else if twice == 1 { Kind::OverlapOne } else { Kind::OverlapSome }));
        }
    }
    found
}

/// Every cell that fails check 51, 52 or 53, and how.
fn of_cells(s: &Sheet) -> [Vec<(usize, Kind)>; 3] {
    let each = |bad: fn(&Sheet, usize) -> Option<Kind>| (0..s.count()).filter_map(|c| bad(s, c).map(|kind| (c, kind))).collect::<Vec<_>>();
    [each(bad_area), overlaps(s), each(bad_runs)]
}

/// Which kinds of order decide between what fails.
fn count_order(found: &[Vec<(usize, Kind)>; 3], seen: &mut Seen) {
    let [outside, overlap, runs] = [0, 1, 2].map(|k| found[k].len());
    seen.hit_if(outside > 0 && overlap > 0, Kind::Order51And52);
    seen.hit_if(outside > 0 && runs > 0, Kind::Order51And53);
    seen.hit_if(outside == 0 && overlap > 0 && runs > 0, Kind::Order52And53);
    seen.hit_if([outside, overlap, runs].into_iter().find(|&n| n > 0).is_some_and(|n| n > 1), Kind::OrderSame);
}

/// The number of the first of the sheet's own checks that fails, and its cell.
pub fn failure(s: &Sheet, seen: &mut Seen) -> Option<(u8, usize)> {
    if let Some(kind) = bad_channels(s) {
        seen.hit(kind);
        seen.hit_if(bad_lengths(s).is_some(), Kind::Order1And50);
        return Some((1, 0));
    }
    if let Some(kind) = bad_lengths(s) {
        seen.hit(kind);
        let whole = s.modes.len() <= s.cells.len() / 10;
        seen.hit_if(whole && (0..s.count()).any(|c| bad_area(s, c).is_some()), Kind::Order50And51);
        seen.hit_if(bad_room(s).is_some(), Kind::Order50And60);
        return Some((50, 0));
    }
    let found = of_cells(s);
    if let Some(kind) = bad_room(s) {
        seen.hit(kind);
        seen.hit_if(s.count() > 0 && (0..s.count()).all(|c| bad_area(s, c).is_none() && 2 * s.area(c).width <= s.room.len()), Kind::RoomForCells);
        for (cells, order) in found.iter().zip([Kind::Order60And51, Kind::Order60And52, Kind::Order60And53]) {
            seen.hit_if(!cells.is_empty(), order);
        }
        return Some((60, 0));
    }
    count_order(&found, seen);
    for (cells, (number, first, later)) in found.iter().zip([
        (51, Kind::OutsideFirst, Kind::OutsideLater),
        (52, Kind::OverlapNext, Kind::OverlapLater),
        (53, Kind::RunFirst, Kind::RunInLater),
    ]) {
        if let Some(&(cell, kind)) = cells.first() {
            seen.hit(kind);
            seen.hit(if cell == usize::from(number == 52) { first } else { later });
            return Some((number, cell));
        }
    }
    None
}
