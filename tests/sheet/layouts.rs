//! Where the cells of a sheet lie: in grids, in what splits of a sheet leave, scattered, as single texels, as rows or columns, far apart, or none at all.

use crate::rng::Rng;
use crate::sheet::Area;

pub struct Layout {
    pub kind: &'static str,
    pub width: usize,
    pub height: usize,
    pub areas: Vec<Area>,
}

fn area(x: usize, y: usize, width: usize, height: usize) -> Area {
    Area { x, y, width, height }
}

/// The cells of columns and rows of these widths and heights, which touch, the first of them at `x`, `y`.
fn tiles(x: usize, y: usize, widths: &[usize], heights: &[usize]) -> Vec<Area> {
    let mut areas = Vec::new();
    let mut row = y;
    for &height in heights {
        let mut column = x;
        for &width in widths {
            areas.push(area(column, row, width, height));
            column += width;
        }
        row += height;
    }
    areas
}

/// A grid with a margin before and after it, which is often nothing.
fn grid(rng: &mut Rng, widths: &[usize], heights: &[usize]) -> Layout {
    let margin = |rng: &mut Rng| if rng.one_in(3) { rng.below(4) } else { 0 };
    let (x, y) = (margin(rng), margin(rng));
    let mut areas = tiles(x, y, widths, heights);
    if rng.one_in(3) {
        areas.retain(|_| !rng.one_in(4));
    }
    let (width, height) = (x + widths.iter().sum::<usize>() + margin(rng), y + heights.iter().sum::<usize>() + margin(rng));
    Layout { kind: "grid", width, height, areas }
}

/// A side of a cell in a grid.
fn side(rng: &mut Rng) -> usize {
    let most = if rng.one_in(6) { 20 } else { 8 };
    1 + rng.below(most)
}

fn even(rng: &mut Rng) -> Layout {
    let (columns, rows) = (1 + rng.below(5), 1 + rng.below(4));
    let (width, height) = (side(rng), side(rng));
    grid(rng, &vec![width; columns], &vec![height; rows])
}

fn uneven(rng: &mut Rng) -> Layout {
    let (columns, rows) = (1 + rng.below(4), 1 + rng.below(4));
    let widths: Vec<usize> = (0..columns).map(|_| side(rng)).collect();
    let heights: Vec<usize> = (0..rows).map(|_| side(rng)).collect();
    grid(rng, &widths, &heights)
}

/// What is left of an area that is split in two, and again; some of the parts are drawn in a little.
fn split(rng: &mut Rng, a: Area, areas: &mut Vec<Area>) {
    if a.width * a.height > 1 && !rng.one_in(if a.width * a.height > 60 { 12 } else { 3 }) {
        if a.height == 1 || (a.width > 1 && rng.one_in(2)) {
            let at = 1 + rng.below(a.width - 1);
            split(rng, area(a.x, a.y, at, a.height), areas);
            split(rng, area(a.x + at, a.y, a.width - at, a.height), areas);
        } else {
            let at = 1 + rng.below(a.height - 1);
            split(rng, area(a.x, a.y, a.width, at), areas);
            split(rng, area(a.x, a.y + at, a.width, a.height - at), areas);
        }
        return;
    }
    if rng.one_in(8) {
        return;
    }
    let mut b = a;
    if rng.one_in(4) {
        let (left, below) = (rng.below(b.width.min(2)), rng.below(b.height.min(2)));
        (b.x, b.y, b.width, b.height) = (b.x + left, b.y + below, b.width - left, b.height - below);
        (b.width, b.height) = (b.width - rng.below(b.width.min(2)), b.height - rng.below(b.height.min(2)));
    }
    areas.push(b);
}

fn splits(rng: &mut Rng) -> Layout {
    let (width, height) = (1 + rng.below(24), 1 + rng.below(24));
    let mut areas = Vec::new();
    split(rng, area(0, 0, width, height), &mut areas);
    Layout { kind: "splits", width, height, areas }
}

/// Puts cells where there is room, `tries` times.
fn scatter(rng: &mut Rng, width: usize, height: usize, most: usize, tries: usize, areas: &mut Vec<Area>) {
    for _ in 0..tries {
        let (w, h) = (1 + rng.below(most.min(width)), 1 + rng.below(most.min(height)));
        let a = area(rng.below(width - w + 1), rng.below(height - h + 1), w, h);
        if areas.iter().all(|b| !b.meets(a)) {
            areas.push(a);
        }
    }
}

fn scattered(rng: &mut Rng) -> Layout {
    let (width, height) = (4 + rng.below(22), 4 + rng.below(22));
    let (most, tries) = (1 + rng.below(9), 1 + rng.below(14));
    let mut areas = Vec::new();
    scatter(rng, width, height, most, tries, &mut areas);
    Layout { kind: "scattered", width, height, areas }
}

fn singles(rng: &mut Rng) -> Layout {
    let (width, height, every) = (1 + rng.below(8), 1 + rng.below(8), 1 + rng.below(3));
    let mut areas = tiles(0, 0, &vec![1; width], &vec![1; height]);
    areas.retain(|a| if every == 3 { (a.x + a.y) % 2 == 0 } else { rng.one_in(every) });
    Layout { kind: "single texels", width, height, areas }
}

/// Rows, whole or cut somewhere; or columns.
fn thin(rng: &mut Rng) -> Layout {
    let (length, count) = (16 + rng.below(100), 1 + rng.below(5));
    let mut areas = Vec::new();
    for row in 0..count {
        let cut = if rng.one_in(2) { rng.below(length) } else { 0 };
        areas.extend([area(0, row, cut, 1), area(cut, row, length - cut, 1)].into_iter().filter(|a| a.width > 0));
    }
    Layout { kind: "rows or columns", width: length, height: count, areas }
}

fn far_apart(rng: &mut Rng) -> Layout {
    let (width, height) = (rng.pick(&[4096, 1500, 4095, 210]), 1 + rng.below(3));
    let (w, h) = (1 + rng.below(5), 1 + rng.below(height));
    let mut areas = vec![area(0, 0, w, h), area(width - w, height - h, w, h)];
    scatter(rng, width, height, 6, 3, &mut areas);
    Layout { kind: "far apart", width, height, areas }
}

/// The cells of a square of 64 by 64, each so large.
pub fn most(width: usize, height: usize) -> Layout {
    Layout { kind: "4,096 cells", width: 64 * width, height: 64 * height, areas: tiles(0, 0, &[width; 64], &[height; 64]) }
}

/// One cell, the sheet.
pub fn whole(width: usize, height: usize) -> Layout {
    Layout { kind: "whole", width, height, areas: vec![area(0, 0, width, height)] }
}

pub fn none(width: usize, height: usize) -> Layout {
    Layout { kind: "no cells", width, height, areas: vec![] }
}

/// A cell each for the texels of one row.
pub fn row(width: usize) -> Layout {
    Layout { kind: "single texels", width, height: 1, areas: tiles(0, 0, &vec![1; width], &[1]) }
}

pub fn transposed(mut l: Layout) -> Layout {
    (l.width, l.height) = (l.height, l.width);
    l.areas = l.areas.iter().map(|a| area(a.y, a.x, a.height, a.width)).collect();
    l
}

/// The areas in an order of their own.
pub fn shuffled(rng: &mut Rng, count: usize) -> Vec<usize> {
    let mut order: Vec<usize> = (0..count).collect();
    for k in (1..count).rev() {
        order.swap(k, rng.below(k + 1));
    }
    order
}

pub fn layout(rng: &mut Rng) -> Layout {
    let mut l = match rng.below(100) {
        0..=1 => none(1 + rng.below(9), 1 + rng.below(9)),
        2..=7 => whole(1 + rng.below(20), 1 + rng.below(20)),
        8..=30 => even(rng),
        31..=48 => uneven(rng),
        49..=70 => splits(rng),
        71..=84 => scattered(rng),
        85..=89 => singles(rng),
        90..=96 => thin(rng),
        97 if rng.one_in(10) => most(1 + rng.below(2), 1 + rng.below(2)),
        _ => far_apart(rng),
    };
    if rng.one_in(2) {
        l = transposed(l);
    }
    if rng.one_in(2) {
        l.areas = shuffled(rng, l.areas.len()).into_iter().map(|k| l.areas[k]).collect();
    }
    l
}
