//! Sheets of real glyphs in four files: samples of three channels and outlines over one bitmap, in the bitmap's coordinates.

use crate::hold::{hold, Totals};
use crate::rng::Rng;
use crate::seen::Seen;
use crate::sheet::{Area, Sheet};

const CHANNELS: usize = 3;
const CELL_LIMIT: usize = 4096;

fn read<const N: usize, T>(stem: &str, ending: &str, of: fn([u8; N]) -> T) -> Vec<T> {
    let name = format!("{stem}.{ending}");
    let data = std::fs::read(&name).unwrap_or_else(|e| panic!("{name}: {e}"));
    assert!(data.len() % N == 0, "{name} is cut short");
    data.chunks_exact(N).map(|chunk| of(chunk.try_into().expect("a chunk"))).collect()
}

/// A contour's colours and coordinates.
type Contour = (Vec<u8>, Vec<f64>);

/// The contours of each cell, in its own coordinates: a contour is the cell's in which the middle of its box lies.
fn contours(stem: &str, cell: usize, side: usize) -> Vec<Vec<Contour>> {
    let colours = read(stem, "col", |[byte]: [u8; 1]| byte);
    let coords = read(stem, "xy", f64::from_le_bytes);
    let ends = read(stem, "end", u64::from_le_bytes);
    let mut cells = vec![vec![]; side * side];
    let mut start = 0;
    for end in ends {
        let end = end as usize;
        let points = &coords[2 * start..2 * end];
        let middle = |axis: usize| {
            let along = points.iter().skip(axis).step_by(2);
            let (low, high) = along.fold((f64::MAX, f64::MIN), |(low, high), &v| (low.min(v), high.max(v)));
            (((low + high) / 2.0 / cell as f64).max(0.0) as usize).min(side - 1)
        };
        let (column, row) = (middle(0), middle(1));
        let moved = points.iter().enumerate().map(|(k, v)| v - ([column, row][k % 2] * cell) as f64).collect();
        cells[row * side + column].push((colours[start..end].to_vec(), moved));
        start = end;
    }
    cells
}

/// A band of rows of cells, at most as many as a sheet may have.
fn band(samples: &[f32], cells: &[Vec<Contour>], rows: std::ops::Range<usize>, (cell, side, width): (usize, usize, usize), mode: u8, range: f64) -> Sheet {
    let height = rows.len() * cell;
    let samples = samples[rows.start * cell * width * CHANNELS..][..height * width * CHANNELS].to_vec();
    let stencil = vec![0xA5; width * height];
    let room = vec![f32::NAN; 2 * width];
    let mut sheet = Sheet { kind: "font", width, height, channels: CHANNELS, samples, stencil, room, cells: vec![], modes: vec![], settings: vec![], colours: vec![], coords: vec![], ends: vec![] };
    let step = 1.0 / range;
    for row in 0..rows.len() {
        for column in 0..side {
            let (mut colours, mut coords, mut ends) = (vec![], vec![], vec![]);
            for (own, points) in &cells[(rows.start + row) * side + column] {
                colours.extend(own);
                coords.extend(points);
                ends.push(colours.len());
            }
            let runs = sheet.append(&colours, &coords, &ends);
            let area = Area { x: column * cell, y: row * cell, width: cell, height: cell };
            sheet.push_cell(area, runs, mode, [10.0 / 9.0, step, step, std::f64::consts::SQRT_2 * step]);
        }
    }
    sheet
}

pub fn run(stem: &str, cell: usize, range: f64) -> bool {
    let samples = read(stem, "f32", f32::from_le_bytes);
    let width = (samples.len() / CHANNELS).isqrt();
    assert!(cell > 0 && width * width * CHANNELS == samples.len() && width >= cell && width <= 4096, "no square of cells");
    let side = width / cell;
    let cells = contours(stem, cell, side);
    let (mut totals, mut seen) = (Totals::default(), Seen::new());
    let mut wrong = 0;
    let at_once = CELL_LIMIT / side;
    for mode in 1..=3 {
        for first in (0..side).step_by(at_once) {
            let sheet = band(&samples, &cells, first..side.min(first + at_once), (cell, side, width), mode, range);
            if let Err(what) = hold(&sheet, &mut Rng::new(1, first as u64), &mut seen, &mut totals) {
                println!("differs (mode {mode}, cells from row {first} on): {what}");
                wrong += 1;
            }
        }
    }
    totals.print(stem);
    println!("{wrong} sheets of {stem} differ");
    wrong == 0
}
