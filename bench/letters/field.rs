//! Multi-channel distance fields of letter shapes, and sheets of them.

use super::outlines::{Edge, Letter, Point};

/// The outlines of a sheet have at most so many segments: the pass takes no more.
pub const SEGMENT_LIMIT: usize = 65_536;
/// Units of an em, and how much of it lies below the baseline.
const EM: f64 = 1000.0;
const BELOW: f64 = 220.0;
/// Distances that differ by less are the same: two edges' common point.
const CLOSE: f64 = 1e-9;

/// An edge in pixels as a polynomial in t from 0 to 1, with points of it on the way and a box around it.
struct Curve {
    terms: [Point; 4],
    stops: Vec<Point>,
    low: Point,
    high: Point,
    colour: u8,
}

/// How a curve is seen from a point: how far its nearest point is, how far from square on, and the distance that a channel takes, positive inside.
#[derive(Clone, Copy)]
struct Seen {
    far: f64,
    slant: f64,
    signed: f64,
}

fn minus(a: Point, b: Point) -> Point {
    [a[0] - b[0], a[1] - b[1]]
}

fn dot(a: Point, b: Point) -> f64 {
    a[0] * b[0] + a[1] * b[1]
}

impl Curve {
    fn new(edge: &Edge, place: impl Fn(Point) -> Point) -> Curve {
        let points: Vec<Point> = edge.points.iter().map(|&p| place(p)).collect();
        let axis = |k: usize| match points[..] {
            [a, b] => [a[k], b[k] - a[k], 0.0, 0.0],
            [a, b, c] => [a[k], 2.0 * (b[k] - a[k]), a[k] - 2.0 * b[k] + c[k], 0.0],
            [a, b, c, d] => [a[k], 3.0 * (b[k] - a[k]), 3.0 * (a[k] - 2.0 * b[k] + c[k]), d[k] - a[k] + 3.0 * (b[k] - c[k])],
            _ => panic!("an edge has two to four points"),
        };
        let (x, y) = (axis(0), axis(1));
        let ends = |of: fn(f64, f64) -> f64| [0, 1].map(|k| points.iter().map(|p| p[k]).reduce(of).expect("a point"));
        let mut curve = Curve { terms: [0, 1, 2, 3].map(|n| [x[n], y[n]]), stops: vec![], low: ends(f64::min), high: ends(f64::max), colour: edge.colour };
        let pieces = [1, 8, 12][points.len() - 2];
        curve.stops = (0..=pieces).map(|k| curve.at(k as f64 / pieces as f64)).collect();
        curve
    }

    fn at(&self, t: f64) -> Point {
        [0, 1].map(|k| self.terms[0][k] + t * (self.terms[1][k] + t * (self.terms[2][k] + t * self.terms[3][k])))
    }

    fn velocity(&self, t: f64) -> Point {
        [0, 1].map(|k| self.terms[1][k] + t * (2.0 * self.terms[2][k] + t * 3.0 * self.terms[3][k]))
    }

    fn acceleration(&self, t: f64) -> Point {
        [0, 1].map(|k| 2.0 * self.terms[2][k] + t * 6.0 * self.terms[3][k])
    }

    /// The square of the distance to the box.
    fn box_square(&self, p: Point) -> f64 {
        let [x, y] = [0, 1].map(|k| (self.low[k] - p[k]).max(p[k] - self.high[k]).max(0.0));
        x * x + y * y
    }

    /// Where the curve is nearest: on the straight pieces between its stops, then by Newton's method on the curve.
    fn nearest(&self, p: Point) -> f64 {
        let pieces = self.stops.len() - 1;
        let (mut least, mut t) = (f64::INFINITY, 0.0);
        for (k, stops) in self.stops.windows(2).enumerate() {
            let (way, from) = (minus(stops[1], stops[0]), minus(p, stops[0]));
            let along = (dot(from, way) / dot(way, way)).clamp(0.0, 1.0);
            let off = [from[0] - along * way[0], from[1] - along * way[1]];
            if dot(off, off) < least {
                (least, t) = (dot(off, off), (k as f64 + along) / pieces as f64);
            }
        }
        // A line is its own piece; a step that leads farther away is not taken.
        for _ in 0..if pieces > 1 { 4 } else { 0 } {
            let (off, velocity) = (minus(self.at(t), p), self.velocity(t));
            let next = (t - dot(off, velocity) / (dot(velocity, velocity) + dot(off, self.acceleration(t)))).clamp(0.0, 1.0);
            let there = minus(self.at(next), p);
            if dot(there, there) <= dot(off, off) {
                t = next;
            }
        }
        t
    }

    /// Beyond an end it is the end's tangent that counts, which makes the channels differ at a corner.
    fn seen(&self, p: Point) -> Seen {
        let t = self.nearest(p);
        let (off, velocity) = (minus(p, self.at(t)), self.velocity(t));
        let (far, speed) = (off[0].hypot(off[1]), velocity[0].hypot(velocity[1]));
        let ahead = dot(off, velocity) / speed;
        let side = (off[0] * velocity[1] - off[1] * velocity[0]) / speed;
        if (t == 0.0 && ahead < 0.0) || (t == 1.0 && ahead > 0.0) {
            Seen { far, slant: ahead.abs() / far, signed: side }
        } else {
            Seen { far, slant: 0.0, signed: far.copysign(side) }
        }
    }
}

/// Samples of three channels for size by size texels, row 0 at the bottom, with `range` pixels from 0 to 1. A channel is the distance to the nearest of its curves.
fn samples(curves: &[Curve], size: usize, range: f64) -> Vec<f32> {
    let mut samples = Vec::with_capacity(3 * size * size);
    for y in 0..size {
        let mut best = [Seen { far: f64::INFINITY, slant: 0.0, signed: 0.0 }; 3];
        for x in 0..size {
            let p = [x as f64 + 0.5, y as f64 + 0.5];
            // A step of one pixel takes no curve farther away than by one.
            best = best.map(|b| Seen { far: b.far + 1.0 + CLOSE, slant: f64::INFINITY, signed: 0.0 });
            for curve in curves {
                let (box_square, has) = (curve.box_square(p), |channel: usize| curve.colour >> channel & 1 == 1);
                if (0..3).all(|channel| !has(channel) || box_square > (best[channel].far + CLOSE).powi(2)) {
                    continue;
                }
                let seen = curve.seen(p);
                for (_, best) in best.iter_mut().enumerate().filter(|&(channel, _)| has(channel)) {
                    if seen.far < best.far - CLOSE || (seen.far <= best.far + CLOSE && seen.slant < best.slant) {
                        *best = seen;
                    }
                }
            }
            samples.extend(best.map(|b| (0.5 + b.signed / range) as f32));
        }
    }
    samples
}

/// A letter in a square cell: its samples, and its contours' segments, a colour and a start in pixels each.
#[derive(Clone)]
pub struct Cell {
    pub samples: Vec<f32>,
    pub contours: Vec<Vec<(u8, f64, f64)>>,
}

impl Cell {
    /// The em is the cell less `range` on each side, and the letter lies in its middle from left to right.
    pub fn new(letter: &Letter, size: usize, range: f64) -> Cell {
        let scale = (size as f64 - 2.0 * range) / EM;
        let across = || letter.contours.iter().flatten().flat_map(|edge| &edge.points).map(|p| p[0]);
        let middle = 0.5 * (across().fold(f64::INFINITY, f64::min) + across().fold(f64::NEG_INFINITY, f64::max));
        let place = |p: Point| [0.5 * size as f64 + scale * (p[0] - middle), range + scale * (p[1] + BELOW)];
        let curves: Vec<Curve> = letter.contours.iter().flatten().map(|edge| Curve::new(edge, place)).collect();
        let start = |edge: &Edge| {
            let [x, y] = place(edge.points[0]);
            (edge.colour, x, y)
        };
        Cell { samples: samples(&curves, size, range), contours: letter.contours.iter().map(|contour| contour.iter().map(start).collect()).collect() }
    }
}

/// Side by side cells: one letter after the other from the lower left, and after the last letter all of them mixed, so that no row repeats itself.
pub struct Sheet {
    pub cell: usize,
    pub side: usize,
    pub drawn: Vec<Cell>,
}

impl Sheet {
    pub fn new(letters: &[Letter], cell: usize, side: usize, range: f64) -> Sheet {
        Sheet { cell, side, drawn: letters.iter().take(side * side).map(|letter| Cell::new(letter, cell, range)).collect() }
    }

    /// Texels in a row.
    pub fn width(&self) -> usize {
        self.side * self.cell
    }

    /// The number of the letter in cell k.
    pub fn letter(&self, k: usize) -> usize {
        let mixed = (k as u64).wrapping_mul(0x9E37_79B9_7F4A_7C15) >> 33;
        if k < self.drawn.len() { k } else { mixed as usize % self.drawn.len() }
    }

    /// What cell k is, and its lower left corner.
    pub fn cell(&self, k: usize) -> (&Cell, usize, usize) {
        (&self.drawn[self.letter(k)], k % self.side * self.cell, k / self.side * self.cell)
    }

    pub fn samples(&self) -> Vec<f32> {
        let mut samples = vec![0.0; 3 * self.width() * self.width()];
        for k in 0..self.side * self.side {
            let (cell, x, y) = self.cell(k);
            for (row, texels) in cell.samples.chunks(3 * self.cell).enumerate() {
                samples[3 * ((y + row) * self.width() + x)..][..texels.len()].copy_from_slice(texels);
            }
        }
        samples
    }

    /// The colours, coordinates and ends of the first cells, in the sheet's pixels: of as many as the pass takes.
    pub fn outlines(&self) -> (Vec<u8>, Vec<f64>, Vec<usize>) {
        let (mut colours, mut coords, mut ends) = (vec![], vec![], vec![]);
        for k in 0..self.side * self.side {
            let (cell, left, below) = self.cell(k);
            if colours.len() + cell.contours.iter().map(Vec::len).sum::<usize>() > SEGMENT_LIMIT {
                break;
            }
            for contour in &cell.contours {
                for &(colour, x, y) in contour {
                    colours.push(colour);
                    coords.extend([x + left as f64, y + below as f64]);
                }
                ends.push(colours.len());
            }
        }
        (colours, coords, ends)
    }
}
