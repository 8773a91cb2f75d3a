//! Glyph-like fields: polygons with coloured edges and their true multi-channel distances, with noise and inverted texels where asked for.

use crate::rng::Rng;

/// Contours of edges, each a colour and a start in pixel units; an edge ends where the next one starts.
pub struct Glyph {
    pub contours: Vec<Vec<(u8, f64, f64)>>,
}

fn ring(rng: &mut Rng, cx: f64, cy: f64, radius: f64, corners: usize, inner: f64, turn: f64) -> Vec<(u8, f64, f64)> {
    let first = rng.below(3);
    (0..corners)
        .map(|i| {
            let angle = turn * std::f64::consts::TAU * (i as f64 + 0.3 * rng.unit()) / corners as f64;
            let r = radius * if i % 2 == 1 { inner } else { 1.0 };
            let colour = if rng.one_in(12) { 7 } else { [3, 6, 5][(i + first) % 3] };
            (colour, cx + r * angle.cos(), cy + r * angle.sin())
        })
        .collect()
}

/// One or two outer rings, and perhaps a hole that turns the other way.
pub fn glyph(rng: &mut Rng, width: usize, height: usize) -> Glyph {
    let (w, h) = (width as f64, height as f64);
    let radius = 0.5 * w.min(h);
    let mut contours = Vec::new();
    for _ in 0..1 + rng.below(2) {
        let (cx, cy) = (w * (0.35 + 0.3 * rng.unit()), h * (0.35 + 0.3 * rng.unit()));
        let corners = 3 + rng.below(8);
        let inner = 0.4 + 0.6 * rng.unit();
        let r = radius * (0.5 + 0.5 * rng.unit());
        contours.push(ring(rng, cx, cy, r, corners, inner, 1.0));
    }
    if rng.one_in(2) {
        let corners = 3 + rng.below(5);
        contours.push(ring(rng, 0.5 * w, 0.5 * h, 0.3 * radius, corners, 1.0, -1.0));
    }
    Glyph { contours }
}

/// The signed distance to an edge, how far its nearest point lies from square on, and the signed distance to its line.
fn edge_distance(p: (f64, f64), a: (f64, f64), b: (f64, f64)) -> (f64, f64, f64) {
    let (ex, ey) = (b.0 - a.0, b.1 - a.1);
    let (px, py) = (p.0 - a.0, p.1 - a.1);
    let length = (ex * ex + ey * ey).sqrt().max(1e-9);
    let line = (ex * py - ey * px) / length;
    let along = (px * ex + py * ey) / (length * length);
    if (0.0..=1.0).contains(&along) {
        return (line, 0.0, line);
    }
    let (qx, qy) = if along < 0.0 { (px, py) } else { (p.0 - b.0, p.1 - b.1) };
    let far = (qx * qx + qy * qy).sqrt();
    let square_on = if far > 0.0 { ((ex * qx + ey * qy) / (length * far)).abs() } else { 0.0 };
    (if line < 0.0 { -far } else { far }, square_on, line)
}

/// The field with `range` pixels from 0 to 1. A channel is the distance to the line of the nearest edge that has its colour;
/// the fourth is the distance to the nearest edge of any colour.
pub fn field(glyph: &Glyph, width: usize, height: usize, channels: usize, range: f64) -> Vec<f32> {
    let mut edges = Vec::new();
    for contour in &glyph.contours {
        for (i, &(colour, x, y)) in contour.iter().enumerate() {
            let (_, ex, ey) = contour[(i + 1) % contour.len()];
            edges.push((colour, (x, y), (ex, ey)));
        }
    }
    let mut samples = Vec::with_capacity(width * height * channels);
    for y in 0..height {
        for x in 0..width {
            let p = (x as f64 + 0.5, y as f64 + 0.5);
            let mut best = [(f64::INFINITY, 0.0, 0.0); 4];
            for &(colour, a, b) in &edges {
                let (d, square_on, line) = edge_distance(p, a, b);
                for (c, best) in best.iter_mut().enumerate().take(channels) {
                    let nearer = d.abs() < best.0 || (d.abs() == best.0 && square_on < best.1);
                    if nearer && (c == 3 || colour & (1 << c) != 0) {
                        *best = (d.abs(), square_on, if c == 3 { d } else { line });
                    }
                }
            }
            for best in best.iter().take(channels) {
                let d = if best.0.is_finite() { best.2 } else { -range };
                samples.push((0.5 + d / range).clamp(-1000.0, 1000.0) as f32);
            }
        }
    }
    samples
}

/// Adds up to `amount` either way to each sample.
pub fn noise(rng: &mut Rng, samples: &mut [f32], amount: f64) {
    for v in samples {
        *v += (amount * (2.0 * rng.unit() - 1.0)) as f32;
    }
}

/// Turns one texel in `every` inside out, all channels or one of them.
pub fn invert(rng: &mut Rng, samples: &mut [f32], channels: usize, every: usize) {
    for texel in samples.chunks_mut(channels) {
        if rng.one_in(every) {
            let one = rng.below(6);
            for (c, v) in texel.iter_mut().enumerate() {
                if one >= 3 || one == c {
                    *v = 1.0 - *v;
                }
            }
        }
    }
}
