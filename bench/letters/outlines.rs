//! Letter shapes: the outlines of outlines.txt, their edges coloured by corners.

pub type Point = [f64; 2];

/// A line or a curve by its two, three or four points, and the channels that it has.
#[derive(Clone, Debug)]
pub struct Edge {
    pub points: Vec<Point>,
    pub colour: u8,
}

pub struct Letter {
    pub name: char,
    pub contours: Vec<Vec<Edge>>,
}

const WHITE: u8 = 7;
/// The sine of the angle, three radians, up to which a joint is smooth, and the colour before the first: both msdfgen's.
const BEND: f64 = 0.141_120_008_059_867_2;
const BEFORE: u8 = 6;

/// All letters, in the file's order.
pub fn letters() -> Vec<Letter> {
    let mut letters: Vec<Letter> = Vec::new();
    for line in include_str!("outlines.txt").lines().filter(|line| !line.is_empty() && !line.starts_with('#')) {
        match line.strip_prefix("glyph ") {
            Some(name) => letters.push(Letter { name: name.parse().expect("one character"), contours: vec![] }),
            None => letters.last_mut().expect("a glyph's name first").contours.push(contour(line)),
        }
    }
    letters.iter_mut().for_each(colour);
    letters
}

fn contour(line: &str) -> Vec<Edge> {
    let mut words = line.split(' ');
    let mut edges: Vec<Edge> = Vec::new();
    let (mut start, mut last) = ([0.0; 2], [0.0; 2]);
    while let Some(word) = words.next() {
        let mut number = || words.next().and_then(|n| n.parse().ok()).unwrap_or_else(|| panic!("a number after {word} in: {line}"));
        let mut points: Vec<Point> = vec![last];
        points.extend((0..["M", "L", "Q", "C"].iter().position(|&w| w == word).expect("a letter of the path").max(1)).map(|_| [number(), number()]));
        last = points[points.len() - 1];
        if word == "M" {
            start = last;
        } else {
            edges.push(Edge { points, colour: WHITE });
        }
    }
    if last != start {
        edges.push(Edge { points: vec![last, start], colour: WHITE });
    }
    edges
}

/// The direction from one point to another, of length 1.
fn towards(from: Point, to: Point) -> Point {
    let (x, y) = (to[0] - from[0], to[1] - from[1]);
    let length = x.hypot(y);
    [x / length, y / length]
}

/// Whether the way turns sharply from the end of one edge to the start of the next.
fn is_corner(before: &Edge, after: &Edge) -> bool {
    let (p, q) = (&before.points, &after.points);
    let (a, b) = (towards(p[p.len() - 2], p[p.len() - 1]), towards(q[0], q[1]));
    a[0] * b[0] + a[1] * b[1] <= 0.0 || (a[0] * b[1] - a[1] * b[0]).abs() > BEND
}

fn next(colour: u8) -> u8 {
    (colour << 1 | colour >> 2) & WHITE
}

/// The colour of the last run of a contour, which lies between these two.
fn between(before: u8, first: u8) -> u8 {
    let shared = before & first;
    if shared.count_ones() == 1 { WHITE ^ shared } else { next(before) }
}

/// msdfgen's simple colouring with the seed 0: runs of edges between corners take two channels each, and one of them changes at a corner. With one corner the
/// run is cut in three, the middle of all channels. A contour without corners has all channels throughout.
fn colour(letter: &mut Letter) {
    let mut colour = BEFORE;
    for contour in &mut letter.contours {
        let count = contour.len();
        let corners: Vec<usize> = (0..count).filter(|&k| is_corner(&contour[(k + count - 1) % count], &contour[k])).collect();
        match corners[..] {
            [] => {}
            [corner] => {
                assert!(count >= 3, "{}: an edge would have to be cut", letter.name);
                let first = next(colour);
                colour = next(first);
                for k in 0..count {
                    let third = 2.875 * k as f64 / (count - 1) as f64 - 1.4375;
                    contour[(corner + k) % count].colour = [first, WHITE, colour][(third.round() + 1.0) as usize];
                }
            }
            _ => {
                let first = next(colour);
                for (run, &corner) in corners.iter().enumerate() {
                    colour = if run > 0 && run + 1 == corners.len() { between(colour, first) } else { next(colour) };
                    let end = corners.get(run + 1).map_or(corners[0] + count, |&k| k);
                    (corner..end).for_each(|k| contour[k % count].colour = colour);
                }
            }
        }
    }
}
