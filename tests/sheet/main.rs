//! Whole sheets: the proved function against each cell cut out and corrected alone, on which the original, both proved engines and the second judge agree.
//!
//! `run COUNT SEED`: every fault in small sheets and the limits, then COUNT sheets; totals, and how often each kind of sheet, cell and refusal came up. Of an accepted
//!   sheet the cells are given in another order too, the samples of one cell are changed, those outside every cell, and another room is lent.
//! `show SEED INDEX`: one sheet of a run.
//! `largest`: a sheet of 4,096 by 4,096 with cells in its corners.
//! `font STEM CELL [RANGE]`: a sheet of glyphs in four files (STEM.f32 its samples, three channels, and over the whole sheet STEM.col colours, STEM.xy coordinates as f64,
//!   STEM.end ends as u64), in cells of CELL pixels, with RANGE (default 4) pixels from 0 to 1.
//! Exit status 1 if anything differs, or a long run leaves a kind out.

mod call;
#[path = "../differential/cases.rs"]
#[allow(dead_code)]
mod cases;
mod checks;
mod faults;
mod font;
#[path = "../differential/glyphs.rs"]
mod glyphs;
mod hold;
#[path = "../judge/judge.rs"]
#[allow(dead_code)]
mod judge;
mod layouts;
#[path = "../differential/rng.rs"]
mod rng;
#[path = "../differential/rooms.rs"]
#[allow(dead_code)]
mod rooms;
#[path = "../../include/rungtwine.rs"]
mod rungtwine;
mod seen;
mod sheet;
mod sheets;
#[path = "../differential/sides.rs"]
#[allow(dead_code)]
mod sides;

use hold::{hold, Totals};
use layouts::Layout;
use rng::Rng;
use seen::{Seen, KINDS};
use sheet::{Area, Sheet};

/// A run of this many sheets has to have every kind.
const LONG: u64 = 3000;

/// A sheet in words, its samples aside.
fn text(s: &Sheet) -> String {
    let mut text = format!("  {}: size {} {} {}, {} samples, {} bytes, room for {}, {} cells", s.kind, s.width, s.height, s.channels, s.samples.len(), s.stencil.len(), s.room.len(), s.modes.len());
    text += &format!(", {} numbers, {} settings, {} colours, {} coordinates, {} ends\n", s.cells.len(), s.settings.len(), s.colours.len(), s.coords.len(), s.ends.len());
    for (c, numbers) in s.cells.chunks(10).enumerate().take(40) {
        let settings = s.settings.get(4 * c..4 * c + 4);
        text += &format!("  cell {c}: {numbers:?}, mode {:?}, settings {settings:?}\n", s.modes.get(c));
    }
    text
}

fn run(count: u64, seed: u64) -> bool {
    println!("sides: the judge, {}the first engine, the plain engine, on each cell cut out; the sheet", if cfg!(oracle) { "the original, " } else { "" });
    let (mut seen, mut totals) = (Seen::new(), Totals::default());
    let mut wrong = 0;
    let always = faults::always();
    let fixed = always.len() as u64;
    for at in 0..fixed + count {
        let sheet = if at < fixed { always[at as usize].clone() } else { faults::sheet(seed, at - fixed) };
        if let Err(what) = hold(&sheet, &mut Rng::new(seed + 1, at), &mut seen, &mut totals) {
            wrong += 1;
            if wrong <= 3 {
                let name = if at < fixed { format!("always {at}") } else { format!("seed {seed} index {}", at - fixed) };
                println!("differs ({name}): {what}\n{}", text(&sheet));
            }
        }
    }
    let missing = seen.print();
    totals.print(&format!("seed {seed}"));
    println!("{} of {} kinds came up", KINDS.len() - missing, KINDS.len());
    println!("{wrong} sheets differ");
    wrong == 0 && (count < LONG || missing == 0)
}

/// The largest sheet, with cells in its corners and its middle.
fn largest() -> bool {
    let corner = |x: usize, y: usize| Area { x, y, width: 5, height: 4 };
    let areas = vec![corner(4091, 4092), corner(0, 0), corner(4091, 0), corner(0, 4092), corner(2046, 2046), corner(2051, 2046)];
    let mut rng = Rng::new(4096, 4096);
    let sheet = sheets::sheet_of(&mut rng, Layout { kind: "largest", width: 4096, height: 4096, areas }, 4);
    let mut totals = Totals::default();
    let held = hold(&sheet, &mut rng, &mut Seen::new(), &mut totals);
    totals.print(sheet.kind);
    println!("{}", held.as_ref().err().map_or("nothing differs", |what| what));
    held.is_ok()
}

fn main() {
    let args: Vec<String> = std::env::args().skip(1).collect();
    let number = |k: usize| args.get(k).and_then(|a| a.parse::<u64>().ok());
    let good = match (args.first().map(String::as_str), number(1), number(2)) {
        (Some("run"), Some(count), Some(seed)) => run(count, seed),
        (Some("show"), Some(seed), Some(index)) => {
            println!("{}", text(&faults::sheet(seed, index)));
            true
        }
        (Some("largest"), ..) => largest(),
        (Some("font"), _, Some(cell)) => font::run(&args[1], cell as usize, args.get(3).map_or(4.0, |range| range.parse().expect("a range"))),
        _ => usage(),
    };
    std::process::exit(i32::from(!good));
}

fn usage() -> ! {
    eprintln!("usage: sheet run COUNT SEED | show SEED INDEX | largest | font STEM CELL [RANGE]");
    std::process::exit(2)
}
