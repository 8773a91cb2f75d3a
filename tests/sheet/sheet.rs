//! A sheet as it is handed over; a cell of it cut out and put back.

use crate::call::Given;
use crate::cases::{room, Case};
use crate::judge::Input;

/// Where a cell lies: the column and the row of its first texel, its width and its height.
#[derive(Clone, Copy, PartialEq, Eq, Debug)]
pub struct Area {
    pub x: usize,
    pub y: usize,
    pub width: usize,
    pub height: usize,
}

impl Area {
    /// Whether the two share a texel.
    pub fn meets(self, other: Area) -> bool {
        self.x < other.x + other.width && other.x < self.x + self.width && self.y < other.y + other.height && other.y < self.y + self.height
    }
}

/// Where an outline's runs start and how many they take: of the colours, of the coordinates and of the ends.
pub type Runs = [usize; 6];

#[derive(Clone)]
pub struct Sheet {
    pub kind: &'static str,
    pub width: usize,
    pub height: usize,
    pub channels: usize,
    pub samples: Vec<f32>,
    /// The stencil's old contents.
    pub stencil: Vec<u8>,
    /// The room's old contents.
    pub room: Vec<f32>,
    /// Ten numbers a cell: x, y, width, height, then its runs.
    pub cells: Vec<usize>,
    pub modes: Vec<u8>,
    /// Four a cell: the ratio and the three lengths.
    pub settings: Vec<f64>,
    pub colours: Vec<u8>,
    pub coords: Vec<f64>,
    pub ends: Vec<usize>,
}

impl Sheet {
    pub fn count(&self) -> usize {
        self.modes.len()
    }

    pub fn size(&self) -> (usize, usize, usize) {
        (self.width, self.height, self.channels)
    }

    pub fn given(&self) -> Given<'_> {
        Given { cells: &self.cells, modes: &self.modes, settings: &self.settings, colours: &self.colours, coords: &self.coords, ends: &self.ends }
    }

    pub fn area(&self, c: usize) -> Area {
        let n = &self.cells[10 * c..10 * c + 4];
        Area { x: n[0], y: n[1], width: n[2], height: n[3] }
    }

    pub fn set_area(&mut self, c: usize, a: Area) {
        self.cells[10 * c..10 * c + 4].copy_from_slice(&[a.x, a.y, a.width, a.height]);
    }

    pub fn runs(&self, c: usize) -> Runs {
        self.cells[10 * c + 4..10 * c + 10].try_into().expect("six numbers")
    }

    pub fn set_runs(&mut self, c: usize, runs: Runs) {
        self.cells[10 * c + 4..10 * c + 10].copy_from_slice(&runs);
    }

    pub fn push_cell(&mut self, area: Area, runs: Runs, mode: u8, settings: [f64; 4]) {
        self.cells.extend([area.x, area.y, area.width, area.height]);
        self.cells.extend(runs);
        self.modes.push(mode);
        self.settings.extend(settings);
    }

    /// The numbers of an area's texels in the sheet, in the order that they have alone.
    pub fn texels(&self, area: Area) -> Vec<usize> {
        (area.y..area.y + area.height).flat_map(|row| (area.x..area.x + area.width).map(move |column| row * self.width + column)).collect()
    }

    /// The samples of these texels.
    pub fn samples_of(&self, texels: &[usize]) -> Vec<f32> {
        texels.iter().flat_map(|&k| &self.samples[k * self.channels..(k + 1) * self.channels]).copied().collect()
    }

    /// For each texel the cell that it lies in.
    pub fn holders(&self) -> Vec<Option<usize>> {
        let mut holders = vec![None; self.width * self.height];
        for c in 0..self.count() {
            for k in self.texels(self.area(c)) {
                holders[k] = Some(c);
            }
        }
        holders
    }

    /// Cell c as a bitmap alone, with its own part of each list and a room of its own; over this area, in which it lies.
    pub fn alone_in(&self, c: usize, area: Area) -> Case {
        let texels = self.texels(area);
        let [from, count, coords_from, coords_count, ends_from, ends_count] = self.runs(c);
        let settings = &self.settings[4 * c..4 * c + 4];
        let input = Input {
            width: area.width,
            height: area.height,
            channels: self.channels,
            mode: self.modes[c],
            ratio: settings[0],
            lengths: [settings[1], settings[2], settings[3]],
            colours: self.colours[from..from + count].to_vec(),
            coords: self.coords[coords_from..coords_from + coords_count].to_vec(),
            ends: self.ends[ends_from..ends_from + ends_count].to_vec(),
        };
        let stencil = texels.iter().map(|&k| self.stencil[k]).collect();
        Case { kind: self.kind, input, samples: self.samples_of(&texels), stencil, room: room(area.width, 0x7FC0_0001_8000_0000) }
    }

    /// Cell c, cut out.
    pub fn alone(&self, c: usize) -> Case {
        self.alone_in(c, self.area(c))
    }

    /// Puts samples where an area's are.
    pub fn paste(&mut self, area: Area, samples: &[f32]) {
        let n = self.channels;
        for (k, texel) in self.texels(area).into_iter().zip(samples.chunks(n)) {
            self.samples[k * n..(k + 1) * n].copy_from_slice(texel);
        }
    }

    /// The runs of these outlines, which are put at the end of the lists.
    pub fn append(&mut self, colours: &[u8], coords: &[f64], ends: &[usize]) -> Runs {
        let runs = [self.colours.len(), colours.len(), self.coords.len(), coords.len(), self.ends.len(), ends.len()];
        self.colours.extend(colours);
        self.coords.extend(coords);
        self.ends.extend(ends);
        runs
    }

    /// Puts a cell that was cut out and changed back in its place.
    pub fn put_back(&mut self, c: usize, case: &Case) {
        let i = &case.input;
        self.paste(self.area(c), &case.samples);
        self.modes[c] = i.mode;
        self.settings[4 * c..4 * c + 4].copy_from_slice(&[i.ratio, i.lengths[0], i.lengths[1], i.lengths[2]]);
        let before = self.alone(c).input;
        let bits = |v: &[f64]| v.iter().map(|v| v.to_bits()).collect::<Vec<_>>();
        if before.colours != i.colours || bits(&before.coords) != bits(&i.coords) || before.ends != i.ends {
            let runs = self.append(&i.colours, &i.coords, &i.ends);
            self.set_runs(c, runs);
        }
    }

    /// The sheet with its cells in this order.
    pub fn ordered(&self, order: &[usize]) -> Sheet {
        let mut other = self.clone();
        (other.cells, other.modes, other.settings) = (vec![], vec![], vec![]);
        for &c in order {
            other.push_cell(self.area(c), self.runs(c), self.modes[c], self.settings[4 * c..4 * c + 4].try_into().expect("four settings"));
        }
        other
    }
}
