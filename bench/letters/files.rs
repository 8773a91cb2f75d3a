//! A square sheet in four files, little-endian: STEM.f32 its samples, three channels, row 0 at the bottom; STEM.col a byte for each segment, its colour; STEM.xy two
//! f64 for each, its start in pixels; STEM.end a u64 for each contour, the number of segments up to its end.
#![allow(dead_code)] // one program reads and the other writes

pub struct Files {
    pub size: usize,
    pub samples: Vec<f32>,
    pub colours: Vec<u8>,
    pub coords: Vec<f64>,
    pub ends: Vec<usize>,
}

fn load<const N: usize, T>(stem: &str, ending: &str, of: fn([u8; N]) -> T) -> Result<Vec<T>, String> {
    let name = format!("{stem}.{ending}");
    let data = std::fs::read(&name).map_err(|e| format!("{name}: {e}"))?;
    if data.len() % N != 0 {
        return Err(format!("{name} is cut short"));
    }
    Ok(data.chunks_exact(N).map(|chunk| of(chunk.try_into().expect("a chunk"))).collect())
}

fn save<const N: usize>(stem: &str, ending: &str, items: impl Iterator<Item = [u8; N]>) -> Result<(), String> {
    let name = format!("{stem}.{ending}");
    std::fs::write(&name, items.flatten().collect::<Vec<u8>>()).map_err(|e| format!("{name}: {e}"))
}

impl Files {
    pub fn read(stem: &str) -> Result<Files, String> {
        let samples = load(stem, "f32", f32::from_le_bytes)?;
        let size = (samples.len() as f64 / 3.0).sqrt() as usize;
        if size == 0 || 3 * size * size != samples.len() {
            return Err(format!("{stem}.f32 is no square of three channels"));
        }
        let ends = load(stem, "end", u64::from_le_bytes)?.into_iter().map(|end| end as usize).collect();
        Ok(Files { size, samples, colours: load(stem, "col", |[byte]: [u8; 1]| byte)?, coords: load(stem, "xy", f64::from_le_bytes)?, ends })
    }

    pub fn write(&self, stem: &str) -> Result<(), String> {
        save(stem, "f32", self.samples.iter().map(|v| v.to_le_bytes()))?;
        save(stem, "col", self.colours.iter().map(|&v| [v]))?;
        save(stem, "xy", self.coords.iter().map(|v| v.to_le_bytes()))?;
        save(stem, "end", self.ends.iter().map(|&v| (v as u64).to_le_bytes()))
    }
}
