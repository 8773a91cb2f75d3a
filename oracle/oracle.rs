//! The oracle: the original's pass, compiled from its own sources as they stand, and driven with three lengths and points in pixel units.
//! Its detectors are driven once more with a classifier that counts range tests and answers as the original's does.
//! `signs` has the original's correction of signs, driven with a filled map.
//!
//! `target/oracle/original` is a copy of the original's source folder and `target/oracle/correction.rs` is its correction/mod.rs with `driver.rs`
//! after it (see `build`); no text of the original is changed. What the supplied sources lack stands here: an inline vector, shapes, typed points,
//! and names of the distance part, which `DoNotCheckDistance` never reaches.
#![allow(dead_code, clippy::all)]

// The sources take `arrayvec::ArrayVec` from a crate of that name.
extern crate self as arrayvec;

#[path = "../target/oracle/original/bitmap.rs"]
pub mod bitmap;
#[path = "../target/oracle/correction.rs"]
pub mod correction;
#[path = "../target/oracle/original/generator/config.rs"]
pub mod original_config;
#[path = "../target/oracle/original/geometry/edge_color.rs"]
pub mod original_edge_color;
#[path = "../target/oracle/original/geometry/equation_solver.rs"]
pub mod original_equation_solver;
#[path = "../target/oracle/original/generator/projection.rs"]
pub mod original_projection;
#[path = "../target/oracle/original/math/range.rs"]
pub mod original_range;
#[path = "../target/oracle/original/math/scalar.rs"]
pub mod original_scalar;
#[path = "../target/oracle/original/math/vector2.rs"]
pub mod original_vector2;
pub mod signs;

/// A vector of at most `N` elements held in place.
#[derive(Debug, Clone)]
pub struct ArrayVec<T, const N: usize> {
    items: [Option<T>; N],
    len: usize,
}

impl<T: Copy, const N: usize> ArrayVec<T, N> {
    pub fn new() -> Self {
        ArrayVec { items: [None; N], len: 0 }
    }
    pub fn push(&mut self, item: T) {
        self.items[self.len] = Some(item);
        self.len += 1;
    }
    pub fn iter(&self) -> impl Iterator<Item = &T> {
        self.items[..self.len].iter().flatten()
    }
}

pub mod math {
    pub use crate::original_range::Range;
    pub use crate::original_scalar as scalar;
    pub use crate::original_vector2::Vector2;

    /// Points of the two spaces, told apart by their types.
    pub mod typed {
        use super::Vector2;

        #[derive(Debug, Clone, Copy)]
        pub struct ShapePoint(Vector2);
        #[derive(Debug, Clone, Copy)]
        pub struct PixelPoint(Vector2);

        impl ShapePoint {
            pub fn from_raw(v: Vector2) -> Self {
                ShapePoint(v)
            }
            pub fn raw(self) -> Vector2 {
                self.0
            }
        }

        impl PixelPoint {
            pub fn new(x: f64, y: f64) -> Self {
                PixelPoint(Vector2::new(x, y))
            }
            pub fn from_raw(v: Vector2) -> Self {
                PixelPoint(v)
            }
            pub fn raw(self) -> Vector2 {
                self.0
            }
        }
    }
}

pub mod geometry {
    pub use crate::original_edge_color::EdgeColor;
    pub use crate::original_equation_solver as equation_solver;
    use crate::math::Vector2;
    use std::rc::Rc;

    /// Where rows are crossed, each by its column and its direction, and the first crossing of each row that belongs to one segment.
    pub struct Crossings {
        pub rows: Rc<Vec<Vec<(f64, i32)>>>,
        pub from: usize,
    }

    /// A segment that the pass asks for its start alone, or that the correction of signs asks for its crossings of a row's middle, of which it has at most three.
    pub enum Segment {
        Start(Vector2),
        Crossings(Crossings),
    }

    impl Segment {
        pub fn point(&self, t: f64) -> Vector2 {
            assert!(t == 0.0);
            match self {
                Segment::Start(start) => *start,
                Segment::Crossings(_) => panic!("the pass has starts alone"),
            }
        }

        pub fn scanline_intersections(&self, y: f64, out: &mut [(f64, i32); 3]) -> usize {
            let Segment::Crossings(crossings) = self else { panic!("the correction of signs has crossings alone") };
            let row = &crossings.rows[y as usize];
            assert!(y == (y as usize) as f64 + 0.5);
            let own = &row[row.len().min(crossings.from)..row.len().min(crossings.from + 3)];
            out[..own.len()].copy_from_slice(own);
            own.len()
        }
    }

    pub struct Contour {
        pub segments: Vec<Segment>,
        pub colors: Vec<EdgeColor>,
    }

    pub struct Shape {
        pub contours: Vec<Contour>,
    }
}

pub mod generator {
    pub use crate::original_config as config;
    /// The correction of signs takes the original's own.
    pub use crate::original_projection::Projection;

    /// The transformation of the scope document: points are in pixel units already, and three given lengths stand for the unprojected vectors.
    pub mod projection {
        use crate::math::typed::{PixelPoint, ShapePoint};
        use crate::math::Vector2;
        pub use crate::original_projection::DistanceMapping;

        pub struct Projection {
            /// horizontal, vertical, diagonal
            pub lengths: [f64; 3],
        }

        impl Projection {
            pub fn project(&self, p: ShapePoint) -> PixelPoint {
                PixelPoint::from_raw(p.raw())
            }
            pub fn unproject(&self, p: PixelPoint) -> ShapePoint {
                ShapePoint::from_raw(p.raw())
            }
            /// The distance mapping being the default one, the pass asks for (1, 0), (0, 1) and (1, 1): a vector with the given length answers.
            pub fn unproject_vector(&self, v: Vector2) -> Vector2 {
                let k = match (v.x, v.y) {
                    (1.0, 0.0) => 0,
                    (0.0, 1.0) => 1,
                    (1.0, 1.0) => 2,
                    _ => panic!("a vector that the pass does not ask for"),
                };
                Vector2::new(self.lengths[k], 0.0)
            }
        }

        impl Clone for Projection {
            fn clone(&self) -> Self {
                *self
            }
        }
        impl Copy for Projection {}

        pub struct SdfTransformation {
            pub projection: Projection,
            pub distance_mapping: DistanceMapping,
        }
    }
}

/// Names of the part that is left out; nothing here is ever called.
pub mod distance {
    pub mod selectors {
        pub struct PerpendicularDistanceSelector;
    }

    pub mod combiners {
        use std::marker::PhantomData;

        pub trait ContourCombiner {
            type Selector;
        }
        pub struct OverlappingContourCombiner<S>(PhantomData<S>);
        pub struct SimpleContourCombiner<S>(PhantomData<S>);
        impl<S> ContourCombiner for OverlappingContourCombiner<S> {
            type Selector = S;
        }
        impl<S> ContourCombiner for SimpleContourCombiner<S> {
            type Selector = S;
        }
    }

    pub mod finder {
        use crate::geometry::Shape;
        use crate::math::Vector2;
        use std::marker::PhantomData;

        pub struct ShapeDistanceFinder<'a, C>(PhantomData<(&'a Shape, C)>);

        impl<'a, C> ShapeDistanceFinder<'a, C> {
            pub fn new(_: &'a Shape) -> Self {
                unreachable!("distances to the shape are left out")
            }
            pub fn distance(&mut self, _: Vector2) -> f64 {
                unreachable!("distances to the shape are left out")
            }
        }
    }
}

use bitmap::Bitmap;
use correction::{drive, drive_corners, drive_counting, msdf_error_correction};
use generator::config::{DistanceCheckMode, ErrorCorrectionConfig, ErrorCorrectionMode, MsdfGeneratorConfig};
use generator::projection::{DistanceMapping, Projection, SdfTransformation};
use geometry::{Contour, EdgeColor, Segment, Shape};
use math::Vector2;

/// What is given to the pass besides the bitmap.
pub struct Task {
    shape: Shape,
    transformation: SdfTransformation,
    config: MsdfGeneratorConfig,
}

impl Task {
    /// `mode` at most 3; lists as the pass accepts them.
    pub fn new(mode: u8, ratio: f64, lengths: [f64; 3], colours: &[u8], coords: &[f64], ends: &[usize]) -> Task {
        let mut contours = Vec::new();
        let mut start = 0;
        for &end in ends {
            let segments = (start..end).map(|s| Segment::Start(Vector2::new(coords[2 * s], coords[2 * s + 1]))).collect();
            let colors = (start..end).map(|s| EdgeColor::from_bits(colours[s])).collect();
            contours.push(Contour { segments, colors });
            start = end;
        }
        let transformation = SdfTransformation { projection: Projection { lengths }, distance_mapping: DistanceMapping::default() };
        // The vector's own length is the given one, except where its square is too small to hold, and there no result can depend on it.
        for l in lengths {
            let length = Vector2::new(l, 0.0).length();
            assert!(length == l || (l < f64::from_bits(0x2000_0000_0000_0000) && length < f64::from_bits(0x2010_0000_0000_0000)));
        }
        let config = MsdfGeneratorConfig {
            overlap_support: true,
            error_correction: ErrorCorrectionConfig {
                mode: [
                    ErrorCorrectionMode::Disabled,
                    ErrorCorrectionMode::Indiscriminate,
                    ErrorCorrectionMode::EdgePriority,
                    ErrorCorrectionMode::EdgeOnly,
                ][mode as usize],
                distance_check_mode: DistanceCheckMode::DoNotCheckDistance,
                min_deviation_ratio: ratio,
                min_improve_ratio: ratio,
            },
        };
        Task { shape: Shape { contours }, transformation, config }
    }
}

/// A bitmap of the original's, from samples.
pub fn bitmap_of<const N: usize>(width: usize, height: usize, samples: &[f32]) -> Bitmap<f32, N> {
    let mut bitmap = Bitmap::new(width, height);
    bitmap.data_mut().copy_from_slice(samples);
    bitmap
}

/// The original's own entry, as it stands.
pub fn correct<const N: usize>(bitmap: &mut Bitmap<f32, N>, task: &Task) {
    msdf_error_correction(bitmap, &task.shape, &task.transformation, &task.config);
}

/// What the original answers besides the samples.
pub struct Answered {
    /// The stencil of the whole pass; none in Disabled, where it makes none.
    pub whole: Option<Vec<u8>>,
    /// The stencil of its corners alone, which only EdgePriority asks.
    pub corners: Vec<u8>,
    /// How many range tests it makes for each texel, in its own order and with its own stops; none in Disabled.
    pub tests: Vec<u32>,
}

/// The range tests of each texel of this bitmap, whose pass left this stencil. The counted detectors have to flag what the pass flagged.
fn count_tests<const N: usize>(bitmap: &Bitmap<f32, N>, stencil: &[u8], task: &Task) -> Vec<u32> {
    const ERROR: u8 = 1;
    let counted = drive_counting(bitmap, stencil, &task.transformation, &task.config);
    let same = counted.iter().zip(stencil).all(|((_, artifact), cell)| *artifact == (cell & ERROR != 0));
    assert!(same, "the counted detectors flag other texels than the driven pass");
    counted.into_iter().map(|(tests, _)| tests).collect()
}

/// The samples afterwards in place, and the rest of the answer.
/// The entry itself is run as well, and its samples have to be those of the driven pass.
fn correct_and_read<const N: usize>(width: usize, height: usize, samples: &mut [f32], task: &Task) -> Answered {
    let corners = drive_corners(width, height, &task.shape, &task.transformation, &task.config);
    let mut entered = bitmap_of::<N>(width, height, samples);
    correct(&mut entered, task);
    if task.config.error_correction.mode == ErrorCorrectionMode::Disabled {
        samples.copy_from_slice(entered.data());
        return Answered { whole: None, corners, tests: vec![0; width * height] };
    }
    let before = bitmap_of::<N>(width, height, samples);
    let mut driven = bitmap_of::<N>(width, height, samples);
    let whole = drive(&mut driven, &task.shape, &task.transformation, &task.config);
    let bits = |b: &Bitmap<f32, N>| b.data().iter().map(|v| v.to_bits()).collect::<Vec<_>>();
    assert!(bits(&entered) == bits(&driven), "the driven pass differs from the original's entry");
    samples.copy_from_slice(driven.data());
    let tests = count_tests(&before, &whole, task);
    Answered { whole: Some(whole), corners, tests }
}

/// The original's answer for 3 or 4 channels.
pub fn answer(width: usize, height: usize, channels: usize, samples: &mut [f32], task: &Task) -> Answered {
    match channels {
        3 => correct_and_read::<3>(width, height, samples, task),
        4 => correct_and_read::<4>(width, height, samples, task),
        _ => panic!("3 or 4 channels"),
    }
}
