//! Letter shapes that the repository carries, as sheets of distance fields.

pub mod field;
pub mod files;
pub mod outlines;
