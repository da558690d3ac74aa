//! The wanted parts of simpsoka/zigzag at 81825c4812 (Apache-2.0, see NOTICE),
//! completed as document 01 orders. What was changed is listed in README.md.
//! The modules stand side by side here; in the original, `fill`, `satin`,
//! `patterns` and `stroke` stand under `stitch`.

pub mod fill;
pub mod geom;
pub mod params;
pub mod patterns;
pub mod satin;
pub mod stroke;
