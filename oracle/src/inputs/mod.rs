//! What the calls are made of.

pub mod badges;
pub mod borders;
pub mod boundaries;
pub mod column_boundaries;
pub mod crests;
pub mod fills;
pub mod lines;
pub mod numbers;
pub mod outlines;
pub mod rails;
