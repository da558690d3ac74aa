//! zigzag's stitch calls with zigzag's names and shapes, answered by the proved
//! library. Each lends the library its room, so no caller has to guess it, and
//! answers what is sewn or the refusal's name. Whatever the outline, a call
//! ends; an answer that memory cannot hold ends the program, as with any `Vec`.

#[macro_use]
mod call;

pub mod book;
mod fill;
mod line;
pub mod machine;
mod mending;
mod pattern;
mod raw;
mod refusal;
mod room;
mod satin;

pub use fill::{
    FillParams, Piece, Sewn, cross_check, fill_job2, row_list, tatami, tatami_plain, tatami_twice,
};
pub use line::running;
pub use mending::{Dropped, Reason, salvage};
pub use pattern::{bounds, clip_inside, cross_stitch, meander};
pub use refusal::Refusal;
pub use satin::{
    Rails, SatinParams, SatinStyle, column, pairs, s_stitch, split_long, top, underlay,
};

/// A point, in units of 0.1 mm.
#[derive(Clone, Copy, Debug, Default, PartialEq)]
pub struct P {
    pub x: f64,
    pub y: f64,
}

pub type Polyline = Vec<P>;

/// Which points of overlapping outlines are inside.
#[derive(Clone, Copy, Debug, PartialEq, Eq)]
pub enum FillRule {
    NonZero,
    EvenOdd,
}

impl FillRule {
    fn number(self) -> u64 {
        match self {
            FillRule::NonZero => 0,
            FillRule::EvenOdd => 1,
        }
    }
}

/// The flat form of a line: coordinates, x before y.
fn flat(points: &[P]) -> Vec<f64> {
    points.iter().flat_map(|p| [p.x, p.y]).collect()
}

/// The flat form of an outline: coordinates, and where each ring ends.
fn outline(rings: &[Polyline]) -> (Vec<f64>, Vec<usize>) {
    let mut end = 0;
    let ends = rings.iter().map(|r| {
        end += r.len();
        end
    });
    let ends = ends.collect();
    (rings.iter().flat_map(|r| flat(r)).collect(), ends)
}

fn points(flat: &[f64]) -> Polyline {
    flat.chunks_exact(2)
        .map(|c| P { x: c[0], y: c[1] })
        .collect()
}

/// The lines of flat points that end at each of `ends`.
fn lines(flat: &[f64], ends: &[usize]) -> Vec<Polyline> {
    let mut start = 0;
    let line = |&end: &usize| {
        let line = points(&flat[2 * start..2 * end]);
        start = end;
        line
    };
    ends.iter().map(line).collect()
}
