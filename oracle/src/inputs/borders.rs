//! Borders for timing, as a crest desk has them: a wavy ring 4 mm wide, closed.

use super::rails::{Column, Matched, Path, Rails, flat};
use crate::expect::{CORNERS, SYNCS};
use std::f64::consts::TAU;
use zigzag::geom::{P, Polyline};
use zigzag::satin;

/// How many corners each rail has.
const SIZES: [usize; 2] = [200, CORNERS];

/// Stitches lie 0.4 mm apart.
const SPACING: f64 = 4.0;

fn rail(corners: usize, out: f64) -> Polyline {
    let at = |k: usize| {
        let angle = TAU * (k % (corners - 1)) as f64 / (corners - 1) as f64;
        P::new(angle.cos(), angle.sin()) * (400.0 * (1.0 + 0.11 * (7.0 * angle).sin()) + out)
    };
    (0..corners).map(at).collect()
}

/// In step at every corner, or at as many as there may be.
fn border(corners: usize) -> Rails {
    let (a, b) = (rail(corners, 20.0), rail(corners, -20.0));
    let lengths = |line: &[P]| -> Vec<f64> {
        let mut sum = 0.0;
        let add = |w: &[P]| {
            sum += w[0].dist(w[1]);
            sum
        };
        line.windows(2).map(add).collect()
    };
    let every = corners.div_ceil(SYNCS);
    let both = lengths(&a).into_iter().zip(lengths(&b));
    let sync = both.skip(every - 1).step_by(every).take(SYNCS);
    Rails {
        sync: sync.flat_map(|(a, b)| [a, b]).collect(),
        ..Rails::new(&a, &b)
    }
}

/// Each style with the whole underlay, on each border.
pub fn columns() -> Vec<(String, Column)> {
    let kinds = [
        ("plain", 0, 0.0),
        ("plain, split", 0, 15.0),
        ("s", 1, 0.0),
        ("zigzag", 2, 0.0),
    ];
    let mut list = Vec::new();
    for corners in SIZES {
        for (name, style, split) in kinds {
            let column = Column {
                spacing: SPACING,
                split,
                style,
                ..Column::new(border(corners))
            };
            list.push((format!("{name}, {corners} corners"), column));
        }
    }
    list
}

pub fn matched() -> Vec<(String, Matched)> {
    let one = |corners| {
        let (rails, step) = (border(corners), SPACING);
        (format!("{corners} corners"), Matched { rails, step })
    };
    SIZES.map(one).to_vec()
}

/// The stitches across a border, as many as a line may have.
pub fn path() -> Path {
    let pairs = satin::pairs(&border(200).original(), SPACING);
    let stitches: Polyline = pairs.into_iter().flat_map(|(a, b)| [a, b]).collect();
    Path {
        line: flat(&stitches[..CORNERS]),
        max: 15.0,
    }
}
