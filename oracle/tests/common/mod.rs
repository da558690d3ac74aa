//! What the tests on the original share: corners, blocks, and the settings of
//! document 01's Q.

use zigzag::fill::FillParams;
use zigzag::geom::{P, Polyline};

pub fn line(points: &[(f64, f64)]) -> Polyline {
    points.iter().map(|&(x, y)| P::new(x, y)).collect()
}

pub fn block(x: f64, y: f64, width: f64, height: f64) -> Polyline {
    line(&[
        (x, y),
        (x + width, y),
        (x + width, y + height),
        (x, y + height),
    ])
}

pub fn settings() -> FillParams {
    FillParams {
        c: 1.0,
        s: 0.0,
        spacing: 4.0,
        len: 10.0,
        inset: 0.0,
        pull: 0.0,
        stagger: 1,
        bottom_up: false,
    }
}
