//! Badges for cross stitch, and outlines small enough to clip against.

use super::numbers::{beside, setting};
use super::outlines::{self, Outline};
use crate::expect::{CELL, CELLS, SIZE_LIMIT};
use crate::rng::Rng;
use zigzag::geom::{P, Polyline};

/// Any outline, seldom one that is far across: what is worked out grows with it.
pub fn small_outline(rng: &mut Rng) -> Outline {
    loop {
        let outline = outlines::any(rng);
        if across(&outline) < 2000.0 || rng.one_in(400) {
            return outline;
        }
    }
}

/// The larger side of an outline's box; of one with a NaN, anything.
fn across(outline: &Outline) -> f64 {
    let side = |from: usize| {
        let list = || outline.corners.iter().skip(from).step_by(2).copied();
        list().fold(f64::NEG_INFINITY, f64::max) - list().fold(f64::INFINITY, f64::min)
    };
    side(0).max(side(1))
}

/// An outline and a cell: shapes of all kinds over a few cells, shapes whose
/// corners stand on the grid, and both sides of 4,096 cells.
pub fn any(rng: &mut Rng) -> (Outline, f64) {
    match rng.below(8) {
        0..=3 => {
            let outline = small_outline(rng);
            let fits = across(&outline) / rng.range(1, 24) as f64;
            let cell = match rng.below(8) {
                0 => setting(rng, CELL),
                1 => beside(fits, rng.range(-2, 2)),
                2 => rng.range(1, 60) as f64,
                _ => fits,
            };
            // Small cells over a wide shape are many: most of these go to SIZE or are kept coarse.
            if rng.one_in(16) || across(&outline) / cell < 80.0 {
                (outline, cell)
            } else {
                (outline, fits.max(1.0))
            }
        }
        4..=6 => on_grid(rng),
        _ => at_the_limit(rng),
    }
}

/// Corners on the grid, or a hair beside it, on either side of zero.
fn on_grid(rng: &mut Rng) -> (Outline, f64) {
    let cell = match rng.below(3) {
        0 => rng.range(1, 40) as f64,
        1 => rng.range(10, 400) as f64 / 10.0,
        _ => rng.pick(&[1.0, 1.5, 2.5, 0.1 + 0.9, 3.3, 1000.0, 10.0]),
    };
    let around = rng.range(-20, 20) as f64;
    let hairs = rng.one_in(2);
    let corner = |rng: &mut Rng| {
        let at = |rng: &mut Rng| {
            let half = if rng.one_in(6) { 0.5 } else { 0.0 };
            let x = (around + rng.range(-8, 8) as f64 + half) * cell;
            let x = if hairs && rng.one_in(3) {
                beside(x, rng.range(-1, 1))
            } else {
                x
            };
            x.clamp(-SIZE_LIMIT, SIZE_LIMIT)
        };
        P::new(at(rng), at(rng))
    };
    let rings: Vec<Polyline> = (0..1 + rng.below(2))
        .map(|_| match rng.below(3) {
            0 => rectangle(corner(rng), corner(rng)),
            _ => (0..rng.below(9)).map(|_| corner(rng)).collect(),
        })
        .collect();
    (Outline::new(&rings), cell)
}

fn rectangle(a: P, b: P) -> Polyline {
    vec![a, P::new(b.x, a.y), b, P::new(a.x, b.y)]
}

/// A strip of 4,096 cells, or one more, lying or standing, and a cell or two thick.
fn at_the_limit(rng: &mut Rng) -> (Outline, f64) {
    let cell = rng.pick(&[1.0, 2.0, 3.5, 10.0, 24.0, 0.1 + 1.0]);
    let first = rng.range(-4090, 20) as f64;
    let count = CELLS + rng.range(-1, 1) as f64;
    let (from, to) = (first * cell, (first + count) * cell);
    let to = beside(to, rng.range(-1, 1));
    let low = rng.range(-3, 3) as f64 * cell;
    let high = low + rng.range(0, 2) as f64 * cell;
    let thin = rng.range(1, 9) as f64;
    let clip = |x: f64| x.clamp(-SIZE_LIMIT, SIZE_LIMIT);
    let (a, b) = (P::new(clip(from), low), P::new(clip(to), high));
    // Mostly a sliver, so that few of its cells are inside.
    let mut ring = if rng.one_in(4) {
        rectangle(a, b)
    } else {
        vec![a, P::new(a.x + thin * cell, a.y), b]
    };
    if rng.one_in(2) {
        for p in &mut ring {
            *p = P::new(p.y, p.x);
        }
    }
    (Outline::new(&[ring]), cell)
}

/// A badge for timing, so many cells across and down: a wavy ring.
pub fn crest(
    rng: &mut Rng,
    columns: f64,
    rows: f64,
    corners: usize,
) -> (Outline, Vec<Polyline>, f64) {
    let cell = 10.0;
    let waves = rng.range(3, 9) as f64;
    let ring: Polyline = (0..corners)
        .map(|i| {
            let angle = std::f64::consts::TAU * i as f64 / corners as f64;
            let radius = 0.4 * (1.0 + 0.25 * (waves * angle).sin());
            P::new(
                columns * cell * radius * angle.cos(),
                rows * cell * radius * angle.sin(),
            )
        })
        .collect();
    // Its box touches the grid at so many cells.
    let (lo, hi) = zigzag::patterns::bounds(std::slice::from_ref(&ring));
    let size = hi - lo;
    let scale = P::new(columns * cell / size.x, rows * cell / size.y);
    let ring: Polyline = ring
        .iter()
        .map(|p| {
            P::new(
                (p.x - lo.x) * scale.x * 0.9999,
                (p.y - lo.y) * scale.y * 0.9999,
            )
        })
        .collect();
    let outline = Outline::new(std::slice::from_ref(&ring));
    (outline, vec![ring], cell)
}
