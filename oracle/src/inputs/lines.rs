//! Lines: open lists of corners, for lengths, resampling and running stitch.

use super::numbers::{beside, coordinate, plain, spoil};
use crate::expect::CORNERS;
use crate::rng::Rng;

/// A line, whose layout and numbers may be damaged. `len` is the stitch length
/// it will be cut by: many pieces are a whole number of stitches long, or an
/// ulp off, or about as short as 1e-9.
pub fn any(rng: &mut Rng, len: f64) -> Vec<f64> {
    let mut flat = sound(rng, len);
    spoil(rng, &mut flat, 16);
    match rng.below(40) {
        0 => flat.push(1.0),
        1 => {
            flat.pop();
        }
        2 => {
            // At the limit of corners and past it.
            let count = CORNERS + rng.index(2);
            flat.resize(2 * count, 3.0);
        }
        _ => {}
    }
    flat
}

/// A line that document 01 accepts.
pub fn sound(rng: &mut Rng, len: f64) -> Vec<f64> {
    let len = if (1.0..=1000.0).contains(&len) {
        len
    } else {
        5.0
    };
    let (mut x, mut y) = match rng.below(3) {
        0 => (0.0, 0.0),
        1 => (plain(rng) / 100.0, plain(rng) / 100.0),
        _ => (coordinate(rng), coordinate(rng)),
    };
    let mut flat = Vec::new();
    for _ in 0..rng.below(10) {
        flat.extend([x, y]);
        let stitches = rng.range(1, 6) as f64 * len;
        let (dx, dy) = match rng.below(10) {
            0 => (stitches, 0.0),
            1 => (0.0, -stitches),
            2 => (stitches * 0.6, stitches * 0.8),
            3 => (beside(stitches, rng.range(-2, 2)), 0.0),
            4 => (0.0, 0.0), // a repeated corner
            5 => (beside(1e-9, rng.range(-2, 2)), 0.0),
            6 => (0.6e-9, beside(0.8e-9, rng.range(-2, 2))),
            7 => (plain(rng) / 1000.0, plain(rng) / 1000.0),
            8 => (1e-300, -5e-324),
            _ => {
                (x, y) = (coordinate(rng), coordinate(rng));
                continue;
            }
        };
        let (next_x, next_y) = (x + dx, y + dy);
        if next_x.abs() <= 100_000.0 && next_y.abs() <= 100_000.0 {
            (x, y) = (next_x, next_y);
        }
    }
    flat
}

/// A line as tracing gives it, for timing: its pieces are some 10 to 40 units long.
pub fn traced(rng: &mut Rng, corners: usize) -> Vec<f64> {
    let (mut x, mut y, mut angle) = (0.0f64, 0.0f64, 0.0f64);
    let mut line = Vec::with_capacity(2 * corners);
    for _ in 0..corners {
        line.extend([x, y]);
        let step = rng.range(100, 400) as f64 / 10.0;
        angle += rng.range(-50, 50) as f64 / 100.0;
        x += step * angle.cos();
        y += step * angle.sin();
    }
    line
}

/// Room in floats for so many points: enough, just enough, just not, or none.
/// Past 5,000 points there is never enough.
pub fn room(rng: &mut Rng, points: u64) -> usize {
    let need = 2 * points.min(5_000) as usize;
    match rng.below(8) {
        0 => need.saturating_sub(1),
        1 => need.saturating_sub(2),
        2 => 0,
        3 => need + 1,
        4 => need,
        _ => need + rng.index(40),
    }
}
