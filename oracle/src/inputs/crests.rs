//! Fills for timing, as a crest desk has them, and fills that grow in one thing.
//! Rows lie 0.4 mm apart and stitches are 4 mm long where nothing else is said.

use super::fills::Fill;
use std::f64::consts::TAU;
use zigzag::geom::{P, Polyline};

fn traced(rings: &[Polyline]) -> Fill {
    Fill {
        len: 40.0,
        stagger: 4,
        ..Fill::new(rings)
    }
}

/// What is timed: K1, and fills of the sizes that the desk names.
pub fn named() -> Vec<(&'static str, Fill)> {
    vec![
        ("K1", Fill::k1()),
        ("shield, 200 corners", traced(&[shield(200, 400.0, 1000.0)])),
        ("crest, 40 rings, 900 corners", crest()),
        ("8 letters", traced(&letters())),
        ("spiral, 600 corners", traced(&[spiral(600)])),
    ]
}

/// One wavy ring of some 100 rows, from 100 corners to 1,024.
pub fn by_corners() -> Vec<(usize, Fill)> {
    let fill = |n| (n, traced(&[wavy(n, P::new(0.0, 0.0), 187.5)]));
    [100, 200, 400, 700, 1024].map(fill).to_vec()
}

/// A shield of 40 corners, 20 mm wide, from 100 rows to 4,096.
pub fn by_rows() -> Vec<(usize, Fill)> {
    let fill = |rows: usize| {
        let shield = shield(40, 100.0, rows as f64 * 0.5);
        let fill = Fill {
            spacing: 0.5,
            ..traced(&[shield])
        };
        (rows, fill)
    };
    [100, 200, 500, 1000, 2000, 4096].map(fill).to_vec()
}

/// A shield of 40 corners and 100 rows, from 822 needle points to 31,298: by the stitch's length.
pub fn by_points() -> Vec<Fill> {
    let fill = |len| Fill {
        len,
        ..traced(&[shield(40, 400.0, 400.0)])
    };
    [100.0, 40.0, 20.0, 10.0, 4.0, 2.0].map(fill).to_vec()
}

/// The largest outline with the most rows, and one with many pieces in each of its rows.
pub fn large() -> Vec<(&'static str, Fill)> {
    let ring = Fill {
        spacing: 0.5,
        ..traced(&[wavy(1024, P::new(0.0, 0.0), 920.0)])
    };
    vec![
        ("1024 corners, 4,086 rows", ring),
        ("comb of 255 teeth, 400 rows", traced(&[comb(255, 1600.0)])),
    ]
}

/// Teeth of 1 mm, 1 mm apart, up from a bar.
fn comb(teeth: usize, height: f64) -> Polyline {
    let mut ring = vec![P::new(0.0, height + 10.0)];
    for k in 0..teeth {
        let x = 20.0 * k as f64;
        ring.push(P::new(x, 0.0));
        ring.push(P::new(x + 10.0, 0.0));
        ring.push(P::new(x + 10.0, height));
        ring.push(P::new(x + 20.0, height));
    }
    ring.pop();
    ring.pop();
    ring.push(P::new(20.0 * teeth as f64 - 10.0, height + 10.0));
    ring
}

/// Straight on top, sides that bend to a tip.
fn shield(corners: usize, half: f64, height: f64) -> Polyline {
    let side = corners / 2 - 1;
    let at = |k: usize| {
        let t = k as f64 / side as f64;
        (half * (1.0 - t * t) + 2.0, height * (0.3 + 0.7 * t))
    };
    let mut ring = vec![P::new(-half, 0.0), P::new(half, 0.0)];
    ring.extend((0..side).map(|k| P::new(at(k).0, at(k).1)));
    ring.extend((1..=side).rev().map(|k| P::new(-at(k).0, at(k).1)));
    ring
}

/// A ring about a middle, its edge in waves.
fn wavy(corners: usize, middle: P, size: f64) -> Polyline {
    let at = |k: usize| {
        let angle = TAU * k as f64 / corners as f64;
        let radius = size * (1.0 + 0.11 * (7.0 * angle).sin());
        middle + P::new(angle.cos(), angle.sin()) * radius
    };
    (0..corners).map(at).collect()
}

/// A round field of 120 corners with 39 figures of 20 corners cut out of it.
fn crest() -> Fill {
    let mut rings = vec![wavy(120, P::new(0.0, 0.0), 500.0)];
    for k in 0..39 {
        let angle = f64::from(k) * 2.4;
        let away = 65.0 * f64::from(k + 1).sqrt();
        rings.push(wavy(20, P::new(angle.cos(), angle.sin()) * away, 30.0));
    }
    Fill {
        rule: 1,
        ..traced(&rings)
    }
}

/// H, O, E, T, L, U, N and D in strokes of 2 mm.
fn letters() -> Vec<Polyline> {
    const LETTERS: [&[&[(i32, i32)]]; 8] = [
        &[&[
            (0, 0),
            (1, 0),
            (1, 2),
            (3, 2),
            (3, 0),
            (4, 0),
            (4, 5),
            (3, 5),
            (3, 3),
            (1, 3),
            (1, 5),
            (0, 5),
        ]],
        &[
            &[(0, 0), (4, 0), (4, 5), (0, 5)],
            &[(1, 1), (1, 4), (3, 4), (3, 1)],
        ],
        &[&[
            (0, 0),
            (4, 0),
            (4, 1),
            (1, 1),
            (1, 2),
            (3, 2),
            (3, 3),
            (1, 3),
            (1, 4),
            (4, 4),
            (4, 5),
            (0, 5),
        ]],
        &[&[
            (0, 0),
            (5, 0),
            (5, 1),
            (3, 1),
            (3, 5),
            (2, 5),
            (2, 1),
            (0, 1),
        ]],
        &[&[(0, 0), (1, 0), (1, 4), (4, 4), (4, 5), (0, 5)]],
        &[&[
            (0, 0),
            (1, 0),
            (1, 4),
            (3, 4),
            (3, 0),
            (4, 0),
            (4, 5),
            (0, 5),
        ]],
        &[&[
            (0, 0),
            (1, 0),
            (3, 3),
            (3, 0),
            (4, 0),
            (4, 5),
            (3, 5),
            (1, 2),
            (1, 5),
            (0, 5),
        ]],
        &[
            &[(0, 0), (3, 0), (4, 1), (4, 4), (3, 5), (0, 5)],
            &[(1, 1), (1, 4), (3, 4), (3, 1)],
        ],
    ];
    let mut rings = Vec::new();
    for (n, letter) in LETTERS.iter().enumerate() {
        for ring in letter.iter() {
            let at = |&(x, y): &(i32, i32)| P::new(f64::from(x + 6 * n as i32), f64::from(y));
            rings.push(ring.iter().map(|c| at(c) * 20.0).collect());
        }
    }
    rings
}

/// A band that winds outwards, one edge out and the other back.
fn spiral(corners: usize) -> Polyline {
    let turns = corners / 2;
    let at = |k: usize, band: f64| {
        let angle = TAU * k as f64 / 50.0;
        P::new(angle.cos(), angle.sin()) * (40.0 + k as f64 * 1.2 + band)
    };
    let out = (0..turns).map(|k| at(k, 30.0));
    out.chain((0..turns).rev().map(|k| at(k, 0.0))).collect()
}
