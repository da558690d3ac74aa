//! Outlines as they are lent to ours: a flat list of corners, x before y, and
//! the count of corners up to the end of each ring.

use super::numbers::{bad_coordinate, coordinate, plain};
use crate::expect::{CORNERS, RINGS, SIZE_LIMIT};
use crate::rng::Rng;
use std::f64::consts::TAU;
use zigzag::geom::{P, Polyline};

#[derive(Clone, Default)]
pub struct Outline {
    pub corners: Vec<f64>,
    pub ends: Vec<u64>,
}

impl Outline {
    pub fn new(rings: &[Polyline]) -> Outline {
        let mut outline = Outline::default();
        for ring in rings {
            outline.corners.extend(ring.iter().flat_map(|p| [p.x, p.y]));
            outline.ends.push(outline.corners.len() as u64 / 2);
        }
        outline
    }

    /// The original's form, of an outline whose layout is sound.
    pub fn rings(&self) -> Vec<Polyline> {
        let mut rest = points(&self.corners);
        let mut start = 0;
        let mut rings = Vec::new();
        for &end in &self.ends {
            let after = rest.split_off((end - start) as usize);
            rings.push(std::mem::replace(&mut rest, after));
            start = end;
        }
        rings
    }
}

/// Flat coordinates as points; an odd one at the end is passed over.
pub fn points(flat: &[f64]) -> Vec<P> {
    flat.chunks_exact(2).map(|c| P::new(c[0], c[1])).collect()
}

/// An outline that document 01 accepts, of any of the shapes below.
pub fn sound(rng: &mut Rng) -> Outline {
    let mut rings = shape(rng);
    for _ in 0..rng.below(4) {
        alter(rng, &mut rings);
    }
    limit(&mut rings);
    Outline::new(&rings)
}

/// An outline as tracing gives it, for timing: wavy rings beside each other.
pub fn traced(rng: &mut Rng, rings: usize, corners: usize) -> Outline {
    let waves = rng.range(3, 9) as f64;
    let ring = |k: usize| -> Polyline {
        let centre = P::new(300.0 * (k % 6) as f64, 300.0 * (k / 6) as f64);
        let size = if rings == 1 { 800.0 } else { 120.0 };
        (0..corners)
            .map(|i| {
                let angle = std::f64::consts::TAU * i as f64 / corners as f64;
                let radius = size * (1.0 + 0.2 * (waves * angle).sin());
                centre + P::new(radius * angle.cos(), radius * angle.sin())
            })
            .collect()
    };
    Outline::new(&(0..rings).map(ring).collect::<Vec<_>>())
}

/// An outline that may be damaged in its layout, in its numbers, or in both.
pub fn any(rng: &mut Rng) -> Outline {
    let outline = sound(rng);
    damaged(rng, outline)
}

/// An outline, one in six damaged.
pub fn damaged(rng: &mut Rng, mut outline: Outline) -> Outline {
    if rng.one_in(12) {
        spoil_number(rng, &mut outline);
    }
    if rng.one_in(12) {
        damage(rng, &mut outline);
    }
    outline
}

/// A point where a test of inside can go wrong: on a corner, on a side, level
/// with a corner, a hair beside it, or anywhere about.
pub fn point_near(rng: &mut Rng, outline: &Outline) -> P {
    let corners = points(&outline.corners);
    if corners.is_empty() || rng.one_in(12) {
        return P::new(coordinate(rng), coordinate(rng));
    }
    let a = rng.pick(&corners);
    let b = rng.pick(&corners);
    let hair = |rng: &mut Rng, x: f64| super::numbers::beside(x, rng.range(-1, 1));
    match rng.below(7) {
        0 => a,
        1 => P::new(a.x, b.y),
        2 => a.lerp(b, 0.5),
        3 => a.lerp(b, rng.below(1000) as f64 / 1000.0),
        4 => P::new(hair(rng, a.x), hair(rng, a.y)),
        5 => P::new(a.x + plain(rng) / 10_000.0, a.y),
        _ => a.lerp(b, 0.3) + P::new(plain(rng), plain(rng)) * 1e-4,
    }
}

fn shape(rng: &mut Rng) -> Vec<Polyline> {
    match rng.below(16) {
        0 => vec![rectangle(rng)],
        1 => vec![shield(rng)],
        2 => letter(rng),
        3 => vec![comb(rng)],
        4 => vec![spiral(rng)],
        5 => vec![star(rng)],
        6 => touching(rng),
        7 => vec![sliver(rng)],
        8 => vec![tangle(rng)],
        9 => vec![blob(rng, 40)],
        10 => vec![stairs(rng)],
        11 => vec![tiny_edges(rng)],
        12 => holed(rng),
        13 => few_corners(rng),
        14 if rng.one_in(4) => full(rng),
        15 if rng.one_in(4) => Vec::new(),
        _ => vec![(0..3 + rng.below(5)).map(|_| odd_point(rng)).collect()],
    }
}

fn length(rng: &mut Rng) -> f64 {
    match rng.below(4) {
        0 => rng.range(1, 20) as f64,
        1 => rng.range(1, 200) as f64 / 2.0,
        2 => rng.range(1, 3000) as f64 / 10.0,
        _ => 1.0 + plain(rng).abs() / 500.0,
    }
}

pub fn line(list: &[(f64, f64)]) -> Polyline {
    list.iter().map(|&(x, y)| P::new(x, y)).collect()
}

pub fn block(x: f64, y: f64, w: f64, h: f64) -> Polyline {
    line(&[(x, y), (x + w, y), (x + w, y + h), (x, y + h)])
}

fn rectangle(rng: &mut Rng) -> Polyline {
    block(0.0, 0.0, length(rng), length(rng))
}

fn odd_point(rng: &mut Rng) -> P {
    P::new(coordinate(rng), coordinate(rng))
}

/// Straight on top, sides that bend to a tip.
fn shield(rng: &mut Rng) -> Polyline {
    let (w, h) = (length(rng), length(rng));
    let n = 2 + rng.range(0, 20);
    let side = |k: i64| {
        let t = k as f64 / n as f64;
        (w * (1.0 - t * t), h * (0.4 + 0.6 * t))
    };
    let mut ring = line(&[(-w, 0.0), (w, 0.0)]);
    ring.extend((0..n).map(|k| P::new(side(k).0, side(k).1)));
    ring.extend((0..=n).rev().map(|k| P::new(-side(k).0, side(k).1)));
    ring
}

/// Letters on a grid of 3 by 5, some with a counter that runs the other way.
fn letter(rng: &mut Rng) -> Vec<Polyline> {
    const L: &[(i8, i8)] = &[(0, 0), (1, 0), (1, 4), (3, 4), (3, 5), (0, 5)];
    const T: &[(i8, i8)] = &[
        (0, 0),
        (3, 0),
        (3, 1),
        (2, 1),
        (2, 5),
        (1, 5),
        (1, 1),
        (0, 1),
    ];
    const U: &[(i8, i8)] = &[
        (0, 0),
        (1, 0),
        (1, 4),
        (2, 4),
        (2, 0),
        (3, 0),
        (3, 5),
        (0, 5),
    ];
    const H: &[(i8, i8)] = &[
        (0, 0),
        (1, 0),
        (1, 2),
        (2, 2),
        (2, 0),
        (3, 0),
        (3, 5),
        (2, 5),
        (2, 3),
        (1, 3),
        (1, 5),
        (0, 5),
    ];
    const V: &[(i8, i8)] = &[(0, 0), (1, 0), (2, 4), (2, 0), (3, 0), (2, 5), (1, 5)];
    const OUTER: &[(i8, i8)] = &[(0, 0), (3, 0), (3, 5), (0, 5)];
    const COUNTER: &[(i8, i8)] = &[(1, 1), (1, 4), (2, 4), (2, 1)];
    let strokes: &[&[(i8, i8)]] = match rng.below(6) {
        0 => &[L],
        1 => &[T],
        2 => &[U],
        3 => &[H],
        4 => &[V],
        _ => &[OUTER, COUNTER],
    };
    let (w, h) = (length(rng), length(rng));
    let place = |&(x, y): &(i8, i8)| P::new(f64::from(x) * w, f64::from(y) * h);
    strokes
        .iter()
        .map(|s| s.iter().map(place).collect())
        .collect()
}

fn comb(rng: &mut Rng) -> Polyline {
    let teeth = 2 + rng.range(0, 14);
    let (w, back, tooth) = (length(rng), length(rng), length(rng));
    let mut ring = line(&[((2 * teeth - 1) as f64 * w, 0.0), (0.0, 0.0)]);
    for k in 0..teeth {
        let x = (2 * k) as f64 * w;
        ring.extend(line(&[(x, back + tooth), (x + w, back + tooth)]));
        if k + 1 < teeth {
            ring.extend(line(&[(x + w, back), (x + 2.0 * w, back)]));
        }
    }
    ring
}

fn spiral(rng: &mut Rng) -> Polyline {
    let n = 12 + rng.range(0, 60);
    let (step, band) = (length(rng), length(rng) * 0.1);
    let at = |k: i64, r: f64| {
        let angle = k as f64 * TAU / 12.0;
        P::new(angle.cos() * r, angle.sin() * r)
    };
    let out = (0..n).map(|k| at(k, step * (1.0 + k as f64 / 12.0) + band));
    let back = (0..n).rev().map(|k| at(k, step * (1.0 + k as f64 / 12.0)));
    out.chain(back).collect()
}

/// Every k-th corner of n: crosses itself, winds round its middle k times.
fn star(rng: &mut Rng) -> Polyline {
    let n = 5 + rng.range(0, 8);
    let k = 2 + rng.range(0, 2);
    let r = length(rng);
    let corner = |i: i64| {
        let angle = (i * k) as f64 * TAU / n as f64;
        P::new(angle.sin() * r, -angle.cos() * r)
    };
    (0..n).map(corner).collect()
}

/// Squares side by side that share whole sides, in any order and direction.
fn touching(rng: &mut Rng) -> Vec<Polyline> {
    let side = length(rng);
    let mut places: Vec<(i64, i64)> = (0..4).map(|k| (k % 2, k / 2)).collect();
    let mut rings = Vec::new();
    for _ in 0..2 + rng.below(3) {
        let (x, y) = places.swap_remove(rng.index(places.len()));
        let mut ring = block(x as f64 * side, y as f64 * side, side, side);
        if rng.one_in(3) {
            ring.reverse();
        }
        rings.push(ring);
    }
    rings
}

fn sliver(rng: &mut Rng) -> Polyline {
    let (long, thin) = (
        length(rng),
        rng.pick(&[1e-12, 1e-9, 1.1e-9, 1e-6, 0.01, 3.0]),
    );
    let mut ring = line(&[(0.0, 0.0), (long, thin), (long * 0.5, thin * 2.0)]);
    if rng.one_in(2) {
        ring = ring.iter().map(|p| P::new(p.y, p.x)).collect();
    }
    ring
}

/// Corners of a small grid in any order: crossings, sides that lie on each
/// other, corners on sides, level sides, repeated corners.
fn tangle(rng: &mut Rng) -> Polyline {
    let grid = 2 + rng.range(0, 6);
    let size = length(rng);
    let at = |rng: &mut Rng| rng.range(0, grid) as f64 * size;
    (0..3 + rng.below(12))
        .map(|_| P::new(at(rng), at(rng)))
        .collect()
}

fn blob(rng: &mut Rng, most: u64) -> Polyline {
    let n = 3 + rng.below(most - 2);
    let r = length(rng);
    (0..n)
        .map(|k| {
            let angle = k as f64 * TAU / n as f64;
            let far = r * (0.3 + rng.below(1000) as f64 / 1000.0);
            P::new(angle.cos() * far, angle.sin() * far)
        })
        .collect()
}

fn stairs(rng: &mut Rng) -> Polyline {
    let (w, h) = (length(rng), length(rng));
    let n = 2 + rng.range(0, 10);
    let mut ring = Vec::new();
    for k in 0..n {
        let (x, y) = (k as f64 * w, k as f64 * h);
        ring.extend(line(&[(x, y), (x + w, y)]));
    }
    ring.extend(line(&[(n as f64 * w, n as f64 * h), (0.0, n as f64 * h)]));
    ring
}

/// A shape whose corners are cut off by sides about 1e-9 long, the height
/// under which the fill drops an edge.
fn tiny_edges(rng: &mut Rng) -> Polyline {
    let mut ring = Vec::new();
    for p in blob(rng, 12) {
        let d = rng.pick(&[1e-9, 0.9e-9, 1.1e-9, 1e-10, 1e-13]);
        ring.push(p);
        ring.push(p + P::new(d * rng.range(-1, 1) as f64, d));
    }
    ring
}

fn holed(rng: &mut Rng) -> Vec<Polyline> {
    let r = length(rng);
    let mut inner = block(r * 0.25, r * 0.25, r * 0.5, r * 0.5);
    if rng.one_in(2) {
        inner.reverse();
    }
    vec![block(0.0, 0.0, r, r), inner]
}

/// Rings of 0, 1 and 2 corners, alone.
fn few_corners(rng: &mut Rng) -> Vec<Polyline> {
    (0..1 + rng.below(4))
        .map(|_| (0..rng.below(3)).map(|_| odd_point(rng)).collect())
        .collect()
}

/// At the limits: all corners in one ring, or all rings.
fn full(rng: &mut Rng) -> Vec<Polyline> {
    if rng.one_in(2) {
        let n = CORNERS as f64;
        let at = |k: usize| {
            let angle = k as f64 * TAU / n;
            P::new(angle.cos() * 500.0, angle.sin() * 300.0)
        };
        return vec![(0..CORNERS).map(at).collect()];
    }
    (0..RINGS)
        .map(|k| block((k % 16) as f64 * 9.0, (k / 16) as f64 * 9.0, 7.0, 7.0))
        .collect()
}

/// One change that keeps the layout sound.
fn alter(rng: &mut Rng, rings: &mut Vec<Polyline>) {
    if rings.is_empty() {
        return;
    }
    let r = rng.index(rings.len());
    let n = rings[r].len();
    match rng.below(11) {
        0 => rings[r].reverse(),
        1 if n > 0 => rings[r].rotate_left(rng.index(n)),
        2 if n > 0 => {
            let first = rings[r][0];
            rings[r].push(first); // closed by hand, as drawings often are
        }
        3 if n > 1 => {
            // A collinear corner in the middle of a side.
            let at = rng.index(n - 1);
            let middle = rings[r][at].lerp(rings[r][at + 1], 0.5);
            rings[r].insert(at + 1, middle);
        }
        4 if n > 0 => {
            let at = rng.index(n);
            let again = rings[r][at];
            rings[r].insert(at, again);
        }
        5 => {
            let few = (0..rng.below(3)).map(|_| odd_point(rng)).collect();
            rings.insert(r, few);
        }
        6 if n > 0 => {
            let odd = rng.pick(&[0.0, -0.0, 5e-324, -5e-324, 1e-310]);
            let at = rng.index(n);
            if rng.one_in(2) {
                rings[r][at].x = odd;
            } else {
                rings[r][at].y = odd;
            }
        }
        7 => {
            let (c, s) = rng.pick(&[
                (6.123233995736766e-17, 1.0),
                (0.0, 1.0),
                (-1.0, 1.2246467991473532e-16),
                (0.6, 0.8),
                (0.7071067811865476, 0.7071067811865475),
            ]);
            change(rings, |p| p.rotate(c, s));
        }
        8 => {
            let by = P::new(plain(rng) / 100.0, plain(rng) / 100.0);
            change(rings, |p| p + by);
        }
        9 => {
            let to_half = |x: f64| (x * 2.0).round() / 2.0;
            change(rings, |p| P::new(to_half(p.x), to_half(p.y)));
        }
        _ => {
            let by = -rings[r].first().copied().unwrap_or_default();
            change(rings, |p| p + by); // a corner at zero: signs of zero, level rows
        }
    }
}

fn change(rings: &mut [Polyline], f: impl Fn(P) -> P) {
    for p in rings.iter_mut().flatten() {
        *p = f(*p);
    }
}

/// Back into document 01's limits, where an alteration went past them.
fn limit(rings: &mut Vec<Polyline>) {
    truncate(rings);
    change(rings, |p| {
        let clip = |x: f64| x.clamp(-SIZE_LIMIT, SIZE_LIMIT);
        P::new(clip(p.x), clip(p.y))
    });
}

/// At most as many rings and corners as an outline may have.
pub fn truncate(rings: &mut Vec<Polyline>) {
    rings.truncate(RINGS);
    let mut left = CORNERS;
    for ring in rings.iter_mut() {
        ring.truncate(left);
        left -= ring.len();
    }
}

fn spoil_number(rng: &mut Rng, outline: &mut Outline) {
    if !outline.corners.is_empty() {
        let at = rng.index(outline.corners.len());
        outline.corners[at] = bad_coordinate(rng);
    }
}

/// One fault of layout, or a limit passed by one.
fn damage(rng: &mut Rng, outline: &mut Outline) {
    match rng.below(7) {
        0 => outline.corners.push(1.0), // an odd count
        1 => {
            outline.corners.pop();
        }
        2 => {
            // Ends that fall, unless all are equal.
            outline.ends.insert(0, 1 + rng.below(2000));
        }
        3 => {
            let last = outline.ends.pop().unwrap_or(0);
            let off = rng.pick(&[1, u64::MAX, 1 << 32, 1 << 63]);
            outline.ends.push(last.wrapping_add(off));
        }
        4 => {
            outline.ends.pop(); // with one ring: no rings, corners present
        }
        5 => {
            // One ring too many.
            let last = outline.ends.last().copied().unwrap_or(0);
            outline.ends.resize(RINGS + 1, last);
        }
        _ => {
            // One corner too many, in the last ring.
            outline.corners.resize(2 * (CORNERS + 1), 1.0);
            outline.ends.pop();
            outline.ends.push(CORNERS as u64 + 1);
        }
    }
}
