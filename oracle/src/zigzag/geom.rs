// From simpsoka/zigzag at 81825c4812, src/geom.rs, Apache-2.0, see NOTICE.
// Only the parts that Beahcerot ports; the text is the original's but where a
// comment says "completed", "added" or "left out" (document 01).

//! Small 2D geometry toolkit. All coordinates are in embroidery units (0.1 mm),
//! with +y pointing down (the same convention as SVG and PES).

use std::ops::{Add, Mul, Neg, Sub};

#[derive(Clone, Copy, Debug, Default, PartialEq)]
pub struct P {
    pub x: f64,
    pub y: f64,
}

impl P {
    #[inline]
    pub const fn new(x: f64, y: f64) -> Self {
        Self { x, y }
    }
    #[inline]
    pub fn dot(self, o: P) -> f64 {
        self.x * o.x + self.y * o.y
    }
    #[inline]
    pub fn len(self) -> f64 {
        // completed (document 01): the root of x*x + y*y, in place of hypot.
        (self.x * self.x + self.y * self.y).sqrt()
    }
    #[inline]
    pub fn dist(self, o: P) -> f64 {
        (self - o).len()
    }
    #[inline]
    pub fn norm(self) -> P {
        let l = self.len();
        if l > 1e-12 {
            self * (1.0 / l)
        } else {
            P::new(0.0, 0.0)
        }
    }
    /// Perpendicular (rotated 90° counter-clockwise in y-down space).
    #[inline]
    pub fn perp(self) -> P {
        P::new(-self.y, self.x)
    }
    #[inline]
    pub fn rotate(self, cos: f64, sin: f64) -> P {
        P::new(self.x * cos - self.y * sin, self.x * sin + self.y * cos)
    }
    #[inline]
    pub fn lerp(self, o: P, t: f64) -> P {
        self + (o - self) * t
    }
}

impl Add for P {
    type Output = P;
    #[inline]
    fn add(self, o: P) -> P {
        P::new(self.x + o.x, self.y + o.y)
    }
}
impl Sub for P {
    type Output = P;
    #[inline]
    fn sub(self, o: P) -> P {
        P::new(self.x - o.x, self.y - o.y)
    }
}
impl Mul<f64> for P {
    type Output = P;
    #[inline]
    fn mul(self, s: f64) -> P {
        P::new(self.x * s, self.y * s)
    }
}
impl Neg for P {
    type Output = P;
    #[inline]
    fn neg(self) -> P {
        P::new(-self.x, -self.y)
    }
}

pub type Polyline = Vec<P>;

#[derive(Clone, Copy, Debug, PartialEq, Eq)]
pub enum FillRule {
    NonZero,
    EvenOdd,
}

impl FillRule {
    #[inline]
    pub fn inside(self, winding: i32) -> bool {
        match self {
            FillRule::NonZero => winding != 0,
            FillRule::EvenOdd => winding & 1 == 1,
        }
    }
}

#[derive(Clone, Copy, Debug)]
pub struct Bounds {
    pub min: P,
    pub max: P,
}

impl Bounds {
    pub fn empty() -> Self {
        Bounds {
            min: P::new(f64::INFINITY, f64::INFINITY),
            max: P::new(f64::NEG_INFINITY, f64::NEG_INFINITY),
        }
    }
    #[inline]
    pub fn add(&mut self, p: P) {
        self.min.x = self.min.x.min(p.x);
        self.min.y = self.min.y.min(p.y);
        self.max.x = self.max.x.max(p.x);
        self.max.y = self.max.y.max(p.y);
    }
    pub fn is_empty(&self) -> bool {
        self.min.x > self.max.x
    }
    pub fn width(&self) -> f64 {
        if self.is_empty() {
            0.0
        } else {
            self.max.x - self.min.x
        }
    }
    pub fn height(&self) -> f64 {
        if self.is_empty() {
            0.0
        } else {
            self.max.y - self.min.y
        }
    }
    pub fn center(&self) -> P {
        if self.is_empty() {
            P::default()
        } else {
            self.min.lerp(self.max, 0.5)
        }
    }
}

/// Winding number of `p` with respect to closed `rings`.
pub fn winding(rings: &[Polyline], p: P) -> i32 {
    let mut w = 0;
    for ring in rings {
        let n = ring.len();
        if n < 3 {
            continue;
        }
        let mut a = ring[n - 1];
        for &b in ring {
            if a.y <= p.y {
                if b.y > p.y && cross(b - a, p - a) > 0.0 {
                    w += 1;
                }
            } else if b.y <= p.y && cross(b - a, p - a) < 0.0 {
                w -= 1;
            }
            a = b;
        }
    }
    w
}

#[inline]
pub fn cross(a: P, b: P) -> f64 {
    a.x * b.y - a.y * b.x
}

pub fn point_inside(rings: &[Polyline], rule: FillRule, p: P) -> bool {
    rule.inside(winding(rings, p))
}

/// True if the straight segment a→b stays inside the shape (sampled every `step`).
pub fn segment_inside(rings: &[Polyline], rule: FillRule, a: P, b: P, step: f64) -> bool {
    let d = a.dist(b);
    let n = (d / step).ceil().max(1.0) as usize;
    (1..n).all(|i| point_inside(rings, rule, a.lerp(b, i as f64 / n as f64)))
}

pub fn polyline_length(pts: &[P]) -> f64 {
    pts.windows(2).map(|w| w[0].dist(w[1])).sum()
}

/// Resample a polyline into stitches no longer than `len`, keeping every vertex
/// (corners stay sharp). Segments are split evenly.
pub fn resample_keep_corners(pts: &[P], len: f64) -> Polyline {
    let mut out = Vec::with_capacity(pts.len() * 2);
    if let Some(&first) = pts.first() {
        out.push(first);
    }
    for w in pts.windows(2) {
        let d = w[0].dist(w[1]);
        if d < 1e-9 {
            continue;
        }
        let n = (d / len).ceil().max(1.0) as usize;
        for i in 1..=n {
            out.push(w[0].lerp(w[1], i as f64 / n as f64));
        }
    }
    out
}

// added (request [7]): the same, with the point at the end of each piece that
// isn't skipped set to the drawn corner itself.
pub fn resample_to_corners(pts: &[P], len: f64) -> Polyline {
    let mut out = Vec::with_capacity(pts.len() * 2);
    if let Some(&first) = pts.first() {
        out.push(first);
    }
    for w in pts.windows(2) {
        let d = w[0].dist(w[1]);
        if d < 1e-9 {
            continue;
        }
        let n = (d / len).ceil().max(1.0) as usize;
        for i in 1..n {
            out.push(w[0].lerp(w[1], i as f64 / n as f64));
        }
        out.push(w[1]);
    }
    out
}
