//! Request [12] on the completed original: no stitch is longer than asked. With
//! cosine 1 and sine 0 the points come as they are before they are turned back.

mod common;

use common::{block, line, settings};
use zigzag::fill::{FillParams, tatami_merged};
use zigzag::geom::{FillRule, P, Polyline};

/// x - y, and what its rounding loses.
fn difference(x: f64, y: f64) -> (f64, f64) {
    let d = x - y;
    let back = d - x;
    (d, (x - (d - back)) - (y + back))
}

/// A sum, with what its roundings lose put back.
fn sum(terms: &[f64]) -> f64 {
    let (mut whole, mut lost) = (0.0f64, 0.0f64);
    for &t in terms {
        let next = whole + t;
        lost += if whole.abs() >= t.abs() {
            (whole - next) + t
        } else {
            (t - next) + whole
        };
        whole = next;
    }
    whole + lost
}

/// How much farther than `len` a lies from b: (dx² + dy² - len²) / (d + len), to a hundred bits.
fn excess(a: P, b: P, len: f64) -> f64 {
    let ((dx, ex), (dy, ey)) = (difference(a.x, b.x), difference(a.y, b.y));
    let rest = |x: f64| x.mul_add(x, -(x * x));
    let terms = [
        dx * dx,
        dy * dy,
        -(len * len),
        rest(dx),
        rest(dy),
        -rest(len),
        2.0 * dx * ex,
        2.0 * dy * ey,
    ];
    sum(&terms) / ((dx * dx + dy * dy).sqrt() + len)
}

/// The largest excess in a fill, and how many stitches it has.
fn longest(rings: &[Polyline], rule: FillRule, p: &FillParams) -> (f64, usize) {
    let sections = tatami_merged(rings, rule, p);
    let stitches = || sections.iter().flat_map(|s| s.windows(2));
    let most = stitches().map(|w| excess(w[0], w[1], p.len));
    (most.fold(-p.len, f64::max), stitches().count())
}

struct Rng(u64);

impl Rng {
    fn next(&mut self) -> u64 {
        self.0 ^= self.0 << 13;
        self.0 ^= self.0 >> 7;
        self.0 ^= self.0 << 17;
        self.0
    }
    /// From 0 up to 1.
    fn part(&mut self) -> f64 {
        (self.next() >> 11) as f64 / (1u64 << 53) as f64
    }
    fn between(&mut self, lo: f64, hi: f64) -> f64 {
        lo + (hi - lo) * self.part()
    }
    fn of(&mut self, all: &[f64]) -> f64 {
        all[(self.next() % all.len() as u64) as usize]
    }
}

/// A star of `n` corners about (x, y), so wide and so high.
fn star(r: &mut Rng, x: f64, y: f64, wide: f64, high: f64, n: u64) -> Polyline {
    let corner = |i: u64, r: &mut Rng| {
        let (sin, cos) = (i as f64 / n as f64 * std::f64::consts::TAU).sin_cos();
        let far = r.between(0.3, 1.0);
        (x + wide * far * cos, y + high * far * sin)
    };
    let corners: Vec<_> = (0..n).map(|i| corner(i, r)).collect();
    line(&corners)
}

/// A fill inside the limits: anywhere up to 100,000, the lengths' ends among its settings.
fn fill(r: &mut Rng) -> (Vec<Polyline>, FillParams) {
    let some = r.between(1.0, 1000.0);
    let len = r.of(&[
        1.0,
        1.0f64.next_up(),
        1000.0,
        1000.0f64.next_down(),
        10.0,
        some,
    ]);
    let spacing = r
        .of(&[0.5, 4.0, 1000.0, len * 1.5, len * 3.0])
        .clamp(0.5, 1000.0);
    let wide = (len * r.between(2.0, 400.0)).min(45_000.0);
    let high = (spacing * r.between(2.0, 30.0)).min(45_000.0);
    let far = r.of(&[0.0, 1000.0, 50_000.0]);
    let (x, y) = (r.between(-far, far), r.between(-far, far));
    let rings = if r.next() % 4 == 0 {
        vec![
            block(x, y, wide, high),
            block(x + wide / 4.0, y + high / 4.0, wide / 2.0, high / 2.0),
        ]
    } else {
        let n = 3 + r.next() % 12;
        vec![star(r, x, y, wide, high, n)]
    };
    let p = FillParams {
        spacing,
        len,
        inset: r.of(&[0.0, 0.0, 2.5, 100.0, -100.0]),
        pull: r.of(&[0.0, 0.0, 0.3, -100.0]),
        stagger: (r.next() % 5) as _,
        bottom_up: r.next() % 2 == 0,
        ..settings()
    };
    (rings, p)
}

#[test]
fn no_stitch_is_longer_than_asked() {
    let count = std::env::var("BEAHCEROT_FILLS").map_or(3000, |n| n.parse().unwrap());
    let (mut r, mut most, mut all) = (Rng(12), -1000.0f64, 0);
    for _ in 0..count {
        let (rings, p) = fill(&mut r);
        let rule = if r.next() % 2 == 0 {
            FillRule::NonZero
        } else {
            FillRule::EvenOdd
        };
        let (excess, stitches) = longest(&rings, rule, &p);
        all += stitches;
        most = most.max(excess);
    }
    println!("{count} fills, {all} stitches, longest: len + {most:e}");
    assert!(all > 100 * count, "too few stitches to tell: {all}");
    assert!(most > -1e-6, "none is as long as asked: {most:e}");
    assert!(most < 1e-9, "len + {most:e}");
}
