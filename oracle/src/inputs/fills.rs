//! Fills: an outline with settings, and how much is lent for it.

use super::numbers::{self, beside, outside, plain};
use super::outlines::{self, Outline, block, line};
use crate::expect::{LEN, SHRINK, SPACING};
use crate::rng::Rng;
use std::ops::RangeInclusive;
use zigzag::fill::FillParams;
use zigzag::geom::{FillRule, P, Polyline};

/// A fill as ours is asked for it.
#[derive(Clone)]
pub struct Fill {
    pub outline: Outline,
    /// 0 for NonZero, anything else for EvenOdd.
    pub rule: u64,
    pub spacing: f64,
    pub len: f64,
    pub inset: f64,
    pub pull: f64,
    pub cosine: f64,
    pub sine: f64,
    pub stagger: u64,
    pub bottom_up: bool,
}

impl Fill {
    /// Rings with the settings of document 01's Q.
    pub fn new(rings: &[Polyline]) -> Fill {
        Fill {
            outline: Outline::new(rings),
            rule: 0,
            spacing: 4.0,
            len: 10.0,
            inset: 0.0,
            pull: 0.0,
            cosine: 1.0,
            sine: 0.0,
            stagger: 1,
            bottom_up: false,
        }
    }

    /// Document 01's K1.
    pub fn k1() -> Fill {
        Fill::new(&[block(0.0, 0.0, 10.0, 10.0)])
    }

    pub fn rule(&self) -> FillRule {
        match self.rule {
            0 => FillRule::NonZero,
            _ => FillRule::EvenOdd,
        }
    }

    /// The original's settings, of a fill whose stagger is no refusal.
    pub fn params(&self) -> FillParams {
        FillParams {
            c: self.cosine,
            s: self.sine,
            spacing: self.spacing,
            len: self.len,
            inset: self.inset,
            pull: self.pull,
            stagger: self.stagger as u32,
            bottom_up: self.bottom_up,
        }
    }
}

/// A fill of any kind, one in three of them refused whatever it is lent.
pub fn any(rng: &mut Rng) -> Fill {
    let mut fill = sound(rng);
    fill.outline = outlines::damaged(rng, fill.outline);
    if rng.one_in(10) {
        spoil(rng, &mut fill);
    }
    fill
}

/// A fill of any kind with another's outline, rule and angle (request [6]).
pub fn beneath(rng: &mut Rng, first: &Fill) -> Fill {
    Fill {
        outline: first.outline.clone(),
        rule: first.rule,
        cosine: first.cosine,
        sine: first.sine,
        ..any(rng)
    }
}

/// A fill with a sound outline and settings within their ranges; of its cosine
/// and sine some are refused, and seldom it has too many rows. Spacing and len
/// go by the outline's size, so that most fills have few rows and points.
pub fn sound(rng: &mut Rng) -> Fill {
    match rng.below(24) {
        0 => measured(rng),
        1 => {
            let outline = bricks(rng);
            around(rng, outline)
        }
        2 => {
            let outline = hourglass(rng);
            around(rng, outline)
        }
        _ => {
            let outline = outlines::sound(rng);
            around(rng, outline)
        }
    }
}

fn around(rng: &mut Rng, outline: Outline) -> Fill {
    let span = span(&outline).max(1.0);
    let (cosine, sine) = numbers::turn(rng);
    let spacing = spacing(rng, span);
    Fill {
        rule: match rng.below(40) {
            0 => rng.pick(&[2, 1 << 32, u64::MAX]),
            n => n % 2,
        },
        spacing,
        len: len(rng, span, span / spacing),
        inset: shrink(rng),
        pull: shrink(rng),
        cosine,
        sine,
        stagger: stagger(rng),
        bottom_up: rng.one_in(2),
        outline,
    }
}

fn stagger(rng: &mut Rng) -> u64 {
    match rng.below(8) {
        0 => rng.below(1001),
        _ => rng.pick(&[0, 1, 2, 3, 4, 7, 1000]),
    }
}

/// A leaning block whose rows, or the links between them, are a whole number of
/// stitches long, give or take an ulp. The slope is a short binary fraction, so
/// that row ends come out exact.
fn measured(rng: &mut Rng) -> Fill {
    let spacing = rng.pick(&[0.5, 1.0, 2.0, 4.0, 8.0]);
    let fine = rng.pick(&[1, 1 << 33]);
    let lean = rng.range(-64 * fine, 64 * fine) as f64 / (8 * fine) as f64;
    let stitches = rng.range(1, 5) as f64;
    let few = rng.range(-2, 2);
    let (width, len) = if rng.one_in(2) {
        let link = beside(P::new(lean, spacing).len() / stitches, few);
        (rng.range(3, 40) as f64, clip(link, LEN))
    } else {
        let len = rng.range(10, 80) as f64 / 10.0;
        (beside(stitches * len, few), len)
    };
    let rows = rng.range(1, 8) as f64;
    let (x, y) = (rng.range(-9, 9) as f64, rng.range(-4, 4) as f64 * spacing);
    let (far, low) = (x + lean * rows, y + spacing * rows);
    Fill {
        spacing,
        len,
        stagger: stagger(rng),
        bottom_up: rng.one_in(2),
        ..Fill::new(&[line(&[
            (x, y),
            (x + width, y),
            (far + width, low),
            (far, low),
        ])])
    }
}

/// Two fields with a waist about as wide as the narrowest piece that is kept:
/// rows without a piece between rows that could be linked.
fn hourglass(rng: &mut Rng) -> Outline {
    let (w, h) = (rng.range(8, 60) as f64, rng.range(4, 60) as f64);
    let waist = rng.range(1, 80) as f64 / 20.0;
    let (left, right) = (w / 2.0 - waist, w / 2.0 + waist);
    let long = rng.range(0, 6) as f64;
    Outline::new(&[line(&[
        (0.0, -h),
        (w, -h),
        (right, -long),
        (right, long),
        (w, h),
        (0.0, h),
        (left, long),
        (left, -long),
    ])])
}

/// Blocks in columns that touch, each at a height of its own, drawn in any
/// order: crossings of equal x, of one direction or of both.
fn bricks(rng: &mut Rng) -> Outline {
    let width = rng.range(4, 30) as f64;
    let rings: Vec<Polyline> = (0..rng.range(2, 8))
        .map(|_| {
            let (x, y) = (rng.range(0, 3) as f64 * width, rng.range(-20, 20) as f64);
            let mut ring = block(x, y, width, rng.range(1, 40) as f64);
            if rng.one_in(4) {
                ring.reverse();
            }
            ring
        })
        .collect();
    Outline::new(&rings)
}

/// The greater of an outline's width and height.
fn span(outline: &Outline) -> f64 {
    let extent = |odd: usize| {
        let list = outline.corners.iter().skip(odd).step_by(2);
        let lo = list.clone().copied().fold(f64::INFINITY, f64::min);
        list.copied().fold(f64::NEG_INFINITY, f64::max) - lo
    };
    extent(0).max(extent(1))
}

fn clip(x: f64, range: RangeInclusive<f64>) -> f64 {
    x.clamp(*range.start(), *range.end())
}

fn spacing(rng: &mut Rng, span: f64) -> f64 {
    let rows = match rng.below(30) {
        0 => rng.range(40, 400),
        _ => rng.range(1, 40),
    };
    let suited = clip(span / rows as f64, SPACING);
    let spacing = match rng.below(8) {
        0 => rng.pick(&[0.5, 1.0, 2.0, 3.0, 4.0, 7.5, 1000.0]),
        1..4 => (suited * 2.0).round() / 2.0, // corners that lie on rows
        _ => suited,
    };
    // Past 6,000 rows the call is refused, which costs nothing.
    let costly = (600.0..6000.0).contains(&(span / spacing));
    if costly && !rng.one_in(40) {
        return suited;
    }
    spacing
}

fn len(rng: &mut Rng, span: f64, rows: f64) -> f64 {
    let suited = clip(span / rng.range(1, 30) as f64, LEN);
    let len = match rng.below(4) {
        0 => rng.pick(&[1.0, 1.2, 2.5, 4.0, 10.0, 25.0, 40.0, 1000.0]),
        1 => suited.round(),
        _ => suited,
    };
    let costly = rows * span / len > 5000.0;
    if costly && !rng.one_in(100) {
        return clip(rows * span / 5000.0, LEN);
    }
    len
}

/// An inset or a pull.
pub fn shrink(rng: &mut Rng) -> f64 {
    match rng.below(16) {
        0 => rng.pick(&[100.0, -100.0, 50.0, -50.0]),
        1 => rng.pick(&[-0.0, 5e-324, 1e-9, 0.99, 1.0]),
        2..5 => rng.range(-8, 8) as f64 / 2.0,
        5..8 => plain(rng) / 20_000.0,
        8 => plain(rng) / 1000.0,
        _ => 0.0,
    }
}

/// One setting outside its range.
fn spoil(rng: &mut Rng, fill: &mut Fill) {
    match rng.below(6) {
        0 => fill.spacing = outside(rng, SPACING),
        1 => fill.len = outside(rng, LEN),
        2 => fill.inset = outside(rng, SHRINK),
        3 => fill.pull = outside(rng, SHRINK),
        4 => fill.spacing = rng.pick(&[0.0, -0.0, 0.49]),
        _ => fill.stagger = rng.pick(&[1001, 1 << 32, (1 << 32) + 1, u64::MAX]),
    }
}

/// How many ways `lend` knows to lend so many slices.
pub fn ways(slices: usize) -> usize {
    5 + 2 * slices
}

/// What is lent to a call by its need: the need, more, less by one in one slice
/// or in all, nothing in one slice or in all.
pub fn lend(way: usize, need: &[usize]) -> Vec<usize> {
    let n = need.len();
    let at = |k: usize| match way {
        0 => need[k],
        1 => need[k] + 1 + (3 * k) % 5,
        2 => need[k] + 100,
        3 => 0,
        4 => need[k].saturating_sub(1),
        way if way == 5 + k => need[k].saturating_sub(1),
        way if way == 5 + n + k => 0,
        way if way < 5 + n => need[k],
        _ => need[k] + k,
    };
    (0..n).map(at).collect()
}
