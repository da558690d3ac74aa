//! Rails, sync points and a column's settings; paths to be split or bent.

use super::fills::shrink;
use super::lines;
use super::numbers::{beside, coordinate, outside, plain, setting, spoil};
use super::outlines::points;
use crate::expect::{self, CORNERS, LEN, PAIRS, SHRINK, SPACING, SPLIT, STEP, SYNCS};
use crate::rng::Rng;
use std::f64::consts::TAU;
use std::ops::RangeInclusive;
use zigzag::geom::{P, Polyline};
use zigzag::satin::{self, SatinParams, SatinStyle};

/// Two rails and their sync points, each a flat list.
#[derive(Clone)]
pub struct Rails {
    pub a: Vec<f64>,
    pub b: Vec<f64>,
    pub sync: Vec<f64>,
}

pub fn flat(points: &[P]) -> Vec<f64> {
    points.iter().flat_map(|p| [p.x, p.y]).collect()
}

impl Rails {
    pub fn new(a: &[P], b: &[P]) -> Rails {
        Rails {
            a: flat(a),
            b: flat(b),
            sync: Vec::new(),
        }
    }

    /// Two straight rails from x = 0, so far apart; 10, 10, 4 are document 01's K10.
    pub fn bar(a: f64, b: f64, width: f64) -> Rails {
        Rails {
            a: vec![0.0, 0.0, a, 0.0],
            b: vec![0.0, width, b, width],
            sync: Vec::new(),
        }
    }

    /// The original's form.
    pub fn original(&self) -> satin::Rails {
        satin::Rails {
            a: points(&self.a),
            b: points(&self.b),
            sync: self.sync.chunks_exact(2).map(|s| (s[0], s[1])).collect(),
        }
    }

    pub fn few(&self) -> bool {
        self.a.len() / 2 < 2 || self.b.len() / 2 < 2
    }

    fn lengths(&self) -> (f64, f64) {
        let length = |list: &[f64]| expect::arc_length(&points(list));
        (length(&self.a), length(&self.b))
    }

    /// About the column's centre length; something where a number is bad.
    fn centre(&self) -> f64 {
        let (a, b) = self.lengths();
        let centre = (a + b) * 0.5;
        if centre.is_finite() { centre } else { 100.0 }
    }
}

/// A call of `pairs`.
#[derive(Clone)]
pub struct Matched {
    pub rails: Rails,
    pub step: f64,
}

/// A call of `split_long`; `s_stitch` takes the line alone.
#[derive(Clone)]
pub struct Path {
    pub line: Vec<f64>,
    pub max: f64,
}

/// A call of `column`.
#[derive(Clone)]
pub struct Column {
    pub rails: Rails,
    pub spacing: f64,
    pub pull: f64,
    pub underlay: u64,
    pub run_len: f64,
    pub short_stitches: bool,
    /// 0 for none.
    pub split: f64,
    /// 0 for plain, 1 for the s form, anything else for zigzag.
    pub style: u64,
}

/// A call of `top`: the column, and whether the thread is at the far end.
#[derive(Clone)]
pub struct Top {
    pub column: Column,
    pub far: bool,
}

impl Column {
    /// Rails with ordinary settings.
    pub fn new(rails: Rails) -> Column {
        Column {
            rails,
            spacing: 4.0,
            pull: 2.0,
            underlay: 7,
            run_len: 25.0,
            short_stitches: true,
            split: 0.0,
            style: 0,
        }
    }

    pub fn style(&self) -> SatinStyle {
        match self.style {
            0 => SatinStyle::Plain,
            1 => SatinStyle::SStitch,
            _ => SatinStyle::Zigzag,
        }
    }

    /// The original's settings, of a column whose underlay is no refusal.
    pub fn params(&self) -> SatinParams {
        SatinParams {
            spacing: self.spacing,
            pull: self.pull,
            underlay: self.underlay as u8,
            run_len: self.run_len,
            short_stitches: self.short_stitches,
            split: (self.split != 0.0).then_some(self.split),
            style: self.style(),
        }
    }
}

// ---- rails

/// Rails that document 01 accepts, few of them long: what is worked out grows
/// with their length.
pub fn sound(rng: &mut Rng) -> Rails {
    let mut rails = shape(rng);
    for _ in 0..rng.below(3) {
        alter(rng, &mut rails);
    }
    for list in [&mut rails.a, &mut rails.b] {
        list.truncate(2 * CORNERS);
        for x in list.iter_mut() {
            *x = x.clamp(-expect::SIZE_LIMIT, expect::SIZE_LIMIT);
        }
    }
    rails.sync = sync(rng, &rails);
    rails
}

/// Rails, one in six of them damaged.
pub fn any(rng: &mut Rng) -> Rails {
    let mut rails = sound(rng);
    spoil(rng, &mut rails.a, 40);
    spoil(rng, &mut rails.b, 40);
    spoil(rng, &mut rails.sync, 40);
    if rng.one_in(12) {
        damage(rng, &mut rails);
    }
    rails
}

/// An odd count, or more than the limit.
fn damage(rng: &mut Rng, rails: &mut Rails) {
    let (list, most) = match rng.below(3) {
        0 => (&mut rails.a, CORNERS),
        1 => (&mut rails.b, CORNERS),
        _ => (&mut rails.sync, SYNCS),
    };
    match rng.below(4) {
        0 => list.push(1.0),
        1 => {
            list.pop();
        }
        2 => list.resize(2 * most + 1, 3.0),
        _ => list.resize(2 * (most + 1), 3.0),
    }
}

fn shape(rng: &mut Rng) -> Rails {
    match rng.below(16) {
        0 | 1 => {
            let length = rng.range(0, 60) as f64;
            let other = rng.pick(&[length, length, 2.0 * length, length + 0.5, 1.0]);
            Rails::bar(length, other, rng.range(-9, 40) as f64)
        }
        2..=5 => ribbon(rng),
        6..=8 => bend(rng),
        9 => fan(rng),
        10 => tangle(rng, 0.01),
        11 if rng.one_in(4) => tangle(rng, 1.0),
        12 => long(rng),
        13 => few_corners(rng),
        14 => narrow(rng),
        _ => Rails {
            a: lines::sound(rng, 5.0),
            b: lines::sound(rng, 5.0),
            sync: Vec::new(),
        },
    }
}

fn width(rng: &mut Rng) -> f64 {
    match rng.below(4) {
        0 => rng.range(1, 12) as f64,
        1 => rng.range(60, 300) as f64,
        _ => 1.0 + plain(rng).abs() / 2500.0,
    }
}

/// A line and its two offsets, as a single stroke gives them.
fn ribbon(rng: &mut Rng) -> Rails {
    let half = width(rng) * 0.5;
    let (mut at, mut angle) = (P::new(plain(rng) / 500.0, plain(rng) / 500.0), 0.0f64);
    let (mut a, mut b) = (Polyline::new(), Polyline::new());
    for _ in 0..2 + rng.below(9) {
        let side = P::new(-angle.sin(), angle.cos()) * half;
        a.push(at + side);
        b.push(at - side);
        angle += rng.range(-90, 90) as f64 / 60.0;
        at = at + P::new(angle.cos(), angle.sin()) * (rng.range(5, 400) as f64 / 10.0);
    }
    Rails::new(&a, &b)
}

fn arc(radius: f64, corners: usize, from: f64, to: f64) -> Polyline {
    let at = |k: usize| {
        let angle = from + (to - from) * k as f64 / (corners - 1) as f64;
        P::new(angle.cos(), angle.sin()) * radius
    };
    (0..corners).map(at).collect()
}

/// Round a bend or a whole loop: the inner rail is short and its points crowd.
fn bend(rng: &mut Rng) -> Rails {
    let inner = rng.range(0, 400) as f64 / 10.0;
    let outer = inner + width(rng);
    let (from, round) = (plain(rng) / 30_000.0, rng.pick(&[1.0, 0.25, 0.5, 2.0]));
    let mut corners = || 3 + rng.index(20);
    let (ca, cb) = (corners(), corners());
    let mut a = arc(outer, ca, from, from + TAU * round);
    let b = arc(inner, cb, from, from + TAU * round);
    if round == 1.0 {
        // Closed to the bit.
        a[ca - 1] = a[0];
    }
    Rails::new(&a, &b)
}

/// All stitches meet in one corner, or nearly.
fn fan(rng: &mut Rng) -> Rails {
    let tip = P::new(coordinate(rng) / 100.0, coordinate(rng) / 100.0);
    let hair = rng.pick(&[0.0, 0.0, 1e-13, 1e-12, 1e-9, 0.25]);
    let corners = 2 + rng.index(4);
    let tips: Polyline = (0..corners)
        .map(|k| tip + P::new(hair * k as f64, 0.0))
        .collect();
    let arc = arc(width(rng), 2 + rng.index(9), 0.0, 2.0);
    if rng.one_in(2) {
        Rails::new(&arc, &tips)
    } else {
        Rails::new(&tips, &arc)
    }
}

/// Any corners at all.
fn tangle(rng: &mut Rng, scale: f64) -> Rails {
    let mut line = |most: u64| -> Polyline {
        let corner = |rng: &mut Rng| P::new(coordinate(rng), coordinate(rng)) * scale;
        (0..2 + rng.below(most)).map(|_| corner(rng)).collect()
    };
    let (a, b) = (line(6), line(6));
    Rails::new(&a, &b)
}

/// Up to 1,024 corners on one rail or on both.
fn long(rng: &mut Rng) -> Rails {
    let count = |rng: &mut Rng| match rng.below(8) {
        0 => CORNERS,
        1 => 2,
        2..=4 => rng.index(200) + 2,
        _ => rng.index(40) + 2,
    };
    let (a, b) = (count(rng), count(rng));
    let waves = |n: usize, y: f64| -> Polyline {
        let at = |k: usize| P::new(k as f64 * 1.5, y + (k as f64 * 0.3).sin() * 4.0);
        (0..n).map(at).collect()
    };
    Rails::new(&waves(a, 0.0), &waves(b, width(rng)))
}

/// Rails of 0, 1 or 2 corners.
fn few_corners(rng: &mut Rng) -> Rails {
    let line = |rng: &mut Rng| -> Polyline {
        let point = |rng: &mut Rng| P::new(rng.range(-9, 9) as f64, rng.range(-9, 9) as f64);
        (0..rng.below(4)).map(|_| point(rng)).collect()
    };
    Rails::new(&line(rng), &line(rng))
}

/// Rails that lie on each other, cross, or stand about as far apart as `norm`
/// gives up at, as an underlay's inset changes at (16.0), or as a stitch is bent at.
fn narrow(rng: &mut Rng) -> Rails {
    let near = rng.pick(&[0.0, 1e-12, 1e-9, 2.5, 6.0, 16.0, 400.0 / 9.0]);
    let w = beside(near, rng.range(-1, 1));
    let (long, other) = (rng.range(1, 40) as f64, rng.range(1, 40) as f64);
    let cross = if rng.one_in(3) { -w } else { w };
    Rails {
        a: vec![0.0, 0.0, long, 0.0],
        b: vec![0.0, w, if rng.one_in(2) { long } else { other }, cross],
        sync: Vec::new(),
    }
}

/// One change to one rail.
fn alter(rng: &mut Rng, rails: &mut Rails) {
    let list = if rng.one_in(2) {
        &mut rails.a
    } else {
        &mut rails.b
    };
    if list.len() < 4 {
        return;
    }
    let at = 2 * rng.index(list.len() / 2);
    let (x, y) = (list[at], list[at + 1]);
    match rng.below(8) {
        0 | 1 => {
            // A corner again, or a piece about as short as is told from none.
            let hair = rng.pick(&[0.0, 0.0, 1e-13, beside(1e-12, 1), 1e-12, 1e-9]);
            list.splice(at..at, [x, y - hair]);
        }
        2 => {
            let first = [list[0], list[1]];
            list.extend(first);
        }
        3 => {
            let turned: Polyline = points(list).into_iter().rev().collect();
            *list = flat(&turned);
        }
        4 => {
            let far = P::new(coordinate(rng), coordinate(rng)) * 0.5;
            let moved: Polyline = points(list).into_iter().map(|p| p + far).collect();
            *list = flat(&moved);
        }
        5 => list[at] = rng.pick(&[-0.0, 0.0, 5e-324, -5e-324]),
        6 => list.iter_mut().for_each(|x| *x = x.round()),
        _ => (list[at], list[at + 1]) = (x + plain(rng) / 5000.0, y + plain(rng) / 5000.0),
    }
}

// ---- sync points

/// Sync points of which most are kept: rising along both rails, then some moved
/// to where they are just kept or just not.
fn sync(rng: &mut Rng, rails: &Rails) -> Vec<f64> {
    let count = match rng.below(80) {
        0 => rng.pick(&[SYNCS - 1, SYNCS]),
        1 | 2 => rng.index(SYNCS),
        3..=40 => 1 + rng.index(6),
        _ => return Vec::new(),
    };
    let (la, lb) = rails.lengths();
    let (mut list, mut from) = (Vec::new(), (0.0, 0.0));
    for k in 1..=count {
        let part = |rng: &mut Rng, length: f64| {
            let jitter = rng.range(-40, 40) as f64 / 100.0;
            length * (k as f64 + jitter) / (count + 1) as f64
        };
        let mut to = (part(rng, la), part(rng, lb));
        if rng.one_in(4) {
            to = moved(rng, to, from, (la, lb));
        }
        list.extend([to.0, to.1].map(|x| x.clamp(-expect::SIZE_LIMIT, expect::SIZE_LIMIT)));
        from = to;
    }
    list
}

/// A sync point with one of its two places put where it is just kept or not.
fn moved(rng: &mut Rng, to: (f64, f64), from: (f64, f64), ends: (f64, f64)) -> (f64, f64) {
    let odd = |rng: &mut Rng, from: f64, end: f64| match rng.below(8) {
        0 => from,
        1 => beside(from, rng.range(-1, 1)),
        2 => end,
        3 => beside(end, rng.range(-1, 1)),
        4 => end + 1.0,
        5 => rng.pick(&[0.0, -0.0, 5e-324, -1.0, -100_000.0, 100_000.0]),
        6 => beside(end - 1e-9, rng.range(-1, 1)),
        _ => from - rng.range(0, 30) as f64 / 10.0,
    };
    match rng.below(6) {
        0 | 1 => (odd(rng, from.0, ends.0), to.1),
        2 | 3 => (to.0, odd(rng, from.1, ends.1)),
        4 => {
            // A window of almost no length.
            let hair = rng.pick(&[1e-13, 1e-12, 5e-10, 1e-9, 2e-9]);
            (from.0 + hair, from.1 + hair)
        }
        _ => (odd(rng, from.0, ends.0), odd(rng, from.1, ends.1)),
    }
}

// ---- calls

/// A step within a range, by a length so that a pass seldom has over 40 pairs.
fn step(rng: &mut Rng, centre: f64, range: RangeInclusive<f64>) -> f64 {
    let clip = |x: f64| x.clamp(*range.start(), *range.end());
    let suited = clip(centre / rng.range(1, 40) as f64);
    let step = match rng.below(8) {
        0 => setting(rng, range.clone()),
        1 => rng.pick(&[1.0, 2.0, 2.5, 3.0, 4.0, 5.0, 10.0, 30.0, 1000.0]),
        2 => clip(suited.round()),
        3 => clip(beside(suited, rng.range(-1, 1))),
        _ => suited,
    };
    // Past the limit the call is refused, which costs nothing.
    let costly = (400.0..2.0 * PAIRS as f64).contains(&(centre / step));
    if costly && !rng.one_in(50) {
        return suited;
    }
    step
}

/// Straight rails whose n is past its limit with the finest step, seldom at it.
fn at_the_limit(rng: &mut Rng) -> Rails {
    let most = PAIRS as f64 * 0.5;
    let length = match rng.below(16) {
        0 => most,
        1 => beside(most, 1),
        2 => most + 0.5,
        _ => most + plain(rng).abs() * 0.5 + 0.1,
    };
    Rails::bar(length, length, width(rng))
}

/// A call of `pairs` of any kind.
pub fn matched(rng: &mut Rng) -> Matched {
    if rng.one_in(200) {
        let rails = at_the_limit(rng);
        return Matched { rails, step: 0.5 };
    }
    let rails = any(rng);
    let mut step = step(rng, rails.centre(), STEP);
    if rng.one_in(20) {
        step = outside(rng, STEP);
    }
    Matched { rails, step }
}

/// A path of any kind: pieces that are a whole number of the longest stitch
/// long, or about 6.0, or about where the bend stops to grow; or the stitches
/// of a column.
pub fn path(rng: &mut Rng) -> Path {
    let mut max = setting(rng, SPLIT);
    let line = match rng.below(8) {
        0..=3 => lines::any(rng, max),
        4 => lines::any(rng, 6.0),
        5 => lines::any(rng, 8.0 / 0.18),
        _ => {
            let rails = sound(rng);
            let step = (rails.centre() / rng.range(1, 20) as f64).clamp(0.5, 1000.0);
            let pairs = satin::pairs(&rails.original(), step);
            let stitches: Polyline = pairs.into_iter().flat_map(|(a, b)| [a, b]).collect();
            max = (width(rng) / rng.range(1, 6) as f64).max(0.5);
            flat(&stitches[..stitches.len().min(CORNERS)])
        }
    };
    Path { line, max }
}

/// The top of any column, from either end.
pub fn top(rng: &mut Rng) -> Top {
    let column = column(rng);
    let far = rng.one_in(2);
    Top { column, far }
}

/// A column of any kind, one in four of them refused whatever it is lent.
pub fn column(rng: &mut Rng) -> Column {
    let rails = any(rng);
    let centre = rails.centre();
    let mut column = Column {
        spacing: step(rng, centre, SPACING),
        pull: shrink(rng),
        underlay: underlay(rng, centre),
        run_len: step(rng, centre, LEN),
        short_stitches: rng.one_in(2),
        split: split(rng),
        style: match rng.below(40) {
            0 => rng.pick(&[3, 1 << 32, u64::MAX]),
            n => n % 3,
        },
        rails,
    };
    if rng.one_in(200) {
        column.rails = at_the_limit(rng);
        column.spacing = 0.5;
        column.underlay &= 3;
    }
    if rng.one_in(16) {
        spoil_setting(rng, &mut column);
    }
    column
}

/// The zigzag underlay has a pair each 30 units: seldom on long rails.
fn underlay(rng: &mut Rng, centre: f64) -> u64 {
    let costly = (12_000.0..4e6).contains(&centre);
    let bits = rng.below(8);
    if costly && !rng.one_in(50) {
        bits & 3
    } else {
        bits
    }
}

fn split(rng: &mut Rng) -> f64 {
    match rng.below(8) {
        0..=2 => rng.pick(&[0.0, 0.0, -0.0]),
        3 => setting(rng, SPLIT),
        _ => (width(rng) / rng.range(1, 6) as f64).clamp(0.5, 1000.0),
    }
}

/// One setting outside its range.
fn spoil_setting(rng: &mut Rng, c: &mut Column) {
    match rng.below(5) {
        0 => c.spacing = outside(rng, SPACING),
        1 => c.pull = outside(rng, SHRINK),
        2 => c.underlay = rng.pick(&[8, 255, 256, 1 << 32, u64::MAX]),
        3 => c.run_len = outside(rng, LEN),
        _ => c.split = outside(rng, SPLIT),
    }
}
