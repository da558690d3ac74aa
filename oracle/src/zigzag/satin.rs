// From simpsoka/zigzag at 81825c4812, src/stitch/satin.rs, Apache-2.0, see NOTICE.
// Only the parts that Beahcerot ports; the text is the original's but where a
// comment says "completed", "added" or "left out" (document 01).

//! Satin columns between two rails.
//!
//! Every satin, however it was drawn, becomes a pair of rails sewn with zigzag
//! stitches between them:
//! - a single stroke: rails are its centerline offset by ± width/2;
//! - an Ink/Stitch-style satin column: a path with two rails (and optional
//!   rungs that keep the rails in step);
//! - a filled shape ("auto satin"): a ring with a hole uses outer and inner
//!   outlines as rails; a single ring is split at its two tips.
//!
//! The column is sewn as one continuous path: underlay passes (center walk,
//! contour, zigzag) followed by the top satin, with pull compensation and
//! short stitches on the inside of tight curves.

use crate::geom::{P, Polyline};
use crate::params::underlay;

#[derive(Clone, Debug)]
pub struct Rails {
    pub a: Polyline,
    pub b: Polyline,
    // left out (document 01): `closed`, which the wanted functions don't read.
    /// Rung positions as (arc length on a, arc length on b), increasing.
    pub sync: Vec<(f64, f64)>,
}

#[derive(Clone, Debug)]
pub struct SatinParams {
    /// Distance between zigzag peaks along the column, units.
    pub spacing: f64,
    /// Extra width per side, units.
    pub pull: f64,
    /// Underlay passes (`params::underlay` flags).
    pub underlay: u8,
    /// Underlay stitch length, units.
    pub run_len: f64,
    /// Shorten alternate stitches where needle points on a rail crowd together.
    pub short_stitches: bool,
    /// Split top stitches longer than this, units (auto-split for wide columns).
    pub split: Option<f64>,
    /// How the top stitches cross the column.
    pub style: SatinStyle,
}

/// The pattern a satin column's top stitches make (Ink/Stitch's satin,
/// S-stitch and zigzag satin).
#[derive(Clone, Copy, Debug, Default, PartialEq, Eq, Hash)]
pub enum SatinStyle {
    /// Plain satin: each stitch straight across.
    #[default]
    Plain,
    /// S-stitch: every stitch across is split into a shallow S (three
    /// stitches, the middle one offset), a curvy, less shiny texture.
    SStitch,
    /// Zigzag: a lighter, open column, as a zigzag stitch rather than a
    /// solid satin: the spacing is multiplied up and nothing is split.
    Zigzag,
}

/// Rail points closer than this (units) count as crowded (Ink/Stitch: 0.25 mm).
const SHORT_DIST: f64 = 2.5;
/// How far crowded alternate stitches are pulled in, as a fraction of width.
const SHORT_INSET: f64 = 0.15;
/// Underlay sits this far inside the rails (units), at most a quarter of the width.
const UNDERLAY_INSET: f64 = 4.0;
/// Zigzag underlay peak spacing, units.
const ZIGZAG_UNDERLAY_SPACING: f64 = 30.0;

struct Arc<'a> {
    pts: &'a [P],
    cum: Vec<f64>,
}

impl<'a> Arc<'a> {
    fn new(pts: &'a [P]) -> Self {
        let mut cum = Vec::with_capacity(pts.len());
        let mut s = 0.0;
        for (i, p) in pts.iter().enumerate() {
            if i > 0 {
                s += pts[i - 1].dist(*p);
            }
            cum.push(s);
        }
        Arc { pts, cum }
    }
    fn len(&self) -> f64 {
        *self.cum.last().unwrap_or(&0.0)
    }
    fn at(&self, s: f64) -> P {
        let n = self.pts.len();
        if n == 1 {
            return self.pts[0];
        }
        let s = s.clamp(0.0, self.len());
        let i = self.cum.partition_point(|&c| c <= s).clamp(1, n - 1);
        let seg = self.cum[i] - self.cum[i - 1];
        let t = if seg > 1e-12 {
            (s - self.cum[i - 1]) / seg
        } else {
            0.0
        };
        self.pts[i - 1].lerp(self.pts[i], t)
    }
}

/// Matched points on both rails, evenly about `step` apart along the column
/// center. Between sync points (rungs, or the offsets of a centerline) each
/// rail is followed in proportion, so stitches stay square to the column
/// even where one rail is much longer than the other (round a bend).
pub fn pairs(r: &Rails, step: f64) -> Vec<(P, P)> {
    if r.a.len() < 2 || r.b.len() < 2 {
        return Vec::new();
    }
    let (a, b) = (Arc::new(&r.a), Arc::new(&r.b));
    let mut syncs = vec![(0.0, 0.0)];
    for &(sa, sb) in &r.sync {
        let (pa, pb) = *syncs.last().unwrap();
        if sa > pa && sb > pb && sa < a.len() && sb < b.len() {
            syncs.push((sa, sb));
        }
    }
    syncs.push((a.len(), b.len()));
    // The column's center length, window by window.
    let centers: Vec<f64> = syncs
        .windows(2)
        .map(|w| ((w[1].0 - w[0].0) + (w[1].1 - w[0].1)) * 0.5)
        .collect();
    let total: f64 = centers.iter().sum();
    let n = (total / step).ceil().max(1.0) as usize;
    let step = total / n as f64;
    let mut out = Vec::with_capacity(n + 1);
    let mut s = 0.0; // distance into the current window
    for (w, &center) in syncs.windows(2).zip(&centers) {
        let ((a0, b0), (a1, b1)) = (w[0], w[1]);
        while s < center - 1e-9 && out.len() < n {
            let t = if center > 1e-12 { s / center } else { 0.0 };
            out.push((a.at(a0 + t * (a1 - a0)), b.at(b0 + t * (b1 - b0))));
            s += step;
        }
        s -= center;
    }
    out.push((a.at(a.len()), b.at(b.len())));
    out
}

/// Sew a column: underlay passes, then the top satin, as one continuous path.
// added (document 02, request [3]): `column` is cut into `underlay` and `top` where the top stitching begins.
pub fn column(r: &Rails, p: &SatinParams) -> Polyline {
    let (mut out, at_end) = underlay(r, p);
    out.extend(top(r, p, at_end));
    out
}

// added: the underlay passes, and where the needle is after them.
pub fn underlay(r: &Rails, p: &SatinParams) -> (Polyline, bool) {
    let mut out: Polyline = Vec::new();
    // Where the needle is: start (false) or end (true) of the column.
    let mut at_end = false;
    let inset = |a: P, b: P| {
        let w = a.dist(b);
        let d = UNDERLAY_INSET.min(w * 0.25);
        (a + (b - a).norm() * d, b + (a - b).norm() * d)
    };

    if p.underlay & underlay::CENTER != 0 {
        let mut pass: Polyline = pairs(r, p.run_len)
            .into_iter()
            .map(|(a, b)| a.lerp(b, 0.5))
            .collect();
        if at_end {
            pass.reverse();
        }
        out.extend(pass);
        at_end = !at_end;
    }
    if p.underlay & underlay::CONTOUR != 0 {
        let ps: Vec<(P, P)> = pairs(r, p.run_len)
            .into_iter()
            .map(|(a, b)| inset(a, b))
            .collect();
        let side_a: Polyline = ps.iter().map(|q| q.0).collect();
        let side_b: Polyline = ps.iter().map(|q| q.1).collect();
        // Out along one side and back along the other: ends where it started.
        if at_end {
            out.extend(side_a.iter().rev());
            out.extend(side_b.iter());
        } else {
            out.extend(side_a.iter());
            out.extend(side_b.iter().rev());
        }
    }
    if p.underlay & underlay::ZIGZAG != 0 {
        let mut pass: Polyline = Vec::new();
        for (i, (a, b)) in pairs(r, ZIGZAG_UNDERLAY_SPACING)
            .into_iter()
            .map(|(a, b)| inset(a, b))
            .enumerate()
        {
            pass.push(if i % 2 == 0 { a } else { b });
        }
        if at_end {
            pass.reverse();
        }
        out.extend(pass);
        at_end = !at_end;
    }
    (out, at_end)
}

// added: the top satin, from where the needle is.
pub fn top(r: &Rails, p: &SatinParams, at_end: bool) -> Polyline {
    // Top stitching.
    let spacing = match p.style {
        SatinStyle::Zigzag => p.spacing * 3.0,
        _ => p.spacing,
    };
    let ps = pairs(r, spacing);
    let mut top: Polyline = Vec::with_capacity(ps.len() * 2);
    for (k, &(a, b)) in ps.iter().enumerate() {
        let dir = (a - b).norm();
        let (mut a2, mut b2) = (a + dir * p.pull, b - dir * p.pull);
        if p.short_stitches && k > 0 && k % 2 == 1 {
            let (pa, pb) = ps[k - 1];
            let w = a2.dist(b2);
            if a.dist(pa) < SHORT_DIST {
                a2 = a2 + (b2 - a2).norm() * (w * SHORT_INSET);
            }
            if b.dist(pb) < SHORT_DIST {
                b2 = b2 + (a2 - b2).norm() * (w * SHORT_INSET);
            }
        }
        top.push(a2);
        top.push(b2);
    }
    match p.style {
        SatinStyle::Plain => {
            if let Some(max) = p.split.filter(|m| *m > 0.0) {
                top = split_long(&top, max);
            }
        }
        SatinStyle::SStitch => top = s_stitch(&top),
        SatinStyle::Zigzag => {}
    }
    if at_end {
        top.reverse();
    }
    top
}

/// S-stitch: each stitch across the column becomes three, the middle
/// point pushed sideways (alternating sides), so the column reads as a
/// run of shallow S curves.
// added (document 01): public, so that it can be compared by itself.
pub fn s_stitch(pts: &[P]) -> Polyline {
    let mut out = Vec::with_capacity(pts.len() * 3);
    for (k, w) in pts.windows(2).enumerate() {
        if k == 0 {
            out.push(w[0]);
        }
        let d = w[1] - w[0];
        let len = d.len();
        if len > 6.0 {
            let n = d.norm();
            let side = P::new(-n.y, n.x) * (len * 0.18).min(8.0);
            let sign = if k % 2 == 0 { 1.0 } else { -1.0 };
            out.push(w[0].lerp(w[1], 0.3) + side * sign);
            out.push(w[0].lerp(w[1], 0.7) - side * sign);
        }
        out.push(w[1]);
    }
    if pts.len() == 1 {
        out.push(pts[0]);
    }
    out
}

/// Auto-split: break stitches longer than `max` into shorter ones, staggering
/// the split points from stitch to stitch so they don't line up into a groove.
// added (document 01): public, so that it can be compared by itself.
pub fn split_long(pts: &[P], max: f64) -> Polyline {
    let mut out = Vec::with_capacity(pts.len() * 2);
    for (k, w) in pts.windows(2).enumerate() {
        if k == 0 {
            out.push(w[0]);
        }
        let len = w[0].dist(w[1]);
        let n = (len / max).ceil() as usize;
        if n > 1 {
            let shift = [0.0, 0.33, -0.33][k % 3] / n as f64;
            for j in 1..n {
                out.push(w[0].lerp(w[1], j as f64 / n as f64 + shift));
            }
        }
        out.push(w[1]);
    }
    if pts.len() == 1 {
        out.push(pts[0]);
    }
    out
}
