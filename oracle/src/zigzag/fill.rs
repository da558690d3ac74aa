// From simpsoka/zigzag at 81825c4812, src/stitch/fill.rs, Apache-2.0, see NOTICE.
// Only the parts that Beahcerot ports; the text is the original's but where a
// comment says "completed", "added" or "left out" (document 01).

//! Tatami fill: parallel rows at an angle, split into monotone sections that
//! can each be sewn back-and-forth without leaving the shape.
//!
//! The approach follows the classic scanline method also used by Ink/Stitch:
//! rotate the shape so rows are horizontal, intersect each row with the
//! outline (honoring the fill rule), group row intervals into sections, then
//! stitch each section boustrophedon with staggered needle penetrations.

use crate::geom::{FillRule, P, Polyline};

#[derive(Clone, Debug)]
pub struct FillParams {
    // completed (document 01): the row direction's cosine and sine are handed
    // in, where the original has its angle.
    pub c: f64,
    pub s: f64,
    /// Distance between rows, units.
    pub spacing: f64,
    /// Max stitch length along a row, units.
    pub len: f64,
    /// Shrink each row end by this much (for underlay), units.
    pub inset: f64,
    /// Extend each row end by this much (pull compensation), units.
    pub pull: f64,
    /// Number of rows in the stagger cycle (tatami pattern).
    pub stagger: u32,
    /// Sew rows from the bottom up (for caps: push puckering away from the brim seam).
    pub bottom_up: bool,
}

struct Edge {
    y0: f64,
    y1: f64,
    x0: f64,
    dxdy: f64,
    dir: i32,
}

struct Row {
    k: i64,
    y: f64,
    xa: f64,
    xb: f64,
}

/// Returns one stitched polyline per section, in original coordinates.
pub fn tatami(rings: &[Polyline], rule: FillRule, p: &FillParams) -> Vec<Polyline> {
    // added (document 01): the original's one function is cut in two where the
    // sections stand, so that the row list comes from the same code.
    stitch(sections::<false>(rings, rule, p, |_, _| {}, |_| {}), p)
}

// added (request [2]): `tatami` with a row's crossings of equal x taken as one.
// It equals `tatami` wherever `ties` is 0.
pub fn tatami_merged(rings: &[Polyline], rule: FillRule, p: &FillParams) -> Vec<Polyline> {
    stitch(sections::<true>(rings, rule, p, |_, _| {}, |_| {}), p)
}

// added (document 01): a kept piece of the row list.
#[derive(Clone, Copy, Debug, PartialEq)]
pub struct Piece {
    pub k: i64,
    pub y: f64,
    pub xa: f64,
    pub xb: f64,
    pub section: usize,
}

// added (document 01): each kept piece with its section, in the order met.
pub fn row_list(rings: &[Polyline], rule: FillRule, p: &FillParams) -> Vec<Piece> {
    let mut list = Vec::new();
    sections::<false>(rings, rule, p, |r, s| list.push(piece(r, s)), |_| {});
    list
}

// added (request [2]): the row list with a row's crossings of equal x taken as one.
pub fn row_list_merged(rings: &[Polyline], rule: FillRule, p: &FillParams) -> Vec<Piece> {
    let mut list = Vec::new();
    sections::<true>(rings, rule, p, |r, s| list.push(piece(r, s)), |_| {});
    list
}

// added (document 01, request [2]): how often two neighbouring crossings of a row
// have equal x. A fill with any is a named tie.
pub fn ties(rings: &[Polyline], p: &FillParams) -> usize {
    let mut count = 0;
    let meet = |xs: &[(f64, i32)]| {
        count += xs
            .windows(2)
            .filter(|w| w[0].0.to_bits() == w[1].0.to_bits())
            .count();
    };
    sections::<false>(rings, FillRule::NonZero, p, |_, _| {}, meet);
    count
}

fn piece(r: &Row, section: usize) -> Piece {
    Piece {
        k: r.k,
        y: r.y,
        xa: r.xa,
        xb: r.xb,
        section,
    }
}

// added (document 01): the first half of the original `tatami`. `met` is told
// of each piece and its section, `crossed` of each row's sorted crossings.
fn sections<const MERGED: bool>(
    rings: &[Polyline],
    rule: FillRule,
    p: &FillParams,
    mut met: impl FnMut(&Row, usize),
    mut crossed: impl FnMut(&[(f64, i32)]),
) -> Vec<Vec<Row>> {
    // completed (document 01): cos(-angle) is c and sin(-angle) is -s.
    let (c, s) = (p.c, -p.s);
    let mut edges: Vec<Edge> = Vec::new();
    for ring in rings {
        let n = ring.len();
        if n < 3 {
            continue;
        }
        for i in 0..n {
            let a = ring[i].rotate(c, s);
            let b = ring[(i + 1) % n].rotate(c, s);
            if (a.y - b.y).abs() < 1e-9 {
                continue;
            }
            let (top, bot, dir) = if a.y < b.y { (a, b, 1) } else { (b, a, -1) };
            edges.push(Edge {
                y0: top.y,
                y1: bot.y,
                x0: top.x,
                dxdy: (bot.x - top.x) / (bot.y - top.y),
                dir,
            });
        }
    }
    if edges.is_empty() {
        return Vec::new();
    }
    edges.sort_unstable_by(|a, b| a.y0.total_cmp(&b.y0));
    let ymin = edges[0].y0;
    let ymax = edges.iter().map(|e| e.y1).fold(f64::NEG_INFINITY, f64::max);

    // Rows sit on a global grid so neighbouring shapes with the same settings line up.
    let k_lo = (ymin / p.spacing - 0.5).ceil() as i64;
    let k_hi = (ymax / p.spacing - 0.5).floor() as i64;
    let shrink = p.inset - p.pull;
    let min_row = (p.spacing * 0.5).max(3.0);

    let mut active: Vec<usize> = Vec::new();
    let mut next = 0usize;
    let mut xs: Vec<(f64, i32)> = Vec::new();
    let mut rows: Vec<Vec<Row>> = Vec::new(); // grouped per k
    for k in k_lo..=k_hi {
        let y = (k as f64 + 0.5) * p.spacing;
        while next < edges.len() && edges[next].y0 <= y {
            active.push(next);
            next += 1;
        }
        active.retain(|&e| edges[e].y1 > y);
        xs.clear();
        xs.extend(active.iter().map(|&e| {
            let e = &edges[e];
            (e.x0 + (y - e.y0) * e.dxdy, e.dir)
        }));
        xs.sort_unstable_by(|a, b| a.0.total_cmp(&b.0));
        crossed(&xs); // added (document 01)
        if MERGED {
            // added (request [2]): crossings of equal x are taken as one, their directions added.
            xs.dedup_by(|later, kept| {
                let equal = later.0.to_bits() == kept.0.to_bits();
                kept.1 += if equal { later.1 } else { 0 };
                equal
            });
        }
        let mut w = 0;
        let mut start = 0.0;
        let mut ivs = Vec::new();
        for &(x, d) in &xs {
            let was = rule.inside(w);
            w += d;
            let now = rule.inside(w);
            if !was && now {
                start = x;
            } else if was && !now {
                let (xa, xb) = (start + shrink, x - shrink);
                if xb - xa >= min_row {
                    ivs.push(Row { k, y, xa, xb });
                }
            }
        }
        rows.push(ivs);
    }

    if p.bottom_up {
        rows.reverse();
    }

    // Rows in a section are joined end to end with a straight stitch. Only
    // continue a section if that stitch stays inside the shape; otherwise a
    // big jump in the row ends (a stem meeting a crossbar) would cut a corner.
    // completed (document 01): cosine and sine as handed in.
    let (cb0, sb0) = (p.c, p.s);
    let connects_inside = |section: &[Row], next: &Row| -> bool {
        let last = section.last().unwrap();
        // Last row runs forward (ends at xb) when the section has an odd row count.
        let at_b = section.len() % 2 == 1;
        let (x0, x1, inward) = if at_b {
            (last.xb, next.xb, -1.0)
        } else {
            (last.xa, next.xa, 1.0)
        };
        let eps = 1.0f64
            .min((last.xb - last.xa) * 0.25)
            .min((next.xb - next.xa) * 0.25);
        let a = P::new(x0 + inward * eps, last.y);
        let b = P::new(x1 + inward * eps, next.y);
        (1..4).all(|k| {
            let q = a.lerp(b, k as f64 / 4.0).rotate(cb0, sb0);
            crate::geom::point_inside(rings, rule, q)
        })
    };

    // Group intervals into sections: an interval continues a section when it is
    // the only overlap of that section's last interval (and vice versa).
    let mut sections: Vec<Vec<Row>> = Vec::new();
    let mut open: Vec<usize> = Vec::new();
    for ivs in rows {
        if ivs.is_empty() {
            open.clear();
            continue;
        }
        let mut hits = vec![0u32; open.len()];
        let cands: Vec<Vec<usize>> = ivs
            .iter()
            .map(|iv| {
                let c: Vec<usize> = open
                    .iter()
                    .enumerate()
                    .filter(|(_, si)| {
                        let last = sections[**si].last().unwrap();
                        last.xa < iv.xb && iv.xa < last.xb
                    })
                    .map(|(i, _)| i)
                    .collect();
                for &i in &c {
                    hits[i] += 1;
                }
                c
            })
            .collect();
        let mut new_open = Vec::with_capacity(ivs.len());
        for (iv, c) in ivs.into_iter().zip(cands) {
            if c.len() == 1 && hits[c[0]] == 1 && connects_inside(&sections[open[c[0]]], &iv) {
                met(&iv, open[c[0]]); // added (document 01)
                sections[open[c[0]]].push(iv);
                new_open.push(open[c[0]]);
            } else {
                met(&iv, sections.len()); // added (document 01)
                sections.push(vec![iv]);
                new_open.push(sections.len() - 1);
            }
        }
        open = new_open;
    }
    sections
}

// added (document 01): the second half of the original `tatami`.
fn stitch(sections: Vec<Vec<Row>>, p: &FillParams) -> Vec<Polyline> {
    // completed (document 01): cosine and sine as handed in.
    let (cb, sb) = (p.c, p.s);
    let stagger = p.stagger.max(1) as i64;
    let min_end = (p.len * 0.25).min(5.0);
    sections
        .into_iter()
        .map(|rows| {
            let mut pts: Polyline = Vec::with_capacity(rows.len() * 4);
            for (ri, r) in rows.iter().enumerate() {
                let forward = ri % 2 == 0;
                let off = (r.k.rem_euclid(stagger)) as f64 * p.len / stagger as f64;
                let m0 = ((r.xa + min_end - off) / p.len).ceil() as i64;
                let m1 = ((r.xb - min_end - off) / p.len).floor() as i64;
                let (xs, xe) = if forward { (r.xa, r.xb) } else { (r.xb, r.xa) };
                let start = P::new(xs, r.y);
                if let Some(&prev) = pts.last() {
                    // Travel from the previous row's end along the outline.
                    let d = prev.dist(start);
                    let n = (d / p.len).ceil() as usize;
                    for i in 1..n {
                        pts.push(prev.lerp(start, i as f64 / n as f64));
                    }
                }
                pts.push(start);
                let mut push = |q: P| {
                    // Split the (rare) over-long first/last stitch of a row.
                    let prev = *pts.last().unwrap();
                    let n = (prev.dist(q) / p.len).ceil() as usize;
                    for i in 1..n {
                        pts.push(prev.lerp(q, i as f64 / n as f64));
                    }
                    pts.push(q);
                };
                if m1 >= m0 {
                    if forward {
                        (m0..=m1).for_each(|m| push(P::new(off + m as f64 * p.len, r.y)));
                    } else {
                        (m0..=m1)
                            .rev()
                            .for_each(|m| push(P::new(off + m as f64 * p.len, r.y)));
                    }
                }
                push(P::new(xe, r.y));
            }
            for q in pts.iter_mut() {
                *q = q.rotate(cb, sb);
            }
            pts
        })
        .collect()
}
