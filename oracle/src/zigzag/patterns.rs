// From simpsoka/zigzag at 81825c4812, src/stitch/patterns.rs, Apache-2.0, see NOTICE.
// Only the parts that Beahcerot ports; the text is the original's but where a
// comment says "completed", "added" or "left out" (document 01).

//! Decorative fills, after Ink/Stitch's: meander (a wandering line),
//! ripple (concentric running-stitch rows, far apart), cross-stitch (a grid
//! of X's) and tartan (stripes). Each returns polylines in design units
//! (0.1 mm); the planner joins and routes them.

use crate::geom::{FillRule, P, Polyline, point_inside, segment_inside};

/// Keep the parts of `pts` (a path) that lie inside the shape: a list of
/// runs, each at least two points.
pub fn clip_inside(pts: &[P], rings: &[Polyline], rule: FillRule) -> Vec<Polyline> {
    let mut out = Vec::new();
    let mut cur: Polyline = Vec::new();
    for w in pts.windows(2) {
        if point_inside(rings, rule, w[0])
            && point_inside(rings, rule, w[1])
            && segment_inside(rings, rule, w[0], w[1], 2.0)
        {
            if cur.is_empty() {
                cur.push(w[0]);
            }
            cur.push(w[1]);
        } else if cur.len() >= 2 {
            out.push(std::mem::take(&mut cur));
        } else {
            cur.clear();
        }
    }
    if cur.len() >= 2 {
        out.push(cur);
    }
    out
}

// added (document 01): public, so that it can be compared by itself.
pub fn bounds(rings: &[Polyline]) -> (P, P) {
    let mut lo = P::new(f64::INFINITY, f64::INFINITY);
    let mut hi = P::new(f64::NEG_INFINITY, f64::NEG_INFINITY);
    for q in rings.iter().flatten() {
        lo = P::new(lo.x.min(q.x), lo.y.min(q.y));
        hi = P::new(hi.x.max(q.x), hi.y.max(q.y));
    }
    (lo, hi)
}

/// A small deterministic random source (xorshift), so a design plans the
/// same way every time.
struct Rng(u64);

impl Rng {
    fn new(seed: u64) -> Rng {
        Rng(seed.max(1) ^ 0x9E37_79B9_7F4A_7C15)
    }
    fn next(&mut self) -> u64 {
        let mut x = self.0;
        x ^= x << 13;
        x ^= x >> 7;
        x ^= x << 17;
        self.0 = x;
        x
    }
    fn below(&mut self, n: usize) -> usize {
        (self.next() % n.max(1) as u64) as usize
    }
}

/// Meander: one wandering line that visits every `spacing`-sized cell of
/// the shape (a random walk with backtracking, so it's a single path),
/// its corners rounded, stitched every `len`. Light and quilting-like.
pub fn meander(
    rings: &[Polyline],
    rule: FillRule,
    spacing: f64,
    len: f64,
    seed: u64,
) -> Vec<Polyline> {
    meander_by(
        rings,
        rule,
        spacing,
        len,
        seed,
        crate::geom::resample_keep_corners,
    )
}

// added: `meander` is cut where the line is resampled.
fn meander_by(
    rings: &[Polyline],
    rule: FillRule,
    spacing: f64,
    len: f64,
    seed: u64,
    resample: fn(&[P], f64) -> Polyline,
) -> Vec<Polyline> {
    let (lo, hi) = bounds(rings);
    if !lo.x.is_finite() {
        return Vec::new();
    }
    let cols = ((hi.x - lo.x) / spacing).ceil() as usize + 1;
    let rows = ((hi.y - lo.y) / spacing).ceil() as usize + 1;
    if cols * rows > 400_000 {
        return Vec::new();
    }
    let at = |c: usize, r: usize| P::new(lo.x + c as f64 * spacing, lo.y + r as f64 * spacing);
    // Cells whose center is inside, and whose links to neighbours stay inside.
    let inside: Vec<bool> = (0..cols * rows)
        .map(|k| point_inside(rings, rule, at(k % cols, k / cols)))
        .collect();
    let mut visited = vec![false; cols * rows];
    let mut rng = Rng::new(seed);
    let mut out: Vec<Polyline> = Vec::new();
    let link_ok = |a: usize, b: usize| {
        segment_inside(
            rings,
            rule,
            at(a % cols, a / cols),
            at(b % cols, b / cols),
            2.0,
        )
    };
    for start in 0..cols * rows {
        if !inside[start] || visited[start] {
            continue;
        }
        // A depth-first walk from here: every step goes to an unvisited
        // neighbour (random order); when stuck it walks back along its own
        // path to the last cell with a free neighbour, which is still one
        // continuous line.
        let mut path: Vec<usize> = vec![start];
        let mut stack: Vec<usize> = vec![start];
        visited[start] = true;
        while let Some(&here) = stack.last() {
            let (c, r) = (here % cols, here / cols);
            let mut opts: Vec<usize> = Vec::with_capacity(4);
            if c > 0 {
                opts.push(here - 1);
            }
            if c + 1 < cols {
                opts.push(here + 1);
            }
            if r > 0 {
                opts.push(here - cols);
            }
            if r + 1 < rows {
                opts.push(here + cols);
            }
            // Random order.
            for i in (1..opts.len()).rev() {
                let j = rng.below(i + 1);
                opts.swap(i, j);
            }
            let next = opts
                .into_iter()
                .find(|&n| inside[n] && !visited[n] && link_ok(here, n));
            match next {
                Some(n) => {
                    visited[n] = true;
                    stack.push(n);
                    path.push(n);
                }
                None => {
                    stack.pop();
                    if let Some(&back) = stack.last() {
                        path.push(back);
                    }
                }
            }
        }
        if path.len() < 2 {
            continue;
        }
        // Round the corners: a point a third of the way along each step,
        // a Chaikin pass, then stitches every `len`.
        let pts: Polyline = path.iter().map(|&k| at(k % cols, k / cols)).collect();
        let mut smooth: Polyline = vec![pts[0]];
        for w in pts.windows(2) {
            smooth.push(w[0].lerp(w[1], 0.3));
            smooth.push(w[0].lerp(w[1], 0.7));
        }
        smooth.push(*pts.last().unwrap());
        let dense = resample(&smooth, len.max(5.0));
        out.extend(clip_inside(&dense, rings, rule));
    }
    out
}

// added (request [7]): the same, resampled to the drawn corners themselves.
pub fn meander_to_corners(
    rings: &[Polyline],
    rule: FillRule,
    spacing: f64,
    len: f64,
    seed: u64,
) -> Vec<Polyline> {
    meander_by(
        rings,
        rule,
        spacing,
        len,
        seed,
        crate::geom::resample_to_corners,
    )
}

/// Cross-stitch: an X in every `cell`-sized square whose center is inside
/// the shape, sewn as rows of half-crosses out and back (as hand
/// cross-stitch is), one row of cells at a time.
pub fn cross_stitch(rings: &[Polyline], rule: FillRule, cell: f64) -> Vec<Polyline> {
    let (lo, hi) = bounds(rings);
    if !lo.x.is_finite() {
        return Vec::new();
    }
    // Cells on a global grid, so neighbouring shapes line up.
    let c0 = (lo.x / cell).floor() as i64;
    let c1 = (hi.x / cell).ceil() as i64;
    let r0 = (lo.y / cell).floor() as i64;
    let r1 = (hi.y / cell).ceil() as i64;
    let mut out = Vec::new();
    for r in r0..r1 {
        let y0 = r as f64 * cell;
        let y1 = y0 + cell;
        let cells: Vec<i64> = (c0..c1)
            .filter(|&c| {
                let x = c as f64 * cell;
                point_inside(rings, rule, P::new(x + cell * 0.5, y0 + cell * 0.5))
            })
            .collect();
        // Runs of adjacent cells share one out-and-back row.
        let mut i = 0;
        while i < cells.len() {
            let mut j = i;
            while j + 1 < cells.len() && cells[j + 1] == cells[j] + 1 {
                j += 1;
            }
            let (ca, cb) = (cells[i], cells[j]);
            let mut row: Polyline = Vec::new();
            // Out: bottom-left to top-right of each cell.
            for c in ca..=cb {
                let x = c as f64 * cell;
                row.push(P::new(x, y1));
                row.push(P::new(x + cell, y0));
            }
            // Back: top-left to bottom-right, right to left.
            for c in (ca..=cb).rev() {
                let x = c as f64 * cell;
                row.push(P::new(x + cell, y1));
                row.push(P::new(x, y0));
            }
            out.push(row);
            i = j + 1;
        }
    }
    out
}
