//! What the fill's calls owe. The original is asked only where the checks 1 to 5
//! let the call through.

use super::{Left, fits, left};
use crate::expect::{
    self, DONE, LAYOUT, LEN, NUMBER, ROOM, ROWS, SETTING, SHRINK, SIZE, SPACING, STAGGER, TURN,
    WORK,
};
use crate::inputs::fills::Fill;
use zigzag::fill::{self, Piece};
use zigzag::geom::Polyline;

/// More points than this are never made: a fill of the greatest size has more
/// than memory holds.
const MOST: u64 = 50_000;

/// A fill's working slices: floats, whole numbers.
const WORKING: usize = 2;

/// What becomes of a row's equal crossings: the original's sort leaves them in any
/// order, request [2] takes them as one.
#[derive(Clone, Copy)]
pub enum Equal {
    Original,
    Merged,
}

/// Whose need: the sweep's, or that of request [8]'s engine, which has no edge table.
#[derive(Clone, Copy)]
pub enum Engine {
    Sweep,
    Plain,
}

/// The table's 1 to 5, which look at no lent slice.
pub fn gate(f: &Fill) -> u64 {
    let o = &f.outline;
    let settings = SPACING.contains(&f.spacing)
        && LEN.contains(&f.len)
        && SHRINK.contains(&f.inset)
        && SHRINK.contains(&f.pull)
        && STAGGER.contains(&f.stagger);
    let first = expect::first(&[
        (LAYOUT, expect::outline(&o.corners, &o.ends)),
        (NUMBER, expect::numbers(&o.corners)),
        (SETTING, settings),
        (TURN, expect::turn(f.cosine, f.sine)),
    ]);
    if first != DONE {
        return first;
    }
    expect::first(&[(SIZE, row_count(f.spacing, &kept(f)) <= ROWS)])
}

/// Top and bottom of each kept edge.
pub fn kept(f: &Fill) -> Vec<(f64, f64)> {
    let mut edges = Vec::new();
    for ring in f.outline.rings().iter().filter(|r| r.len() >= 3) {
        for (i, a) in ring.iter().enumerate() {
            let b = ring[(i + 1) % ring.len()];
            let (a, b) = (a.rotate(f.cosine, -f.sine).y, b.rotate(f.cosine, -f.sine).y);
            if (a - b).abs() >= 1e-9 {
                edges.push((a.min(b), a.max(b)));
            }
        }
    }
    edges
}

/// Rows from k_lo to k_hi: none without a kept edge.
pub fn row_count(spacing: f64, edges: &[(f64, f64)]) -> i64 {
    if edges.is_empty() {
        return 0;
    }
    let top = edges.iter().map(|e| e.0).fold(f64::INFINITY, f64::min);
    let bottom = edges.iter().map(|e| e.1).fold(f64::NEG_INFINITY, f64::max);
    let k_lo = (top / spacing - 0.5).ceil() as i64;
    let k_hi = (bottom / spacing - 0.5).floor() as i64;
    (k_hi - k_lo + 1).max(0)
}

fn pieces(f: &Fill, equal: Equal) -> Vec<Piece> {
    let (rings, rule, params) = (f.outline.rings(), f.rule(), f.params());
    match equal {
        Equal::Original => fill::row_list(&rings, rule, &params),
        Equal::Merged => fill::row_list_merged(&rings, rule, &params),
    }
}

fn sections(f: &Fill, equal: Equal) -> Vec<Polyline> {
    let (rings, rule, params) = (f.outline.rings(), f.rule(), f.params());
    match equal {
        Equal::Original => fill::tatami(&rings, rule, &params),
        Equal::Merged => fill::tatami_merged(&rings, rule, &params),
    }
}

/// Fewer points than this the pieces cannot have: no stitch is longer than len.
fn points_at_least(pieces: &[Piece], len: f64) -> u64 {
    let whole = |p: &Piece| ((p.xb - p.xa) / len).floor() as u64;
    pieces.iter().map(whole).sum()
}

/// The need of a fill that passed the gate: floats and whole numbers.
fn work(f: &Fill, pieces: usize, engine: Engine) -> [usize; 2] {
    let edges = match engine {
        Engine::Sweep => kept(f).len(),
        Engine::Plain => 0,
    };
    [6 * edges + 4 * pieces, 4 * edges + 6 * pieces]
}

/// What `tatami` owes where it is lent floats, wholes, floats for points, ends.
pub fn tatami(f: &Fill, lent: &[usize], equal: Equal) -> Left {
    sewn(f, lent, equal, Engine::Sweep)
}

/// The same of the plain engine's `tatami`.
pub fn plain_tatami(f: &Fill, lent: &[usize], equal: Equal) -> Left {
    sewn(f, lent, equal, Engine::Plain)
}

fn sewn(f: &Fill, lent: &[usize], equal: Equal, engine: Engine) -> Left {
    let refused = |answer| left(answer, lent, WORKING, vec![0; 2], &[]);
    let first = gate(f);
    if first != DONE {
        return refused(first);
    }
    let pieces = pieces(f, equal);
    if !fits(&work(f, pieces.len(), engine), &lent[..2]) {
        return refused(WORK);
    }
    if 2 * points_at_least(&pieces, f.len) > lent[2] as u64 {
        return refused(ROOM);
    }
    let mut points = Vec::new();
    let mut ends = Vec::new();
    for section in sections(f, equal) {
        points.extend(section.iter().flat_map(|p| [p.x.to_bits(), p.y.to_bits()]));
        ends.push(points.len() as u64 / 2);
    }
    if !fits(&[points.len(), ends.len()], &lent[2..]) {
        return refused(ROOM);
    }
    let counts = vec![ends.len() as u64, points.len() as u64 / 2];
    left(DONE, lent, WORKING, counts, &[points, ends])
}

/// What two fills over one table owe (request [6]): the table is lent floats and
/// whole numbers, and then each fill as `tatami` is. The counts are the first
/// fill's, then the second's with its answer in front.
pub fn tatami_twice(f: &Fill, second: &Fill, lent: &[usize], equal: Equal) -> Left {
    let table = table(f, &lent[..2]);
    let own = left(table, &lent[..2], WORKING, Vec::new(), &[]);
    let a = layer(f, table, &lent[2..6], equal);
    let b = layer(second, table, &lent[6..], equal);
    Left {
        answer: a.answer,
        counts: [a.counts, vec![b.answer], b.counts].concat(),
        slices: [own.slices, a.slices, b.slices].concat(),
    }
}

/// For the table 1, 2, 4 and 6: 6E floats and 4E whole numbers.
fn table(f: &Fill, lent: &[usize]) -> u64 {
    let o = &f.outline;
    let first = expect::first(&[
        (LAYOUT, expect::outline(&o.corners, &o.ends)),
        (NUMBER, expect::numbers(&o.corners)),
        (TURN, expect::turn(f.cosine, f.sine)),
    ]);
    if first != DONE {
        return first;
    }
    let edges = kept(f).len();
    expect::first(&[(WORK, fits(&[6 * edges, 4 * edges], lent))])
}

/// One fill over a table with that answer: 3, 5, 6 (4I and 6I, as of the plain
/// engine) and 7.
fn layer(f: &Fill, table: u64, lent: &[usize], equal: Equal) -> Left {
    if table != DONE {
        return left(table, lent, WORKING, vec![0; 2], &[]);
    }
    sewn(f, lent, equal, Engine::Plain)
}

/// What `row_list` owes where it is lent floats, wholes, floats for y, xa and
/// xb, row numbers, section numbers.
pub fn row_list(f: &Fill, lent: &[usize], equal: Equal) -> Left {
    listed(f, lent, equal, Engine::Sweep)
}

/// The same of the plain engine's `row_list`.
pub fn plain_row_list(f: &Fill, lent: &[usize], equal: Equal) -> Left {
    listed(f, lent, equal, Engine::Plain)
}

fn listed(f: &Fill, lent: &[usize], equal: Equal, engine: Engine) -> Left {
    let refused = |answer| left(answer, lent, WORKING, vec![0], &[]);
    let first = gate(f);
    if first != DONE {
        return refused(first);
    }
    let pieces = pieces(f, equal);
    let n = pieces.len();
    if !fits(&work(f, n, engine), &lent[..2]) {
        return refused(WORK);
    }
    if !fits(&[3 * n, n, n], &lent[2..]) {
        return refused(ROOM);
    }
    let numbers = |p: &Piece| [p.y, p.xa, p.xb].map(f64::to_bits);
    let outputs = [
        pieces.iter().flat_map(numbers).collect(),
        pieces.iter().map(|p| p.k as u64).collect(),
        pieces.iter().map(|p| p.section as u64).collect(),
    ];
    left(DONE, lent, WORKING, vec![n as u64], &outputs)
}

/// Whether a row has crossings of equal x, which request [2] takes as one.
pub fn tied(f: &Fill) -> bool {
    gate(f) == DONE && fill::ties(&f.outline.rings(), &f.params()) > 0
}

/// What `fill_room` owes: its number, then floats and wholes for as many kept
/// edges as corners, and in each row half as many pieces.
pub fn fill_room(f: &Fill) -> [u64; 3] {
    let answer = gate(f);
    if answer != DONE {
        return [answer, 0, 0];
    }
    let corners = f.outline.corners.len() as u64 / 2;
    let pieces = corners / 2 * row_count(f.spacing, &kept(f)) as u64;
    [DONE, 6 * corners + 4 * pieces, 4 * corners + 6 * pieces]
}

/// What `tatami` needs of each slice to be done; nothing where it is refused
/// whatever it is lent. Past `MOST` points it says less than the need.
pub fn tatami_need(f: &Fill) -> Option<Vec<usize>> {
    sewn_need(f, Engine::Sweep)
}

/// The same of the plain engine's `tatami`.
pub fn plain_tatami_need(f: &Fill) -> Option<Vec<usize>> {
    sewn_need(f, Engine::Plain)
}

fn sewn_need(f: &Fill, engine: Engine) -> Option<Vec<usize>> {
    let pieces = gated(f)?;
    let [floats, wholes] = work(f, pieces.len(), engine);
    if points_at_least(&pieces, f.len) > MOST {
        return Some(vec![floats, wholes, 100, pieces.len()]);
    }
    let sections = sections(f, Equal::Merged);
    let points: usize = sections.iter().map(Vec::len).sum();
    Some(vec![floats, wholes, 2 * points, sections.len()])
}

/// What two fills over one table need of each slice: some words where one is
/// refused whatever it is lent.
pub fn twice_need(f: &Fill, second: &Fill) -> Vec<usize> {
    let table = match table(f, &[usize::MAX; 2]) {
        DONE => kept(f).len(),
        _ => 1,
    };
    let own = |f: &Fill| sewn_need(f, Engine::Plain).unwrap_or(vec![5, 6, 7, 8]);
    [vec![6 * table, 4 * table], own(f), own(second)].concat()
}

/// The same of `row_list`.
pub fn row_list_need(f: &Fill) -> Option<Vec<usize>> {
    listed_need(f, Engine::Sweep)
}

/// The same of the plain engine's `row_list`.
pub fn plain_row_list_need(f: &Fill) -> Option<Vec<usize>> {
    listed_need(f, Engine::Plain)
}

fn listed_need(f: &Fill, engine: Engine) -> Option<Vec<usize>> {
    let n = gated(f)?.len();
    let [floats, wholes] = work(f, n, engine);
    Some(vec![floats, wholes, 3 * n, n, n])
}

fn gated(f: &Fill) -> Option<Vec<Piece>> {
    (gate(f) == DONE).then(|| pieces(f, Equal::Merged))
}
