//! What the calls of a column owe. The original is asked only where the checks
//! 1 to 5 let the call through, and makes its points only where they are few.

use super::{Left, fits, left};
use crate::expect::{
    self, DONE, LAYOUT, LEN, NUMBER, PAIRS, ROOM, SETTING, SHRINK, SIZE, SPACING, SPLIT, STEP,
    UNDERLAY, WORK,
};
use crate::inputs::outlines::points;
use crate::inputs::rails::{Column, Matched, Path, Rails, Top};
use zigzag::geom::P;
use zigzag::satin::{self, SatinParams, SatinStyle};

/// More points than this are never made.
const MOST: u64 = 200_000;

fn flat(points: &[P]) -> Vec<u64> {
    let words = points.iter().flat_map(|p| [p.x.to_bits(), p.y.to_bits()]);
    words.collect()
}

/// The end of a call that passed the checks 1 to 6: ROOM and nothing, or the
/// points, which are made only where there is room for `count` of them.
fn sewn(lent: &[usize], working: usize, count: u64, made: impl FnOnce() -> Vec<P>) -> Left {
    if 2 * count > lent[working] as u64 {
        return left(ROOM, lent, working, vec![0], &[]);
    }
    let points = flat(&made());
    assert_eq!(
        points.len() as u64,
        2 * count,
        "the oracle's own count is wrong"
    );
    left(DONE, lent, working, vec![count], &[points])
}

/// So many points, or less than the need past `MOST`.
fn room(count: u64) -> usize {
    2 * if count > MOST { 100 } else { count as usize }
}

// ---- split_long and s_stitch: no working slice

fn line_checks(line: &[f64]) -> [(u64, bool); 2] {
    [
        (LAYOUT, expect::line(line)),
        (NUMBER, expect::numbers(line)),
    ]
}

fn split_gate(p: &Path) -> u64 {
    let [layout, number] = line_checks(&p.line);
    expect::first(&[layout, number, (SETTING, SPLIT.contains(&p.max))])
}

pub fn split_long(p: &Path, lent: &[usize]) -> Left {
    let first = split_gate(p);
    if first != DONE {
        return left(first, lent, 0, vec![0], &[]);
    }
    let pts = points(&p.line);
    let count = expect::split_points(&pts, p.max);
    sewn(lent, 0, count, || satin::split_long(&pts, p.max))
}

/// What a call needs of each slice to be done; nothing where it is refused
/// whatever it is lent. Past `MOST` points it says less than the need.
pub fn split_long_need(p: &Path) -> Option<Vec<usize>> {
    let count = || expect::split_points(&points(&p.line), p.max);
    (split_gate(p) == DONE).then(|| vec![room(count())])
}

/// The path's `max` isn't asked for.
pub fn s_stitch(p: &Path, lent: &[usize]) -> Left {
    let first = expect::first(&line_checks(&p.line));
    if first != DONE {
        return left(first, lent, 0, vec![0], &[]);
    }
    let made = satin::s_stitch(&points(&p.line));
    sewn(lent, 0, made.len() as u64, || made)
}

pub fn s_stitch_need(p: &Path) -> Option<Vec<usize>> {
    let count = || satin::s_stitch(&points(&p.line)).len() as u64;
    (expect::first(&line_checks(&p.line)) == DONE).then(|| vec![room(count())])
}

// ---- pairs and column: one working slice

const WORKING: usize = 1;

fn rails_checks(r: &Rails) -> [(u64, bool); 2] {
    let lists = [&r.a, &r.b, &r.sync];
    let layout = expect::line(&r.a) && expect::line(&r.b) && expect::sync(&r.sync);
    [
        (LAYOUT, layout),
        (NUMBER, lists.iter().all(|list| expect::numbers(list))),
    ]
}

/// |a| + |b| + 2·(sync count) + 4 + 8N floats.
fn floats(r: &Rails, n: usize) -> usize {
    r.a.len() / 2 + r.b.len() / 2 + 2 * (r.sync.len() / 2) + 4 + 8 * n
}

/// The need, N the most pairs of any pass.
fn work(r: &Rails, steps: &[f64]) -> usize {
    let original = r.original();
    let counts = steps.iter().map(|&s| satin::pairs(&original, s).len());
    floats(r, counts.max().unwrap_or(0))
}

/// SIZE, or DONE: asked of rails and steps that passed 1 to 3.
fn size(r: &Rails, steps: &[f64]) -> u64 {
    let original = r.original();
    let within = |&s: &f64| expect::steps(&original, s) <= PAIRS;
    expect::first(&[(SIZE, steps.iter().all(within))])
}

/// What a call that passed 1 to 3 owes. A rail of under 2 corners is DONE and
/// nothing, whatever is lent.
fn passed(
    r: &Rails,
    steps: &[f64],
    lent: &[usize],
    count: impl FnOnce() -> u64,
    made: impl FnOnce() -> Vec<P>,
) -> Left {
    if r.few() {
        return left(DONE, lent, WORKING, vec![0], &[]);
    }
    let first = size(r, steps);
    if first != DONE {
        return left(first, lent, WORKING, vec![0], &[]);
    }
    if !fits(&[work(r, steps)], lent) {
        return left(WORK, lent, WORKING, vec![0], &[]);
    }
    sewn(lent, WORKING, count(), made)
}

fn need(r: &Rails, steps: &[f64], count: impl FnOnce() -> u64) -> Option<Vec<usize>> {
    if r.few() {
        // Some words, to be left alone or zeroed.
        return Some(vec![3, 5]);
    }
    (size(r, steps) == DONE).then(|| vec![work(r, steps), room(count())])
}

/// What a room call says, and what the call itself answers that is lent just
/// so many floats and no room for its points.
#[derive(PartialEq)]
pub struct Enough {
    pub answer: u64,
    pub floats: u64,
    pub call: u64,
}

/// The first refusal, which is the call's too; or the need for a pair more than
/// the largest n. There is always a pair, unless a rail has under 2 corners.
fn enough(first: u64, r: &Rails, steps: &[f64]) -> Enough {
    let said = |answer, floats, call| Enough {
        answer,
        floats,
        call,
    };
    if first != DONE {
        return said(first, 0, first);
    }
    if r.few() {
        return said(DONE, 0, DONE);
    }
    if size(r, steps) != DONE {
        return said(SIZE, 0, SIZE);
    }
    let original = r.original();
    let largest = steps.iter().map(|&s| expect::steps(&original, s)).max();
    let n = largest.expect("a pass is sewn") as usize;
    said(DONE, floats(r, n + 1) as u64, ROOM)
}

pub fn pairs_room(m: &Matched) -> Enough {
    enough(pairs_gate(m), &m.rails, &[m.step])
}

pub fn column_room(c: &Column) -> Enough {
    enough(column_gate(c), &c.rails, &pass_steps(c))
}

fn pairs_gate(m: &Matched) -> u64 {
    let [layout, number] = rails_checks(&m.rails);
    expect::first(&[layout, number, (SETTING, STEP.contains(&m.step))])
}

/// Both points of each pair.
fn both(m: &Matched) -> Vec<P> {
    let pairs = satin::pairs(&m.rails.original(), m.step);
    pairs.into_iter().flat_map(|(a, b)| [a, b]).collect()
}

pub fn pairs(m: &Matched, lent: &[usize]) -> Left {
    let first = pairs_gate(m);
    if first != DONE {
        return left(first, lent, WORKING, vec![0], &[]);
    }
    let count = || both(m).len() as u64;
    passed(&m.rails, &[m.step], lent, count, || both(m))
}

pub fn pairs_need(m: &Matched) -> Option<Vec<usize>> {
    if pairs_gate(m) != DONE {
        return None;
    }
    need(&m.rails, &[m.step], || both(m).len() as u64)
}

fn column_gate(c: &Column) -> u64 {
    let [layout, number] = rails_checks(&c.rails);
    let settings = SPACING.contains(&c.spacing)
        && SHRINK.contains(&c.pull)
        && UNDERLAY.contains(&c.underlay)
        && LEN.contains(&c.run_len)
        && (c.split == 0.0 || SPLIT.contains(&c.split));
    expect::first(&[layout, number, (SETTING, settings)])
}

/// The steps of the underlay's passes that are sewn: centre and contour by
/// `run_len`, zigzag by 30.0.
fn underlay_steps(c: &Column) -> Vec<f64> {
    let mut steps = Vec::new();
    if c.underlay & 3 != 0 {
        steps.push(c.run_len);
    }
    if c.underlay & 4 != 0 {
        steps.push(30.0);
    }
    steps
}

/// The top's spacing, which the zigzag style triples.
fn top_steps(c: &Column) -> Vec<f64> {
    vec![match c.style() {
        SatinStyle::Zigzag => c.spacing * 3.0,
        _ => c.spacing,
    }]
}

fn pass_steps(c: &Column) -> Vec<f64> {
    [underlay_steps(c), top_steps(c)].concat()
}

/// How many points a column has, its long stitches not yet split when they are
/// counted: a split column may have more than memory holds.
fn column_points(c: &Column) -> u64 {
    let (rails, params) = (c.rails.original(), c.params());
    let whole = |underlay: u8| {
        let unsplit = SatinParams {
            underlay,
            split: None,
            ..params.clone()
        };
        satin::column(&rails, &unsplit)
    };
    let all = whole(params.underlay);
    let split = match (params.style, params.split) {
        (SatinStyle::Plain, Some(max)) => {
            let top = whole(0);
            expect::split_points(&top, max) - top.len() as u64
        }
        _ => 0,
    };
    all.len() as u64 + split
}

pub fn column(c: &Column, lent: &[usize]) -> Left {
    let first = column_gate(c);
    if first != DONE {
        return left(first, lent, WORKING, vec![0], &[]);
    }
    passed(
        &c.rails,
        &pass_steps(c),
        lent,
        || column_points(c),
        || satin::column(&c.rails.original(), &c.params()),
    )
}

pub fn column_need(c: &Column) -> Option<Vec<usize>> {
    if column_gate(c) != DONE {
        return None;
    }
    need(&c.rails, &pass_steps(c), || column_points(c))
}

// ---- the two halves of a column (request [3])

/// The second count says whether the thread ends at the far end: not after a
/// refusal, and not where there is no thread because a rail is too short.
pub fn underlay(c: &Column, lent: &[usize]) -> Left {
    let first = column_gate(c);
    if first != DONE {
        return left(first, lent, WORKING, vec![0, 0], &[]);
    }
    let sewn = || satin::underlay(&c.rails.original(), &c.params());
    let count = || sewn().0.len() as u64;
    let mut left = passed(&c.rails, &underlay_steps(c), lent, count, || sewn().0);
    let far = left.answer == DONE && !c.rails.few() && sewn().1;
    left.counts.push(far.into());
    left
}

pub fn underlay_need(c: &Column) -> Option<Vec<usize>> {
    if column_gate(c) != DONE {
        return None;
    }
    let count = || satin::underlay(&c.rails.original(), &c.params()).0.len() as u64;
    need(&c.rails, &underlay_steps(c), count)
}

/// How many points the top has: a column with no underlay has no others.
fn top_points(c: &Column) -> u64 {
    column_points(&Column {
        underlay: 0,
        ..c.clone()
    })
}

pub fn top(t: &Top, lent: &[usize]) -> Left {
    let c = &t.column;
    let first = column_gate(c);
    if first != DONE {
        return left(first, lent, WORKING, vec![0], &[]);
    }
    passed(
        &c.rails,
        &top_steps(c),
        lent,
        || top_points(c),
        || satin::top(&c.rails.original(), &c.params(), t.far),
    )
}

pub fn top_need(t: &Top) -> Option<Vec<usize>> {
    let c = &t.column;
    if column_gate(c) != DONE {
        return None;
    }
    need(&c.rails, &top_steps(c), || top_points(c))
}

/// What a caller of both halves leaves in the slices of `column`, from the two
/// answers and the two lists: document 01's order over both.
pub fn joined(lent: &[usize], answers: [u64; 2], lists: [&[f64]; 2]) -> Left {
    let refused = |no: u64| answers.contains(&no);
    let bits = |list: &[f64]| list.iter().map(|x| x.to_bits()).collect::<Vec<u64>>();
    let points = [bits(lists[0]), bits(lists[1])].concat();
    let first = [LAYOUT, NUMBER, SETTING, SIZE, WORK, ROOM]
        .into_iter()
        .find(|&no| refused(no));
    let room = points.len() <= lent[WORKING];
    match first.or((!room).then_some(ROOM)) {
        Some(no) => left(no, lent, WORKING, vec![0], &[]),
        None => {
            let count = points.len() as u64 / 2;
            left(DONE, lent, WORKING, vec![count], &[points])
        }
    }
}
