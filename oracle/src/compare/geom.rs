//! The geometry: points, outlines, lines.

use super::records::{self, Call, List, Owed, bits};
use super::{Answered, Function, Operands, Tie, UNTOUCHED, Written, list, no_tie, simplicity};
use crate::expect::{self, DONE, LAYOUT, LEN, NUMBER, ROOM, SETTING, STEP, TURN};
use crate::inputs::{
    lines,
    numbers::{beside, coordinate, plain, setting, spoil, turn},
    outlines::{self, Outline, point_near, points},
};
use crate::ours::geom as ours;
use crate::rng::Rng;
use std::cell::RefCell;
use zigzag::geom::{
    self, FillRule, P, polyline_length, resample_keep_corners, resample_to_corners,
};

const EMPTY_SUM: &str = "empty sum";

pub fn functions() -> Vec<Function> {
    vec![
        of_two("dot", |a, b| a.dot(b), ours::dot),
        len(),
        of_two("dist", |a, b| a.dist(b), ours::dist),
        of_two("cross", geom::cross, ours::cross),
        of_point("norm", |a| a.norm(), ours::norm),
        of_point("perp", |a| a.perp(), ours::perp),
        rotate(),
        lerp(),
        inside(),
        winding(),
        point_inside(),
        segment_inside(),
        length(),
        resample(),
    ]
}

/// What a single-answer call owes: the value, or the refusal's number and
/// nothing stored.
fn owed<T>(answer: u64, untouched: T, value: impl FnOnce() -> T) -> Answered<T> {
    let value = if answer == DONE { value() } else { untouched };
    Answered { answer, value }
}

fn given<T>(untouched: T, call: impl FnOnce(&mut T) -> u64) -> Answered<T> {
    let mut value = untouched;
    let answer = call(&mut value);
    Answered { answer, value }
}

fn mark() -> f64 {
    f64::from_bits(UNTOUCHED)
}

fn numbers_first(list: &[f64]) -> u64 {
    expect::first(&[(NUMBER, expect::numbers(list))])
}

/// Two points that may have to do with each other.
fn two_points(rng: &mut Rng, _: u64) -> [f64; 4] {
    let (ax, ay) = (coordinate(rng), coordinate(rng));
    let (bx, by) = match rng.below(6) {
        0 => (ax, ay),
        1 => (-ax, -ay),
        2 => (ax, coordinate(rng)),
        3 => (beside(ax, rng.range(-2, 2)), beside(ay, rng.range(-2, 2))),
        _ => (coordinate(rng), coordinate(rng)),
    };
    let mut list = [ax, ay, bx, by];
    spoil(rng, &mut list, 12);
    list
}

fn one_point(rng: &mut Rng, _: u64) -> [f64; 2] {
    let mut list = match rng.below(4) {
        // About 1e-12 long, where `norm` gives up.
        0 => [beside(1e-12, rng.range(-2, 2)), 0.0],
        1 => [0.6e-12, beside(0.8e-12, rng.range(-2, 2))],
        _ => [coordinate(rng), coordinate(rng)],
    };
    spoil(rng, &mut list, 12);
    list
}

fn plain_points(rng: &mut Rng) -> (P, P) {
    let point = |rng: &mut Rng| P::new(plain(rng) / 100.0, plain(rng) / 100.0);
    (point(rng), point(rng))
}

fn of_two(
    name: &'static str,
    rust: impl Fn(P, P) -> f64 + Copy + 'static,
    ours: impl Fn(P, P, &mut f64) -> u64 + Copy + 'static,
) -> Function {
    Function::new(
        name,
        two_points,
        move |&[ax, ay, bx, by]| {
            let answer = numbers_first(&[ax, ay, bx, by]);
            owed(answer, mark(), || rust(P::new(ax, ay), P::new(bx, by)))
        },
        move |&[ax, ay, bx, by]| given(mark(), |v| ours(P::new(ax, ay), P::new(bx, by), v)),
        no_tie,
    )
    .timed(
        plain_points,
        move |&(a, b)| rust(a, b),
        move |&(a, b)| given(0.0, |v| ours(a, b, v)),
    )
}

fn len() -> Function {
    Function::new(
        "len",
        one_point,
        |&[x, y]| owed(numbers_first(&[x, y]), mark(), || P::new(x, y).len()),
        |&[x, y]| given(mark(), |v| ours::len(P::new(x, y), v)),
        no_tie,
    )
}

fn of_point(
    name: &'static str,
    rust: impl Fn(P) -> P + Copy + 'static,
    ours: impl Fn(P, &mut [f64; 2]) -> u64 + Copy + 'static,
) -> Function {
    Function::new(
        name,
        one_point,
        move |&[x, y]| {
            owed(numbers_first(&[x, y]), [mark(); 2], || {
                flat(rust(P::new(x, y)))
            })
        },
        move |&[x, y]| given([mark(); 2], |v| ours(P::new(x, y), v)),
        no_tie,
    )
}

fn flat(p: P) -> [f64; 2] {
    [p.x, p.y]
}

fn rotate() -> Function {
    let make = |rng: &mut Rng, call| {
        let [x, y] = one_point(rng, call);
        let (c, s) = turn(rng);
        [x, y, c, s]
    };
    Function::new(
        "rotate",
        make,
        |&[x, y, c, s]| {
            let checks = [
                (NUMBER, expect::numbers(&[x, y])),
                (TURN, expect::turn(c, s)),
            ];
            owed(expect::first(&checks), [mark(); 2], || {
                flat(P::new(x, y).rotate(c, s))
            })
        },
        |&[x, y, c, s]| given([mark(); 2], |v| ours::rotate(P::new(x, y), c, s, v)),
        no_tie,
    )
}

fn lerp() -> Function {
    let make = |rng: &mut Rng, call| {
        let [ax, ay, bx, by] = two_points(rng, call);
        let mut t = [match rng.below(3) {
            0 => rng.pick(&[0.0, -0.0, 0.25, 0.5, 0.75, 1.0]),
            1 => rng.below(100) as f64 / (1 + rng.below(100)) as f64,
            _ => coordinate(rng),
        }];
        spoil(rng, &mut t, 12);
        [ax, ay, bx, by, t[0]]
    };
    Function::new(
        "lerp",
        make,
        |&[ax, ay, bx, by, t]| {
            let answer = numbers_first(&[ax, ay, bx, by, t]);
            owed(answer, [mark(); 2], || {
                flat(P::new(ax, ay).lerp(P::new(bx, by), t))
            })
        },
        |&[ax, ay, bx, by, t]| {
            given([mark(); 2], |v| {
                ours::lerp(P::new(ax, ay), P::new(bx, by), t, v)
            })
        },
        no_tie,
    )
}

fn rule_of(number: u64) -> FillRule {
    if number == 0 {
        FillRule::NonZero
    } else {
        FillRule::EvenOdd
    }
}

/// No outline has more than 1,024 sides, so no winding is larger.
fn inside() -> Function {
    let parts = |n: u64| (rule_of(n & 1), (n >> 1) as i64 - 1025);
    Function::new(
        "inside",
        |rng: &mut Rng, _| rng.below(2 * 2051),
        move |&n| {
            let (rule, winding) = parts(n);
            u64::from(rule.inside(winding as i32))
        },
        move |&n| {
            let (rule, winding) = parts(n);
            ours::inside(rule, winding)
        },
        no_tie,
    )
}

/// An outline, a rule, a point or a segment, and a step.
struct Query {
    outline: Outline,
    rule: FillRule,
    a: P,
    b: P,
    step: f64,
}

impl Operands for Query {
    fn size(&self) -> (usize, u64) {
        let numbers = [self.a.x, self.a.y, self.b.x, self.b.y, self.step];
        let all = self.outline.corners.iter().chain(&numbers);
        (
            self.outline.corners.len() / 2 + self.outline.ends.len(),
            all.copied().map(simplicity).sum(),
        )
    }
    fn show(&self) -> String {
        format!(
            "corners {} ends {:x?} rule {:?} a {} b {} step {}",
            list(&self.outline.corners),
            self.outline.ends,
            self.rule,
            list(&flat(self.a)),
            list(&flat(self.b)),
            super::hex(self.step)
        )
    }
}

impl Query {
    /// `a` alone is asked about; `b` and `step` are left at rest.
    fn point(rng: &mut Rng, _: u64) -> Query {
        let outline = outlines::any(rng);
        let mut a = flat(point_near(rng, &outline));
        spoil(rng, &mut a, 20);
        Query {
            rule: rule_of(rng.below(2)),
            a: P::new(a[0], a[1]),
            b: P::default(),
            step: 0.0,
            outline,
        }
    }

    fn segment(rng: &mut Rng, call: u64) -> Query {
        let mut q = Query::point(rng, call);
        let mut b = flat(point_near(rng, &q.outline));
        spoil(rng, &mut b, 20);
        q.b = P::new(b[0], b[1]);
        q.step = setting(rng, STEP);
        // A segment across everything takes the Rust seconds: longer steps there.
        let work = q.a.dist(q.b) * (q.outline.corners.len() + 1) as f64;
        if work > 1e5 && STEP.contains(&q.step) {
            q.step = 1000.0 - q.step.min(500.0);
        }
        if work > 1e8 && q.a.dist(q.b).is_finite() {
            q.b = q.a;
        }
        q
    }

    fn checks(&self, numbers: &[f64]) -> [(u64, bool); 2] {
        let o = &self.outline;
        let sound = expect::numbers(&o.corners) && expect::numbers(numbers);
        [
            (LAYOUT, expect::outline(&o.corners, &o.ends)),
            (NUMBER, sound),
        ]
    }
}

/// An ordinary outline in both forms and a point, for timing.
struct Timed {
    outline: Outline,
    rings: Vec<geom::Polyline>,
    p: P,
}

/// A traced outline of 900 corners, in one ring or in 36, and a point about it.
fn plain_query(rng: &mut Rng) -> Timed {
    let rings = if rng.below(2) == 0 { 1 } else { 36 };
    let outline = outlines::traced(rng, rings, 900 / rings);
    Timed {
        rings: outline.rings(),
        p: point_near(rng, &outline),
        outline,
    }
}

fn winding() -> Function {
    let untouched = UNTOUCHED as i64;
    Function::new(
        "winding",
        Query::point,
        move |q| {
            owed(expect::first(&q.checks(&flat(q.a))), untouched, || {
                i64::from(geom::winding(&q.outline.rings(), q.a))
            })
        },
        move |q| given(untouched, |v| ours::winding(&q.outline, q.a, v)),
        no_tie,
    )
    .timed(
        plain_query,
        |t| geom::winding(&t.rings, t.p),
        |t| given(0, |v| ours::winding(&t.outline, t.p, v)),
    )
}

fn point_inside() -> Function {
    Function::new(
        "point_inside",
        Query::point,
        |q| {
            owed(expect::first(&q.checks(&flat(q.a))), UNTOUCHED, || {
                u64::from(geom::point_inside(&q.outline.rings(), q.rule, q.a))
            })
        },
        |q| {
            given(UNTOUCHED, |v| {
                ours::point_inside(&q.outline, q.rule, q.a, v)
            })
        },
        no_tie,
    )
    .timed(
        plain_query,
        |t| geom::point_inside(&t.rings, FillRule::NonZero, t.p),
        |t| {
            given(0, |v| {
                ours::point_inside(&t.outline, FillRule::NonZero, t.p, v)
            })
        },
    )
}

fn segment_inside() -> Function {
    Function::new(
        "segment_inside",
        Query::segment,
        |q| {
            let [layout, number] = q.checks(&[q.a.x, q.a.y, q.b.x, q.b.y]);
            let setting = (SETTING, STEP.contains(&q.step));
            owed(expect::first(&[layout, number, setting]), UNTOUCHED, || {
                let rings = q.outline.rings();
                u64::from(geom::segment_inside(&rings, q.rule, q.a, q.b, q.step))
            })
        },
        |q| {
            given(UNTOUCHED, |v| {
                ours::segment_inside(&q.outline, q.rule, q.a, q.b, q.step, v)
            })
        },
        no_tie,
    )
}

/// A line to be cut, and the room lent for its stitches, in floats.
pub struct Cut {
    pub line: Vec<f64>,
    pub len: f64,
    pub room: usize,
}

impl Operands for Cut {
    fn size(&self) -> (usize, u64) {
        let all = self.line.iter().chain([&self.len]);
        (self.line.len() / 2, all.copied().map(simplicity).sum())
    }
    fn show(&self) -> String {
        let (line, len) = (list(&self.line), super::hex(self.len));
        format!("line {line} len {len} room {}", self.room)
    }
}

impl Cut {
    pub fn checks(&self) -> [(u64, bool); 3] {
        [
            (LAYOUT, expect::line(&self.line)),
            (NUMBER, expect::numbers(&self.line)),
            (SETTING, LEN.contains(&self.len)),
        ]
    }
}

fn length() -> Function {
    // Document 01 has +0 where the Rust library's empty sum gives -0.
    let tie = |c: &Cut| -> Tie<Answered<f64>> {
        let short = c.line.is_empty() || (c.line.len() == 2 && expect::numbers(&c.line));
        short.then(|| (EMPTY_SUM, owed(DONE, mark(), || 0.0)))
    };
    let make = |rng: &mut Rng, _| Cut {
        line: lines::any(rng, 5.0),
        len: 0.0,
        room: 0,
    };
    Function::new(
        "polyline_length",
        make,
        |c| {
            let answer = expect::first(&c.checks()[..2]);
            owed(answer, mark(), || polyline_length(&points(&c.line)))
        },
        |c| given(mark(), |v| ours::polyline_length(&c.line, v)),
        tie,
    )
}

/// What a call owes that writes points: no count and nothing written after a
/// refusal; the points in front and the rest unchanged after DONE.
/// `made` is asked only where the room is enough for `count` points.
pub fn written(
    refusal: u64,
    count: impl FnOnce() -> u64,
    room: usize,
    made: impl FnOnce() -> Vec<P>,
) -> Written {
    let mut out = vec![mark(); room];
    if refusal != DONE {
        return Written {
            answer: refusal,
            count: 0,
            out,
        };
    }
    let count = count();
    if 2 * count > room as u64 {
        return Written {
            answer: ROOM,
            count: 0,
            out,
        };
    }
    let made = made();
    assert_eq!(made.len() as u64, count, "the oracle's own count is wrong");
    for (at, p) in made.iter().enumerate() {
        out[2 * at] = p.x;
        out[2 * at + 1] = p.y;
    }
    Written {
        answer: DONE,
        count,
        out,
    }
}

/// What a call gave that writes points.
pub fn gave(room: usize, call: impl FnOnce(&mut [f64], &mut u64) -> u64) -> Written {
    let mut out = vec![mark(); room];
    let mut count = UNTOUCHED;
    let answer = call(&mut out, &mut count);
    Written { answer, count, out }
}

/// A line in both forms, for timing.
pub type Line = (Vec<f64>, Vec<P>);

/// A traced line of 1,000 corners, its pieces some 10 to 40 units long.
pub fn plain_line(rng: &mut Rng) -> Line {
    let line = lines::traced(rng, 1000);
    let pts = points(&line);
    (line, pts)
}

/// Ours with an output that is lent again and again, as a caller would; the
/// Rust makes a new list for each call.
pub fn lent(call: impl Fn(&Line, &mut [f64], &mut u64) -> u64) -> impl Fn(&Line) -> u64 {
    let out = RefCell::new(vec![0.0; 20_000]);
    move |line| call(line, &mut out.borrow_mut(), &mut 0)
}

fn make_cut(rng: &mut Rng) -> Cut {
    let len = setting(rng, LEN);
    let line = lines::any(rng, len);
    let room = lines::room(rng, expect::resample_points(&points(&line), len));
    Cut { line, len, room }
}

fn resample_owed(c: &Cut) -> Written {
    let pts = points(&c.line);
    written(
        expect::first(&c.checks()),
        || expect::resample_points(&pts, c.len),
        c.room,
        || resample_to_corners(&pts, c.len),
    )
}

fn resample() -> Function {
    Function::new(
        "resample_keep_corners",
        |rng, _| make_cut(rng),
        resample_owed,
        |c| {
            gave(c.room, |out, count| {
                ours::resample_keep_corners(&c.line, c.len, out, count)
            })
        },
        no_tie,
    )
    .timed(
        plain_line,
        |(_, pts)| resample_keep_corners(pts, 25.0),
        lent(|(line, _), out, count| ours::resample_keep_corners(line, 25.0, out, count)),
    )
}

/// How many of each function the replay list has.
pub const EACH: usize = 44;

/// The replay list: numbers, points, outlines and lines of README.md's table.
pub fn replay(list: &mut List) {
    replay_points(list);
    replay_outlines(list);
    replay_lines(list);
}

/// Coordinates at the boundaries of what is accepted.
fn edges() -> Vec<f64> {
    let limit = expect::SIZE_LIMIT;
    let few = [0.0, 5e-324, 1.0, limit, beside(limit, 1), f64::INFINITY];
    few.iter().flat_map(|&x| [x, -x]).collect()
}

fn edge_pairs() -> Vec<[f64; 4]> {
    let few = edges();
    let pairs = few.iter().zip(few.iter().rev());
    pairs.map(|(&x, &y)| [x, y, y, 3.0]).collect()
}

fn edge_points() -> Vec<[f64; 2]> {
    let mut list: Vec<_> = edges().iter().map(|&x| [x, 4.0]).collect();
    list.extend((-1..=1).map(|k| [beside(1e-12, k), 0.0]));
    list
}

/// A call of numbers alone; nothing where one is NaN.
fn numbers_call(function: u64, floats: &[f64]) -> Option<Call> {
    bits(floats)?;
    Some(Call {
        function,
        floats: floats.to_vec(),
        ..Call::default()
    })
}

fn replay_points(list: &mut List) {
    let two: [(u64, &str, fn(P, P) -> f64); 3] = [
        (0x17, "dot", |a, b| a.dot(b)),
        (0x19, "dist", |a, b| a.dist(b)),
        (0x1a, "cross", geom::cross),
    ];
    for (f, name, rust) in two {
        let make = |rng: &mut Rng| two_points(rng, 0);
        list.sample(name, EACH, edge_pairs(), make, |v| {
            let value = || bits(&[rust(P::new(v[0], v[1]), P::new(v[2], v[3]))]);
            Some((
                numbers_call(f, v)?,
                records::values(numbers_first(v), 1, value)?,
            ))
        });
    }
    let one: [(u64, &str, usize, fn(P) -> Vec<f64>); 3] = [
        (0x18, "len", 1, |a| vec![a.len()]),
        (0x20, "norm", 2, |a| flat(a.norm()).to_vec()),
        (0x21, "perp", 2, |a| flat(a.perp()).to_vec()),
    ];
    for (f, name, n, rust) in one {
        let make = |rng: &mut Rng| one_point(rng, 0);
        list.sample(name, EACH, edge_points(), make, |v| {
            let value = || bits(&rust(P::new(v[0], v[1])));
            Some((
                numbers_call(f, v)?,
                records::values(numbers_first(v), n, value)?,
            ))
        });
    }
    let edge_turns = edge_points()
        .iter()
        .map(|p| [p[0], p[1], 0.0, 1.0])
        .collect();
    let any_turn = |rng: &mut Rng| {
        let ([x, y], (c, s)) = (one_point(rng, 0), turn(rng));
        [x, y, c, s]
    };
    list.sample("rotate", EACH, edge_turns, any_turn, |v| {
        let [x, y, c, s] = *v;
        let checks = [
            (NUMBER, expect::numbers(&[x, y])),
            (TURN, expect::turn(c, s)),
        ];
        let value = || bits(&flat(P::new(x, y).rotate(c, s)));
        let owed = records::values(expect::first(&checks), 2, value)?;
        Some((numbers_call(0x22, v)?, owed))
    });
    let edge_lerps = edges().iter().map(|&t| [1.0, 2.0, 3.0, -4.0, t]).collect();
    let any_lerp = |rng: &mut Rng| {
        let [ax, ay, bx, by] = two_points(rng, 0);
        let t = rng.below(100) as f64 / (1 + rng.below(100)) as f64;
        [ax, ay, bx, by, t]
    };
    list.sample("lerp", EACH, edge_lerps, any_lerp, |v| {
        let value = || bits(&flat(P::new(v[0], v[1]).lerp(P::new(v[2], v[3]), v[4])));
        Some((
            numbers_call(0x23, v)?,
            records::values(numbers_first(v), 2, value)?,
        ))
    });
    list.name("inside");
    for rule in 0..2 {
        for winding in -4..=4_i64 {
            let call = Call {
                function: 0x24,
                wholes: vec![rule, winding as u64],
                ..Call::default()
            };
            let words = vec![u64::from(rule_of(rule).inside(winding as i32))];
            list.add(&(call, Owed::of(words)));
        }
    }
}

/// An outline that is small enough for a list, as its two lists of words.
pub fn outline_lists(o: &Outline) -> Option<Vec<Vec<u64>>> {
    let small = o.corners.len() <= 24 && o.ends.len() <= 6;
    small.then_some(())?;
    Some(vec![bits(&o.corners)?, o.ends.clone()])
}

/// A call of an outline, a rule and numbers.
pub fn outline_call(function: u64, o: &Outline, rule: FillRule, floats: &[f64]) -> Option<Call> {
    Some(Call {
        wholes: vec![u64::from(rule == FillRule::EvenOdd)],
        lists: outline_lists(o)?,
        ..numbers_call(function, floats)?
    })
}

fn replay_outlines(list: &mut List) {
    let point = |rng: &mut Rng| Query::point(rng, 0);
    list.sample("winding", EACH, vec![], point, |q| {
        let a = flat(q.a);
        let value = || {
            Some(vec![
                i64::from(geom::winding(&q.outline.rings(), q.a)) as u64
            ])
        };
        let owed = records::values(expect::first(&q.checks(&a)), 1, value)?;
        Some((outline_call(0x30, &q.outline, q.rule, &a)?, owed))
    });
    list.sample("point_inside", EACH, vec![], point, |q| {
        let a = flat(q.a);
        let value = || {
            Some(vec![
                geom::point_inside(&q.outline.rings(), q.rule, q.a).into(),
            ])
        };
        let owed = records::values(expect::first(&q.checks(&a)), 1, value)?;
        Some((outline_call(0x31, &q.outline, q.rule, &a)?, owed))
    });
    let segment = |rng: &mut Rng| Query::segment(rng, 0);
    list.sample("segment_inside", EACH, vec![], segment, |q| {
        let ends = [q.a.x, q.a.y, q.b.x, q.b.y];
        let [layout, number] = q.checks(&ends);
        let answer = expect::first(&[layout, number, (SETTING, STEP.contains(&q.step))]);
        let value = || {
            let rings = q.outline.rings();
            let inside = geom::segment_inside(&rings, q.rule, q.a, q.b, q.step);
            Some(vec![inside.into()])
        };
        let floats = [q.a.x, q.a.y, q.b.x, q.b.y, q.step];
        Some((
            outline_call(0x32, &q.outline, q.rule, &floats)?,
            records::values(answer, 1, value)?,
        ))
    });
}

/// A call along a line that is small enough for a list; nothing where a number
/// is NaN.
pub fn line_call(function: u64, c: &Cut) -> Option<Call> {
    let small = c.line.len() <= 24 && c.room <= 160;
    small.then_some(())?;
    Some(Call {
        lent: vec![c.room],
        lists: vec![bits(&c.line)?],
        ..numbers_call(function, &[c.len])?
    })
}

fn replay_lines(list: &mut List) {
    let line = |rng: &mut Rng| Cut {
        line: lines::any(rng, 5.0),
        len: 0.0,
        room: 0,
    };
    list.sample("polyline_length", EACH, vec![], line, |c| {
        let answer = expect::first(&c.checks()[..2]);
        // Document 01 has +0 where the Rust library's empty sum gives -0.
        let value = || bits(&[polyline_length(&points(&c.line)) + 0.0]);
        Some((line_call(0x40, c)?, records::values(answer, 1, value)?))
    });
    list.sample("resample_keep_corners", EACH, vec![], make_cut, |c| {
        let call = line_call(0x41, c)?;
        Some((call, records::written(&resample_owed(c))?))
    });
}
