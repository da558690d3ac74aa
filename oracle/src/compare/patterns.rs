//! Bounds, clipping and cross stitch.

use super::geom::outline_call;
use super::records::{self, List};
use super::{
    Answered, Function, Operands, Tie, UNTOUCHED, WrittenLines, hex, list, no_tie, simplicity,
};
use crate::expect::{self, CELL, CORNERS, DONE, LAYOUT, NUMBER, ROOM, SETTING, SIZE};
use crate::inputs::{
    badges,
    numbers::spoil,
    outlines::{self, Outline, point_near, points},
};
use crate::ours::patterns::{self as ours, Lent};
use crate::rng::Rng;
use std::cell::RefCell;
use zigzag::geom::{FillRule, P, Polyline};
use zigzag::patterns;

/// More floats than any of the timed calls can fill.
const PLENTY: usize = 4_000_000;

const UNLIKE_ZEROS: &str = "zeros of unlike sign";

pub fn functions() -> Vec<Function> {
    vec![bounds(), clip_inside(), cross_stitch()]
}

fn mark() -> f64 {
    f64::from_bits(UNTOUCHED)
}

fn outline_checks(o: &Outline) -> [(u64, bool); 2] {
    [
        (LAYOUT, expect::outline(&o.corners, &o.ends)),
        (NUMBER, expect::numbers(&o.corners)),
    ]
}

fn any_rule(rng: &mut Rng) -> FillRule {
    rng.pick(&[FillRule::NonZero, FillRule::EvenOdd])
}

// ---- bounds

impl Operands for Outline {
    fn size(&self) -> (usize, u64) {
        let corners = self.corners.iter().copied().map(simplicity).sum();
        (self.corners.len() / 2 + self.ends.len(), corners)
    }
    fn show(&self) -> String {
        format!("corners {} ends {:x?}", list(&self.corners), self.ends)
    }
}

fn bounds_owed(o: &Outline) -> Answered<[f64; 4]> {
    let answer = expect::first(&outline_checks(o));
    let mut value = [mark(); 4];
    if answer == DONE {
        let (lo, hi) = patterns::bounds(&o.rings());
        value = [lo.x, lo.y, hi.x, hi.y];
    }
    Answered { answer, value }
}

/// The Rust leaves open which of two zeros of unlike sign `min` and `max` give:
/// -0 below and +0 above, by document 01.
fn unlike_zeros(o: &Outline) -> Tie<Answered<[f64; 4]>> {
    let mut owed = bounds_owed(o);
    if owed.answer != DONE {
        return None;
    }
    let mut tied = false;
    for (at, value) in owed.value.iter_mut().enumerate() {
        let zeros = || {
            o.corners
                .iter()
                .skip(at % 2)
                .step_by(2)
                .filter(|x| **x == 0.0)
        };
        let minus = zeros().any(|x| x.is_sign_negative());
        let plus = zeros().any(|x| x.is_sign_positive());
        if *value == 0.0 && minus && plus {
            *value = if at < 2 { -0.0 } else { 0.0 };
            tied = true;
        }
    }
    tied.then_some((UNLIKE_ZEROS, owed))
}

fn bounds() -> Function {
    Function::new(
        "bounds",
        |rng, _| outlines::any(rng),
        bounds_owed,
        |o| {
            let mut value = [mark(); 4];
            let answer = ours::bounds(o, &mut value);
            Answered { answer, value }
        },
        unlike_zeros,
    )
    .timed(
        |rng| with_rings(outlines::traced(rng, 1, 100)),
        |(_, rings)| patterns::bounds(rings),
        |(o, _)| {
            let mut value = [0.0; 4];
            ours::bounds(o, &mut value);
            value
        },
    )
}

fn with_rings(o: Outline) -> (Outline, Vec<Polyline>) {
    let rings = o.rings();
    (o, rings)
}

// ---- lines in two slices

/// How much is lent: floats for the points, places for the ends.
#[derive(Clone, Copy)]
struct Room {
    floats: usize,
    stops: usize,
}

/// Enough, just enough, just not, or none, of either; or so much of both that
/// ours counts nothing first.
fn room(rng: &mut Rng, made: &[Polyline]) -> Room {
    if rng.one_in(3) {
        return Room {
            floats: 2 * made.concat().len() + 4_600,
            stops: made.len() + 576,
        };
    }
    let near = |rng: &mut Rng, need: usize, part: usize| match rng.below(12) {
        0 => need.saturating_sub(1),
        1 => need.saturating_sub(part),
        2 => 0,
        3 | 4 => need,
        _ => need + rng.index(20),
    };
    Room {
        floats: near(rng, 2 * made.concat().len(), 2),
        stops: near(rng, made.len(), 1),
    }
}

fn owed_lines(refusal: u64, room: Room, made: impl FnOnce() -> Vec<Polyline>) -> WrittenLines {
    let mut owed = WrittenLines {
        answer: refusal,
        lines: 0,
        points: 0,
        out: vec![mark(); room.floats],
        stops: vec![UNTOUCHED; room.stops],
    };
    if refusal != DONE {
        return owed;
    }
    let made = made();
    let points = made.concat();
    if 2 * points.len() > room.floats || made.len() > room.stops {
        owed.answer = ROOM;
        return owed;
    }
    for (at, p) in points.iter().enumerate() {
        owed.out[2 * at] = p.x;
        owed.out[2 * at + 1] = p.y;
    }
    let mut end = 0;
    for (at, line) in made.iter().enumerate() {
        end += line.len() as u64;
        owed.stops[at] = end;
    }
    (owed.lines, owed.points) = (made.len() as u64, end);
    owed
}

fn gave_lines(room: Room, call: impl FnOnce(Lent) -> u64) -> WrittenLines {
    let mut out = vec![mark(); room.floats];
    let mut stops = vec![UNTOUCHED; room.stops];
    let (mut lines, mut points) = (UNTOUCHED, UNTOUCHED);
    let answer = call(Lent {
        out: &mut out,
        stops: &mut stops,
        lines: &mut lines,
        points: &mut points,
    });
    WrittenLines {
        answer,
        lines,
        points,
        out,
        stops,
    }
}

/// Ours with slices that are lent again and again, as a caller would; the Rust
/// makes new lists for each call.
fn lent<I>(floats: usize, call: impl Fn(&I, Lent) -> u64) -> impl Fn(&I) -> u64 {
    let slices = RefCell::new((vec![0.0; floats], vec![0; 300_000]));
    move |input| {
        let (out, stops) = &mut *slices.borrow_mut();
        call(
            input,
            Lent {
                out,
                stops,
                lines: &mut 0,
                points: &mut 0,
            },
        )
    }
}

// ---- clip_inside

struct Clip {
    line: Vec<f64>,
    outline: Outline,
    rule: FillRule,
    room: Room,
}

impl Operands for Clip {
    fn size(&self) -> (usize, u64) {
        let (corners, numbers) = self.outline.size();
        let line: u64 = self.line.iter().copied().map(simplicity).sum();
        (corners + self.line.len() / 2, numbers + line)
    }
    fn show(&self) -> String {
        format!(
            "line {} {} rule {:?} room {} {}",
            list(&self.line),
            self.outline.show(),
            self.rule,
            self.room.floats,
            self.room.stops
        )
    }
}

fn clip_checks(line: &[f64], o: &Outline) -> [(u64, bool); 4] {
    let [layout, number] = outline_checks(o);
    [
        (LAYOUT, expect::line(line)),
        layout,
        (NUMBER, expect::numbers(line)),
        number,
    ]
}

fn make_clip(rng: &mut Rng, _: u64) -> Clip {
    let outline = badges::small_outline(rng);
    let count = match rng.below(200) {
        0 => CORNERS,
        1 => CORNERS + 1,
        _ => rng.index(14),
    };
    // Past the limit of a line, and at it, only short pieces: a long one takes long.
    let about = point_near(rng, &outline);
    let mut line = Vec::new();
    for _ in 0..count {
        let p = if count < CORNERS {
            point_near(rng, &outline)
        } else {
            about + P::new(rng.range(-30, 30) as f64, rng.range(-30, 30) as f64)
        };
        line.extend([p.x, p.y]);
    }
    spoil(rng, &mut line, 20);
    match rng.below(40) {
        0 => line.push(1.0),
        1 => {
            line.pop();
        }
        _ => {}
    }
    let rule = any_rule(rng);
    let made = if expect::first(&clip_checks(&line, &outline)) == DONE {
        patterns::clip_inside(&points(&line), &outline.rings(), rule)
    } else {
        Vec::new()
    };
    let room = room(rng, &made);
    Clip {
        line,
        outline,
        rule,
        room,
    }
}

fn clip_owed(c: &Clip) -> WrittenLines {
    owed_lines(
        expect::first(&clip_checks(&c.line, &c.outline)),
        c.room,
        || patterns::clip_inside(&points(&c.line), &c.outline.rings(), c.rule),
    )
}

fn clip_inside() -> Function {
    Function::new(
        "clip_inside",
        make_clip,
        clip_owed,
        |c| {
            gave_lines(c.room, |lent| {
                ours::clip_inside(&c.line, &c.outline, c.rule, lent)
            })
        },
        no_tie,
    )
    .timed_as(
        "clip_inside",
        200,
        |rng| {
            let (o, rings) = with_rings(outlines::traced(rng, 1, 60));
            let line: Vec<f64> = (0..1000).map(|_| rng.range(-900, 900) as f64).collect();
            let pts = points(&line);
            (o, rings, line, pts)
        },
        |(_, rings, _, pts)| patterns::clip_inside(pts, rings, FillRule::NonZero),
        lent(
            PLENTY,
            |(o, _, line, _): &(Outline, _, Vec<f64>, _), lent| {
                ours::clip_inside(line, o, FillRule::NonZero, lent)
            },
        ),
    )
}

// ---- cross_stitch

struct Badge {
    outline: Outline,
    rule: FillRule,
    cell: f64,
    room: Room,
}

impl Operands for Badge {
    fn size(&self) -> (usize, u64) {
        let (corners, numbers) = self.outline.size();
        (corners, numbers + simplicity(self.cell))
    }
    fn show(&self) -> String {
        format!(
            "{} rule {:?} cell {} room {} {}",
            self.outline.show(),
            self.rule,
            hex(self.cell),
            self.room.floats,
            self.room.stops
        )
    }
}

fn badge_refusal(o: &Outline, cell: f64) -> u64 {
    let [layout, number] = outline_checks(o);
    let settled = expect::first(&[layout, number, (SETTING, CELL.contains(&cell))]);
    if settled != DONE {
        return settled;
    }
    expect::first(&[(SIZE, expect::cells(&o.corners, cell))])
}

fn make_badge(rng: &mut Rng, _: u64) -> Badge {
    let (outline, cell) = badges::any(rng);
    let rule = any_rule(rng);
    let made = if badge_refusal(&outline, cell) == DONE {
        patterns::cross_stitch(&outline.rings(), rule, cell)
    } else {
        Vec::new()
    };
    let room = room(rng, &made);
    Badge {
        outline,
        rule,
        cell,
        room,
    }
}

fn badge_owed(b: &Badge) -> WrittenLines {
    owed_lines(badge_refusal(&b.outline, b.cell), b.room, || {
        patterns::cross_stitch(&b.outline.rings(), b.rule, b.cell)
    })
}

fn cross_stitch() -> Function {
    let of = |b: &(Outline, Vec<Polyline>, f64), lent: Lent| {
        ours::cross_stitch(&b.0, FillRule::NonZero, b.2, lent)
    };
    Function::new(
        "cross_stitch",
        make_badge,
        badge_owed,
        |b| {
            gave_lines(b.room, |lent| {
                ours::cross_stitch(&b.outline, b.rule, b.cell, lent)
            })
        },
        no_tie,
    )
    .timed_as(
        "cross_stitch 100 x 100",
        20,
        |rng| badges::crest(rng, 100.0, 100.0, 60),
        |(_, rings, cell)| patterns::cross_stitch(rings, FillRule::NonZero, *cell),
        lent(PLENTY, of),
    )
    .timed_as(
        "cross_stitch counted",
        20,
        |rng| badges::crest(rng, 100.0, 100.0, 60),
        |(_, rings, cell)| patterns::cross_stitch(rings, FillRule::NonZero, *cell),
        lent(8 * 100 * 100 - 1, of),
    )
    .timed_as(
        "cross_stitch 4096 x 64",
        4,
        |rng| badges::crest(rng, 4096.0, 64.0, 200),
        |(_, rings, cell)| patterns::cross_stitch(rings, FillRule::NonZero, *cell),
        lent(PLENTY, of),
    )
}

// ---- the replay list

/// How many of each function it has.
const REPLAYED: usize = 44;

pub fn replay(list: &mut List) {
    list.sample("bounds", REPLAYED, vec![], outlines::any, |o| {
        let owed = unlike_zeros(o).map_or_else(|| bounds_owed(o), |(_, owed)| owed);
        let value = || records::bits(&owed.value);
        Some((
            outline_call(0x33, o, FillRule::NonZero, &[])?,
            records::values(owed.answer, 4, value)?,
        ))
    });
    let clip = |rng: &mut Rng| make_clip(rng, 0);
    list.sample("clip_inside", REPLAYED, vec![], clip, |c| {
        let small = c.line.len() <= 16 && c.room.floats <= 128 && c.room.stops <= 32;
        small.then_some(())?;
        let mut call = outline_call(0x70, &c.outline, c.rule, &[])?;
        call.lists.push(records::bits(&c.line)?);
        call.lent = vec![c.room.floats, c.room.stops];
        Some((call, records::lines(&clip_owed(c))?))
    });
    let badge = |rng: &mut Rng| make_badge(rng, 0);
    list.sample("cross_stitch", REPLAYED, vec![], badge, |b| {
        let small = b.room.floats <= 128 && b.room.stops <= 32;
        small.then_some(())?;
        let mut call = outline_call(0x71, &b.outline, b.rule, &[b.cell])?;
        call.lent = vec![b.room.floats, b.room.stops];
        Some((call, records::lines(&badge_owed(b))?))
    });
}
