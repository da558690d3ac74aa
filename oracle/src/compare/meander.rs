//! The meander, against the source's own code with request [7]'s points: lines and counts, and the working slice.

use super::geom::outline_call;
use super::records::{self, List};
use super::{Function, Operands, Outcome, UNTOUCHED, WrittenLines, hex, list, no_tie, simplicity};
use crate::expect::{self, DONE, LAYOUT, LEN, NUMBER, ROOM, SETTING, SPACING, WORK};
use crate::inputs::{badges, crests, numbers::setting, outlines::Outline};
use crate::ours::patterns::{self as ours, Lent};
use crate::rng::Rng;
use std::cell::RefCell;
use zigzag::geom::{FillRule, Polyline};
use zigzag::patterns;

pub fn functions() -> Vec<Function> {
    let mut function = Function::new("meander", make, owed, gave, no_tie).usually(2_000);
    for (name, fill) in crests::named().into_iter().skip(1) {
        function = function.timed_on(
            format!("meander {name}"),
            move |_| vec![Timed::new(&fill.outline, fill.rule())],
            |t| {
                patterns::meander(
                    &t.rings,
                    t.given.rule,
                    t.given.spacing,
                    t.given.len,
                    t.given.seed,
                )
            },
            Timed::ours,
        );
    }
    vec![function]
}

/// A background with 2 mm between its lines, beside the original's own `meander`.
struct Timed {
    given: Meander,
    rings: Vec<Polyline>,
    out: RefCell<Vec<f64>>,
    wholes: RefCell<[Vec<u64>; 2]>,
}

impl Timed {
    fn new(outline: &Outline, rule: FillRule) -> Timed {
        let (spacing, len, seed) = (20.0, 25.0, 7);
        let made = lines(outline, rule, spacing, len, seed);
        let given = Meander {
            outline: outline.clone(),
            rule,
            spacing,
            len,
            seed,
            floats: 2 * made.concat().len(),
            stops: made.len(),
            wholes: need(outline, spacing, len).1,
        };
        Timed {
            rings: outline.rings(),
            out: RefCell::new(vec![0.0; given.floats]),
            wholes: RefCell::new([given.stops, given.wholes].map(|n| vec![0; n])),
            given,
        }
    }

    fn ours(&self) -> u64 {
        let [stops, wholes] = &mut *self.wholes.borrow_mut();
        let (mut lines, mut points) = (0, 0);
        let lent = Lent {
            out: &mut self.out.borrow_mut(),
            stops,
            lines: &mut lines,
            points: &mut points,
        };
        let m = &self.given;
        let answer = ours::meander(&m.outline, m.rule, m.spacing, m.len, m.seed, lent, wholes);
        assert_eq!(answer, DONE);
        points
    }
}

/// The largest grid that is walked.
const MOST: u64 = 400_000;

struct Meander {
    outline: Outline,
    rule: FillRule,
    spacing: f64,
    len: f64,
    seed: u64,
    floats: usize,
    stops: usize,
    wholes: usize,
}

impl Operands for Meander {
    fn size(&self) -> (usize, u64) {
        let corners: u64 = self.outline.corners.iter().copied().map(simplicity).sum();
        let settings = simplicity(self.spacing) + simplicity(self.len);
        (self.outline.corners.len() / 2, corners + settings)
    }
    fn show(&self) -> String {
        format!(
            "corners {} ends {:x?} rule {:?} spacing {} len {} seed {:x} room {} {} {}",
            list(&self.outline.corners),
            self.outline.ends,
            self.rule,
            hex(self.spacing),
            hex(self.len),
            self.seed,
            self.floats,
            self.stops,
            self.wholes
        )
    }
}

/// What is written, and the working slice afterwards.
struct Wandered {
    lines: WrittenLines,
    wholes: Vec<u64>,
}

impl Outcome for Wandered {
    fn same(&self, other: &Self) -> bool {
        self.lines.same(&other.lines) && self.wholes == other.wholes
    }
    fn show(&self) -> String {
        let changed = self.wholes.iter().filter(|w| **w != 0).count();
        let all = self.wholes.len();
        format!("{} wholes {changed} of {all} not zero", self.lines.show())
    }
    fn answer(&self) -> Option<u64> {
        Some(self.lines.answer)
    }
}

/// How many grid points there are; of no corners none.
fn grid(o: &Outline, spacing: f64) -> u64 {
    let (lo, hi) = patterns::bounds(&o.rings());
    if !lo.x.is_finite() {
        return 0;
    }
    let over = |lo: f64, hi: f64| ((hi - lo) / spacing).ceil() as u64 + 1;
    over(lo.x, hi.x) * over(lo.y, hi.y)
}

/// The need, where the checks before WORK pass.
fn need(o: &Outline, spacing: f64, len: f64) -> (u64, usize) {
    let settled = expect::first(&[
        (LAYOUT, expect::outline(&o.corners, &o.ends)),
        (NUMBER, expect::numbers(&o.corners)),
        (SETTING, SPACING.contains(&spacing) && LEN.contains(&len)),
    ]);
    if settled != DONE {
        return (settled, 0);
    }
    let points = grid(o, spacing);
    let points = if points > MOST { 0 } else { points };
    (DONE, 8 * points as usize)
}

fn lines(o: &Outline, rule: FillRule, spacing: f64, len: f64, seed: u64) -> Vec<Polyline> {
    patterns::meander_to_corners(&o.rings(), rule, spacing, len, seed)
}

fn near(rng: &mut Rng, need: usize, part: usize) -> usize {
    match rng.below(10) {
        0 => need.saturating_sub(1),
        1 => need.saturating_sub(part),
        2 => need,
        _ => need + rng.index(20),
    }
}

/// A block, lent what it needs.
fn block(right: f64, bottom: f64, spacing: f64, len: f64, seed: u64) -> Meander {
    let outline = Outline {
        corners: vec![0.0, 0.0, right, 0.0, right, bottom, 0.0, bottom],
        ends: vec![4],
    };
    let rule = FillRule::NonZero;
    let made = lines(&outline, rule, spacing, len, seed);
    Meander {
        floats: 2 * made.concat().len(),
        stops: made.len(),
        wholes: need(&outline, spacing, len).1,
        outline,
        rule,
        spacing,
        len,
        seed,
    }
}

/// The largest grid that is walked, 800 by 500 points, and one of 500 more: lent what they need, and nothing to work in.
fn at_the_limit(n: u64) -> Meander {
    let right = if n % 2 == 0 { 799.0 } else { 800.0 };
    let mut m = block(right, 499.0, 1.0, 5.0, 7);
    if n >= 2 {
        m.wholes = 0;
    }
    m
}

fn make(rng: &mut Rng, n: u64) -> Meander {
    if n < 4 {
        return at_the_limit(n);
    }
    let (outline, fits) = badges::any(rng);
    let spacing = match rng.below(8) {
        0 => setting(rng, SPACING),
        1 => rng.range(1, 40) as f64,
        _ => fits,
    };
    let (_, wide) = need(&outline, spacing, 5.0);
    let spacing = if wide > 8 * 3_000 && !rng.one_in(50) {
        fits.max(20.0)
    } else {
        spacing
    };
    let len = if rng.one_in(2) {
        setting(rng, LEN)
    } else {
        rng.range(1, 30) as f64
    };
    let any = rng.below(u64::MAX);
    let seed = rng.pick(&[0, 1, 7, u64::MAX, any]);
    let rule = rng.pick(&[FillRule::NonZero, FillRule::EvenOdd]);
    let (settled, wants) = need(&outline, spacing, len);
    let made = if settled == DONE && wants <= 8 * 20_000 {
        lines(&outline, rule, spacing, len, seed)
    } else {
        Vec::new()
    };
    Meander {
        floats: near(rng, 2 * made.concat().len(), 2),
        stops: near(rng, made.len(), 1),
        wholes: near(rng, wants, 8),
        outline,
        rule,
        spacing,
        len,
        seed,
    }
}

fn owed(m: &Meander) -> Wandered {
    let mut owed = Wandered {
        lines: WrittenLines {
            answer: DONE,
            lines: 0,
            points: 0,
            out: vec![f64::from_bits(UNTOUCHED); m.floats],
            stops: vec![UNTOUCHED; m.stops],
        },
        wholes: vec![UNTOUCHED; m.wholes],
    };
    let (settled, wants) = need(&m.outline, m.spacing, m.len);
    owed.lines.answer = settled;
    if settled != DONE {
        return owed;
    }
    owed.wholes.fill(0);
    if m.wholes < wants {
        owed.lines.answer = WORK;
        return owed;
    }
    let made = lines(&m.outline, m.rule, m.spacing, m.len, m.seed);
    let points = made.concat();
    if 2 * points.len() > m.floats || made.len() > m.stops {
        owed.lines.answer = ROOM;
        return owed;
    }
    for (at, p) in points.iter().enumerate() {
        owed.lines.out[2 * at] = p.x;
        owed.lines.out[2 * at + 1] = p.y;
    }
    let mut end = 0;
    for (at, line) in made.iter().enumerate() {
        end += line.len() as u64;
        owed.lines.stops[at] = end;
    }
    (owed.lines.lines, owed.lines.points) = (made.len() as u64, end);
    owed
}

fn gave(m: &Meander) -> Wandered {
    let mut out = vec![f64::from_bits(UNTOUCHED); m.floats];
    let mut stops = vec![UNTOUCHED; m.stops];
    let mut wholes = vec![UNTOUCHED; m.wholes];
    let (mut lines, mut points) = (UNTOUCHED, UNTOUCHED);
    let lent = Lent {
        out: &mut out,
        stops: &mut stops,
        lines: &mut lines,
        points: &mut points,
    };
    let answer = ours::meander(
        &m.outline,
        m.rule,
        m.spacing,
        m.len,
        m.seed,
        lent,
        &mut wholes,
    );
    let lines = WrittenLines {
        answer,
        lines,
        points,
        out,
        stops,
    };
    Wandered { lines, wholes }
}

/// Small blocks by several seeds, and one that is lent a word less in each slice.
fn blocks() -> Vec<Meander> {
    let seeds = [0, 1, 7, u64::MAX];
    let sizes = [(10.0, 10.0, 5.0, 3.0), (21.0, 13.0, 5.0, 5.0)];
    let each =
        |(right, bottom, spacing, len)| seeds.map(|seed| block(right, bottom, spacing, len, seed));
    let mut list = sizes.map(each).into_iter().flatten().collect::<Vec<_>>();
    for less in [[1, 0, 0], [0, 1, 0], [0, 0, 1]] {
        let mut m = block(10.0, 10.0, 5.0, 3.0, 7);
        m.floats -= less[0];
        m.stops -= less[1];
        m.wholes -= less[2];
        list.push(m);
    }
    list
}

/// The replay list of the meander.
pub fn replay(list: &mut List) {
    let any = |rng: &mut Rng| make(rng, u64::MAX);
    list.sample("meander", 60, blocks(), any, |m| {
        let small = m.floats <= 256 && m.stops <= 32 && m.wholes <= 256;
        small.then_some(())?;
        let mut call = outline_call(0x72, &m.outline, m.rule, &[m.spacing, m.len])?;
        call.wholes.push(m.seed);
        call.lent = vec![m.floats, m.stops, m.wholes];
        let Wandered { lines, wholes } = owed(m);
        let mut owed = records::lines(&lines)?;
        owed.slices.push(wholes);
        // Of those with no line only the empty outline.
        let bare = owed.words == [DONE, 0, 0] && !m.outline.corners.is_empty();
        (!bare).then_some((call, owed))
    });
}
