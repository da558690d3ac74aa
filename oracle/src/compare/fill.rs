//! The fill: `tatami` and the row list.

use super::geom::outline_lists;
use super::records::{self, List};
use super::{Function, Operands, Outcome, Tie, list, simplicity};
use crate::expect::DONE;
use crate::inputs::boundaries::{boundaries, shapes};
use crate::inputs::crests;
use crate::inputs::fills::{self, Fill, lend, ways};
use crate::ours::fill as ours;
use crate::owed::fill::{self as owed, Equal};
use crate::owed::{Left, MARGIN, MARK, fresh};
use crate::rng::Rng;
use std::cell::RefCell;
use zigzag::fill::{FillParams, row_list, tatami};
use zigzag::geom::{FillRule, Polyline};

pub(super) const EQUAL_CROSSINGS: &str = "equal crossings";

pub fn functions() -> Vec<Function> {
    let sew = function("tatami", owed::tatami_need, 4, owed::tatami, tatami_left);
    let list = function(
        "row_list",
        owed::row_list_need,
        5,
        owed::row_list,
        row_list_left,
    );
    vec![
        timed_tatami(sew),
        timed_row_list(list),
        super::twice::function(),
    ]
}

/// A fill, and how many words it is lent in each slice: floats, wholes, outputs.
struct Call {
    fill: Fill,
    lent: Vec<usize>,
}

impl Operands for Call {
    fn size(&self) -> (usize, u64) {
        let f = &self.fill;
        let numbers = [f.spacing, f.len, f.inset, f.pull, f.cosine, f.sine];
        let all = f.outline.corners.iter().chain(&numbers);
        (
            f.outline.corners.len() / 2 + f.outline.ends.len(),
            all.copied().map(simplicity).sum::<u64>() + f.stagger.min(1000),
        )
    }
    fn show(&self) -> String {
        let f = &self.fill;
        format!(
            "corners {} ends {:x?} rule {:x} spacing, len, inset, pull, cosine, sine {} stagger {:x} bottom_up {} lent {:?}",
            list(&f.outline.corners),
            f.outline.ends,
            f.rule,
            list(&[f.spacing, f.len, f.inset, f.pull, f.cosine, f.sine]),
            f.stagger,
            f.bottom_up,
            self.lent
        )
    }
}

impl Outcome for Left {
    fn same(&self, other: &Self) -> bool {
        self == other
    }
    fn show(&self) -> String {
        let slices: Vec<String> = self.slices.iter().map(|s| show_slice(s)).collect();
        format!(
            "answer {} counts {:x?} {}",
            self.answer,
            self.counts,
            slices.join(" ")
        )
    }
    fn answer(&self) -> Option<u64> {
        Some(self.answer)
    }
}

/// A lent slice with its margin, `=` for a word that stands as it was, a run of
/// equal words as one.
fn show_slice(slice: &[u64]) -> String {
    let word = |(i, &w): (usize, &u64)| {
        if w == MARK + i as u64 {
            "=".to_string()
        } else {
            format!("{w:x}")
        }
    };
    let words: Vec<String> = slice.iter().enumerate().map(word).collect();
    let runs = words.chunk_by(|a, b| a == b).map(|run| match run.len() {
        1 => run[0].clone(),
        n => format!("{}*{n}", run[0]),
    });
    format!("[{}]", runs.collect::<Vec<_>>().join(" "))
}

type Need = fn(&Fill) -> Option<Vec<usize>>;
type Owed = fn(&Fill, &[usize], Equal) -> Left;
type Sews = fn(&Fill, ours::Work, ours::Sewn) -> u64;
type Lists = fn(&Fill, ours::Work, ours::Listed) -> u64;

pub(super) fn function(
    name: &'static str,
    need: Need,
    slices: usize,
    owed: Owed,
    ours: fn(&Fill, &[usize]) -> Left,
) -> Function {
    let tie = move |c: &Call| -> Tie<Left> {
        owed::tied(&c.fill).then(|| (EQUAL_CROSSINGS, owed(&c.fill, &c.lent, Equal::Merged)))
    };
    Function::new(
        name,
        move |rng, n| make(rng, n as usize, need, slices),
        move |c: &Call| owed(&c.fill, &c.lent, Equal::Original),
        move |c: &Call| ours(&c.fill, &c.lent),
        tie,
    )
    .usually(20_000)
}

/// The boundaries first, each lent in every way, and then any fill.
fn make(rng: &mut Rng, call: usize, need: Need, slices: usize) -> Call {
    let ways = ways(slices);
    let (fill, way) = match boundaries().get(call / ways) {
        Some(fill) => (fill.clone(), call % ways),
        // The first three ways are enough for every call.
        None if rng.one_in(2) => (fills::any(rng), rng.index(3)),
        None => (fills::any(rng), rng.index(ways)),
    };
    // A call that is refused anyway is lent some words to leave alone.
    let refused = || (5..5 + slices).collect();
    let mut lent = lend(way, &need(&fill).unwrap_or_else(refused));
    if way == 1 {
        lent.iter_mut().for_each(|n| *n += rng.index(40));
    }
    Call { fill, lent }
}

/// Slices as they are lent, of the one kind and of the other.
pub(super) fn floats(words: usize) -> Vec<f64> {
    fresh(words).into_iter().map(f64::from_bits).collect()
}

fn signed(words: usize) -> Vec<i64> {
    fresh(words).into_iter().map(|w| w as i64).collect()
}

pub(super) fn lent<T>(slice: &mut [T]) -> &mut [T] {
    let behind = slice.len() - MARGIN;
    &mut slice[MARGIN..behind]
}

pub(super) fn bits(slice: Vec<f64>) -> Vec<u64> {
    slice.into_iter().map(f64::to_bits).collect()
}

/// What our `tatami` leaves.
fn tatami_left(f: &Fill, words: &[usize]) -> Left {
    sewn_left(f, words, ours::tatami)
}

pub(super) fn sewn_left(f: &Fill, words: &[usize], call: Sews) -> Left {
    let (mut work, mut wholes) = (floats(words[0]), fresh(words[1]));
    let (mut points, mut ends) = (floats(words[2]), fresh(words[3]));
    let mut counts = vec![MARK; 2];
    let [sections, count] = &mut counts[..] else {
        unreachable!("two counts")
    };
    let answer = call(
        f,
        ours::Work {
            floats: lent(&mut work),
            wholes: lent(&mut wholes),
        },
        ours::Sewn {
            points: lent(&mut points),
            section_ends: lent(&mut ends),
            sections,
            count,
        },
    );
    Left {
        answer,
        counts,
        slices: vec![bits(work), wholes, bits(points), ends],
    }
}

/// What our row list leaves.
fn row_list_left(f: &Fill, words: &[usize]) -> Left {
    listed_left(f, words, ours::row_list)
}

pub(super) fn listed_left(f: &Fill, words: &[usize], call: Lists) -> Left {
    let (mut work, mut wholes) = (floats(words[0]), fresh(words[1]));
    let (mut ys, mut rows, mut numbers) = (floats(words[2]), signed(words[3]), fresh(words[4]));
    let mut counts = vec![MARK];
    let answer = call(
        f,
        ours::Work {
            floats: lent(&mut work),
            wholes: lent(&mut wholes),
        },
        ours::Listed {
            ys: lent(&mut ys),
            rows: lent(&mut rows),
            section_numbers: lent(&mut numbers),
            pieces: &mut counts[0],
        },
    );
    let rows = rows.into_iter().map(|k| k as u64).collect();
    Left {
        answer,
        counts,
        slices: vec![bits(work), wholes, bits(ys), rows, numbers],
    }
}

/// A fill in both forms, and its slices, lent again and again as a caller
/// would, each as long as the need: the Rust makes new lists for each call.
struct Timed {
    fill: Fill,
    rings: Vec<Polyline>,
    rule: FillRule,
    params: FillParams,
    slices: RefCell<Slices>,
}

struct Slices {
    floats: Vec<f64>,
    wholes: Vec<u64>,
    points: Vec<f64>,
    numbers: Vec<u64>,
    rows: Vec<i64>,
}

impl Timed {
    fn new(fill: &Fill, need: Need) -> Timed {
        let need = need(fill).expect("a fill to be timed is refused");
        Timed {
            rings: fill.outline.rings(),
            rule: fill.rule(),
            params: fill.params(),
            slices: RefCell::new(Slices {
                floats: vec![0.0; need[0]],
                wholes: vec![0; need[1]],
                points: vec![0.0; need[2]],
                numbers: vec![0; need[3]],
                rows: vec![0; need[3]],
            }),
            fill: fill.clone(),
        }
    }

    fn sewn(&self, call: Sews) -> (u64, u64) {
        let s = &mut *self.slices.borrow_mut();
        let (mut sections, mut count) = (0, 0);
        let work = ours::Work {
            floats: &mut s.floats,
            wholes: &mut s.wholes,
        };
        let out = ours::Sewn {
            points: &mut s.points,
            section_ends: &mut s.numbers,
            sections: &mut sections,
            count: &mut count,
        };
        assert_eq!(call(&self.fill, work, out), DONE);
        (sections, count)
    }

    fn listed(&self, call: Lists) -> u64 {
        let s = &mut *self.slices.borrow_mut();
        let mut pieces = 0;
        let work = ours::Work {
            floats: &mut s.floats,
            wholes: &mut s.wholes,
        };
        let out = ours::Listed {
            ys: &mut s.points,
            rows: &mut s.rows,
            section_numbers: &mut s.numbers,
            pieces: &mut pieces,
        };
        assert_eq!(call(&self.fill, work, out), DONE);
        pieces
    }
}

fn timed_tatami(function: Function) -> Function {
    let mut cases = named();
    let corners = crests::by_corners().into_iter();
    cases.extend(corners.map(|(n, f)| (format!("100 rows, {n} corners"), f)));
    let rows = crests::by_rows().into_iter();
    cases.extend(rows.map(|(n, f)| (format!("40 corners, {n} rows"), f)));
    let points = crests::by_points().into_iter();
    cases.extend(points.map(|f| (format!("100 rows, {} points", points_of(&f)), f)));
    timed_sewing(function, cases, owed::tatami_need, ours::tatami)
}

/// The named fills.
pub(super) fn named() -> Vec<(String, Fill)> {
    let list = crests::named().into_iter();
    list.map(|(name, fill)| (name.into(), fill)).collect()
}

/// A call that sews, of either engine, beside the original's `tatami`.
pub(super) fn timed_sewing(
    mut function: Function,
    cases: Vec<(String, Fill)>,
    need: Need,
    call: Sews,
) -> Function {
    for (name, fill) in cases {
        let label = format!("{} {name}", function.name);
        function = function.timed_on(
            label,
            move |_| vec![Timed::new(&fill, need)],
            |t| tatami(&t.rings, t.rule, &t.params),
            move |t| t.sewn(call),
        );
    }
    function
}

/// A row list, of either engine, beside the original's.
pub(super) fn timed_listing(
    mut function: Function,
    cases: Vec<(String, Fill)>,
    need: Need,
    call: Lists,
) -> Function {
    for (name, fill) in cases {
        let label = format!("{} {name}", function.name);
        function = function.timed_on(
            label,
            move |_| vec![Timed::new(&fill, need)],
            |t| row_list(&t.rings, t.rule, &t.params),
            move |t| t.listed(call),
        );
    }
    function
}

fn points_of(fill: &Fill) -> usize {
    let sections = tatami(&fill.outline.rings(), fill.rule(), &fill.params());
    sections.iter().map(Vec::len).sum()
}

fn timed_row_list(function: Function) -> Function {
    let large = crests::large().into_iter();
    let large = large.map(|(name, fill)| (name.into(), fill));
    let cases = named().into_iter().chain(large).collect();
    timed_listing(function, cases, owed::row_list_need, ours::row_list)
}

/// How many of each function the replay list has.
const REPLAYED: usize = 75;

/// The replay list of the fill.
pub fn replay(list: &mut List) {
    let row_list = owed::row_list_need;
    sample(list, 0x50, "tatami", owed::tatami_need, 4, owed::tatami);
    sample(list, 0x51, "row_list", row_list, 5, owed::row_list);
    list.sample("fill_room", 44, shapes(), fills::any, |f| {
        let owed = records::Owed::of(owed::fill_room(f).to_vec());
        Some((replayed(0x52, f, &[])?, owed))
    });
}

/// Fills of one call: the shapes first, each lent its need.
pub(super) fn sample(
    list: &mut List,
    number: u64,
    name: &str,
    need: Need,
    slices: usize,
    owed: Owed,
) {
    let first = shapes().into_iter().map(|fill| Call {
        lent: need(&fill).unwrap_or(vec![8; slices]),
        fill,
    });
    let any = |rng: &mut Rng| make(rng, usize::MAX, need, slices);
    list.sample(name, REPLAYED, first.collect(), any, |c| {
        let call = replayed(number, &c.fill, &c.lent)?;
        let owed = records::left(&owed(&c.fill, &c.lent, Equal::Original));
        // Of the fills with no piece only those of four corners.
        let bare = owed.words[..2] == [DONE, 0] && c.fill.outline.corners.len() != 8;
        (!bare).then_some((call, owed))
    });
}

/// A fill for a list: small, with no NaN, and with no row that has two crossings
/// of equal x, which request [2] takes as one.
pub fn replayed(function: u64, f: &Fill, lent: &[usize]) -> Option<records::Call> {
    let floats = vec![f.spacing, f.len, f.inset, f.pull, f.cosine, f.sine];
    records::bits(&floats)?;
    let lists = outline_lists(&f.outline)?;
    let sound = lent.iter().all(|&n| n <= 128) && !owed::tied(f);
    sound.then_some(records::Call {
        function,
        floats,
        wholes: vec![f.rule, f.stagger, f.bottom_up.into()],
        lent: lent.to_vec(),
        lists,
    })
}
