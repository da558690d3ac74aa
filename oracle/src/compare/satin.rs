//! Satin columns: `split_long`, `s_stitch`, `pairs`, `column` and the room for the last two; the two halves of a column, and both joined.

use super::records::{self, List};
use super::{Function, Operands, Outcome, hex, list, no_tie, simplicity};
use crate::expect::DONE;
use crate::inputs::borders;
use crate::inputs::column_boundaries as boundaries;
use crate::inputs::fills::{lend, ways};
use crate::inputs::outlines::points;
use crate::inputs::rails::{self, Column, Matched, Path, Rails, Top};
use crate::ours::satin as ours;
use crate::owed::satin::{self as owed, Enough};
use crate::owed::{Left, MARGIN, MARK, fresh};
use crate::rng::Rng;
use std::cell::RefCell;
use zigzag::satin;

pub fn functions() -> Vec<Function> {
    vec![
        split_long(),
        s_stitch(),
        matched(),
        column(),
        underlay(),
        top(),
        joined(),
        room(
            "pairs_room",
            pairs_calls(),
            owed::pairs_room,
            ours::pairs_room,
        ),
        room(
            "column_room",
            column_calls(),
            owed::column_room,
            ours::column_room,
        ),
    ]
}

fn split_calls() -> Calls<Path> {
    Calls {
        name: "split_long",
        small: boundaries::paths,
        large: Vec::new,
        any: rails::path,
        need: owed::split_long_need,
        owed: owed::split_long,
        slices: 1,
        counts: 1,
        ours: |p, lent, counts| ours::split_long(p, lent[0], &mut counts[0]),
    }
}

fn split_long() -> Function {
    let calls = split_calls();
    let path = borders::path();
    let pts = points(&path.line);
    function(&calls).timed_on(
        "split_long, 1024 points".into(),
        move |_| vec![Timed::new(&calls, &path, pts.clone())],
        |t| satin::split_long(&t.original, t.given.max),
        Timed::ours,
    )
}

fn bent_calls() -> Calls<Path> {
    Calls {
        name: "s_stitch",
        small: boundaries::paths,
        large: Vec::new,
        any: rails::path,
        need: owed::s_stitch_need,
        owed: owed::s_stitch,
        slices: 1,
        counts: 1,
        ours: |p, lent, counts| ours::s_stitch(&p.line, lent[0], &mut counts[0]),
    }
}

fn s_stitch() -> Function {
    let calls = bent_calls();
    let path = borders::path();
    let pts = points(&path.line);
    function(&calls).timed_on(
        "s_stitch, 1024 points".into(),
        move |_| vec![Timed::new(&calls, &path, pts.clone())],
        |t| satin::s_stitch(&t.original),
        Timed::ours,
    )
}

fn pairs_calls() -> Calls<Matched> {
    Calls {
        name: "pairs",
        small: boundaries::matched,
        large: boundaries::large_matched,
        any: rails::matched,
        need: owed::pairs_need,
        owed: owed::pairs,
        slices: 2,
        counts: 1,
        ours: |m, lent, counts| {
            let [work, out] = lent else {
                unreachable!("two slices")
            };
            ours::pairs(m, work, out, &mut counts[0])
        },
    }
}

/// `pairs`.
fn matched() -> Function {
    let calls = pairs_calls();
    let mut function = function(&calls);
    for (name, given) in borders::matched() {
        function = function.timed_on(
            format!("pairs, {name}"),
            move |_| vec![Timed::new(&calls, &given, given.rails.original())],
            |t| satin::pairs(&t.original, t.given.step),
            Timed::ours,
        );
    }
    function
}

fn column_calls() -> Calls<Column> {
    Calls {
        name: "column",
        small: boundaries::columns,
        large: boundaries::large_columns,
        any: rails::column,
        need: owed::column_need,
        owed: owed::column,
        slices: 2,
        counts: 1,
        ours: |c, lent, counts| {
            let [work, out] = lent else {
                unreachable!("two slices")
            };
            ours::column(c, work, out, &mut counts[0])
        },
    }
}

fn column() -> Function {
    let calls = column_calls();
    let mut function = function(&calls);
    for (name, given) in borders::columns() {
        function = function.timed_on(
            format!("column {name}"),
            move |_| {
                let original = (given.rails.original(), given.params());
                vec![Timed::new(&calls, &given, original)]
            },
            |t| satin::column(&t.original.0, &t.original.1),
            Timed::ours,
        );
    }
    function
}

/// The underlay of a column; its second count is 1 where the thread ends at the far end.
fn underlay_calls() -> Calls<Column> {
    Calls {
        name: "underlay",
        small: boundaries::columns,
        large: boundaries::large_columns,
        any: rails::column,
        need: owed::underlay_need,
        owed: owed::underlay,
        slices: 2,
        counts: 2,
        ours: |c, lent, counts| {
            let ([work, out], [count, far]) = (lent, counts) else {
                unreachable!("two slices and two counts")
            };
            ours::underlay(c, work, out, count, far)
        },
    }
}

/// On the borders of one style: an underlay is the same in all.
fn underlay() -> Function {
    let calls = underlay_calls();
    let mut function = function(&calls);
    let plain = |(_, c): &(String, Column)| c.style == 0 && c.split == 0.0;
    for (name, given) in borders::columns().into_iter().filter(plain) {
        function = function.timed_on(
            format!("underlay of {name}"),
            move |_| {
                let original = (given.rails.original(), given.params());
                vec![Timed::new(&calls, &given, original)]
            },
            |t| satin::underlay(&t.original.0, &t.original.1),
            Timed::ours,
        );
    }
    function
}

fn top_calls() -> Calls<Top> {
    Calls {
        name: "top",
        small: boundaries::tops,
        large: boundaries::large_tops,
        any: rails::top,
        need: owed::top_need,
        owed: owed::top,
        slices: 2,
        counts: 1,
        ours: |t: &Top, lent, counts| {
            let [work, out] = lent else {
                unreachable!("two slices")
            };
            ours::top(t, work, out, &mut counts[0])
        },
    }
}

fn top() -> Function {
    let calls = top_calls();
    let mut function = function(&calls);
    for (name, column) in borders::columns() {
        let given = Top { column, far: true };
        function = function.timed_on(
            format!("top of {name}"),
            move |_| {
                let original = (given.column.rails.original(), given.column.params());
                vec![Timed::new(&calls, &given, original)]
            },
            |t| satin::top(&t.original.0, &t.original.1, t.given.far),
            Timed::ours,
        );
    }
    function
}

/// Both halves, the second told what the first says, in place of `column`.
fn joined() -> Function {
    let calls = column_calls();
    Function::new(
        "joined",
        maker(calls),
        |c: &Call<Column>| owed::column(&c.given, &c.lent),
        |c: &Call<Column>| both(&c.given, &c.lent),
        no_tie,
    )
    .usually(20_000)
}

/// Each half is lent as much to work in as `column` is, and room for its own points.
fn both(given: &Column, lent: &[usize]) -> Left {
    let room = |need: Option<Vec<usize>>| vec![0.0; need.map_or(0, |n| n[1])];
    let mut work = vec![0.0; lent[0]];
    let (mut first, mut points, mut far) = (room(owed::underlay_need(given)), 0, 0);
    let under = ours::underlay(given, &mut work, &mut first, &mut points, &mut far);
    first.truncate(2 * points as usize);
    let top = Top {
        column: given.clone(),
        far: far == 1,
    };
    let mut second = room(owed::top_need(&top));
    let over = ours::top(&top, &mut work, &mut second, &mut points);
    second.truncate(2 * points as usize);
    owed::joined(lent, [under, over], [&first, &second])
}

type Ours<I> = fn(&I, &mut [&mut [f64]], &mut [u64]) -> u64;

/// One of the calls: its inputs, what it needs and owes, and ours.
struct Calls<I> {
    name: &'static str,
    /// At the boundaries, each lent in every way.
    small: fn() -> Vec<I>,
    /// Those that take long: each lent its need and one word less to work in.
    large: fn() -> Vec<I>,
    any: fn(&mut Rng) -> I,
    need: fn(&I) -> Option<Vec<usize>>,
    owed: fn(&I, &[usize]) -> Left,
    /// How many slices it is lent: a working slice if it has one, the output.
    slices: usize,
    /// How many counts it stores.
    counts: usize,
    ours: Ours<I>,
}

impl<I> Clone for Calls<I> {
    fn clone(&self) -> Self {
        *self
    }
}

impl<I> Copy for Calls<I> {}

/// A call, and how many words it is lent in each slice.
struct Call<I> {
    given: I,
    lent: Vec<usize>,
}

impl<I: Operands> Operands for Call<I> {
    fn size(&self) -> (usize, u64) {
        self.given.size()
    }
    fn show(&self) -> String {
        format!("{} lent {:?}", self.given.show(), self.lent)
    }
}

/// Corners first, then how simple the numbers are.
fn measure(lists: &[&[f64]], settings: &[f64]) -> (usize, u64) {
    let corners: usize = lists.iter().map(|l| l.len() / 2).sum();
    let numbers = lists.iter().flat_map(|l| l.iter()).chain(settings);
    (corners, numbers.copied().map(simplicity).sum())
}

fn show_rails(r: &Rails) -> String {
    format!("a {} b {} sync {}", list(&r.a), list(&r.b), list(&r.sync))
}

impl Operands for Path {
    fn size(&self) -> (usize, u64) {
        measure(&[&self.line], &[self.max])
    }
    fn show(&self) -> String {
        format!("line {} max {}", list(&self.line), hex(self.max))
    }
}

impl Operands for Matched {
    fn size(&self) -> (usize, u64) {
        let r = &self.rails;
        measure(&[&r.a, &r.b, &r.sync], &[self.step])
    }
    fn show(&self) -> String {
        format!("{} step {}", show_rails(&self.rails), hex(self.step))
    }
}

impl Operands for Top {
    fn size(&self) -> (usize, u64) {
        let (corners, numbers) = self.column.size();
        (corners, numbers + u64::from(self.far))
    }
    fn show(&self) -> String {
        format!("{} far {}", self.column.show(), self.far)
    }
}

impl Operands for Column {
    fn size(&self) -> (usize, u64) {
        let r = &self.rails;
        let settings = [self.spacing, self.pull, self.run_len, self.split];
        let (corners, numbers) = measure(&[&r.a, &r.b, &r.sync], &settings);
        let whole = self.underlay.min(8) + self.style.min(3) + u64::from(self.short_stitches);
        (corners, numbers + whole)
    }
    fn show(&self) -> String {
        format!(
            "{} spacing, pull, run_len, split {} underlay {:x} short_stitches {} style {:x}",
            show_rails(&self.rails),
            list(&[self.spacing, self.pull, self.run_len, self.split]),
            self.underlay,
            self.short_stitches,
            self.style
        )
    }
}

/// A call's operands, by its number.
fn maker<I: Operands + Clone + 'static>(calls: Calls<I>) -> impl Fn(&mut Rng, u64) -> Call<I> {
    let (small, large) = ((calls.small)(), (calls.large)());
    move |rng: &mut Rng, call: u64| {
        let slices = calls.slices;
        let (given, way) = choose(rng, call as usize, &small, &large, slices, calls.any);
        // A call that is refused anyway is lent some words to leave alone.
        let refused = || (5..5 + slices).collect();
        let mut lent = lend(way, &(calls.need)(&given).unwrap_or_else(refused));
        if way == 1 {
            lent.iter_mut().for_each(|n| *n += rng.index(40));
        }
        Call { given, lent }
    }
}

fn function<I: Operands + Clone + 'static>(calls: &Calls<I>) -> Function {
    let calls = *calls;
    Function::new(
        calls.name,
        maker(calls),
        move |c: &Call<I>| (calls.owed)(&c.given, &c.lent),
        move |c: &Call<I>| left(&c.given, &c.lent, calls),
        no_tie,
    )
    .usually(20_000)
}

impl Outcome for Enough {
    fn same(&self, other: &Self) -> bool {
        self == other
    }
    fn show(&self) -> String {
        let Enough {
            answer,
            floats,
            call,
        } = self;
        format!("answer {answer} floats {floats} the call then {call}")
    }
    fn answer(&self) -> Option<u64> {
        Some(self.answer)
    }
}

/// More than any call needs.
const PLENTY: u64 = 1 << 20;

/// A room call on the inputs of its call, which is then lent just what was said.
fn room<I: Operands + Clone + 'static>(
    name: &'static str,
    calls: Calls<I>,
    owed: fn(&I) -> Enough,
    ours: fn(&I, &mut u64) -> u64,
) -> Function {
    let (small, large) = ((calls.small)(), (calls.large)());
    let make = move |rng: &mut Rng, call: u64| {
        let boundary = small.iter().chain(&large).nth(call as usize);
        boundary.cloned().unwrap_or_else(|| (calls.any)(rng))
    };
    let said = move |given: &I| {
        let mut floats = MARK;
        let answer = ours(given, &mut floats);
        let mut work = vec![0.0; floats.min(PLENTY) as usize];
        let call = (calls.ours)(given, &mut [&mut work[..], &mut []], &mut [0]);
        Enough {
            answer,
            floats,
            call,
        }
    };
    Function::new(name, make, owed, said, no_tie).usually(20_000)
}

/// The boundaries first, each lent in every way; the large ones, with the need
/// and with one word less of the first slice; and then any.
fn choose<I: Clone>(
    rng: &mut Rng,
    call: usize,
    small: &[I],
    large: &[I],
    slices: usize,
    any: fn(&mut Rng) -> I,
) -> (I, usize) {
    let ways = ways(slices);
    if let Some(given) = small.get(call / ways) {
        return (given.clone(), call % ways);
    }
    let after = call - small.len() * ways;
    if let Some(given) = large.get(after / 2) {
        return (given.clone(), [0, 5][after % 2]);
    }
    // The first three ways are enough for every call.
    let few = rng.one_in(2);
    (any(rng), rng.index(if few { 3 } else { ways }))
}

/// What a call of ours leaves in slices of so many words.
fn left<I>(given: &I, words: &[usize], calls: Calls<I>) -> Left {
    let floats = |&n: &usize| fresh(n).into_iter().map(f64::from_bits).collect();
    let mut slices: Vec<Vec<f64>> = words.iter().map(floats).collect();
    let mut lent: Vec<&mut [f64]> = slices
        .iter_mut()
        .zip(words)
        .map(|(slice, &n)| &mut slice[MARGIN..MARGIN + n])
        .collect();
    let mut counts = vec![MARK; calls.counts];
    let answer = (calls.ours)(given, &mut lent, &mut counts);
    let bits = |slice: Vec<f64>| slice.into_iter().map(f64::to_bits).collect();
    Left {
        answer,
        counts,
        slices: slices.into_iter().map(bits).collect(),
    }
}

/// A call in both forms, and its slices, lent again and again as a caller
/// would, each as long as the need: the Rust makes new lists for each call.
struct Timed<I, R> {
    given: I,
    original: R,
    call: Ours<I>,
    slices: RefCell<Vec<Vec<f64>>>,
}

impl<I: Clone, R> Timed<I, R> {
    fn new(calls: &Calls<I>, given: &I, original: R) -> Timed<I, R> {
        let need = (calls.need)(given).expect("a call to be timed is refused");
        Timed {
            given: given.clone(),
            original,
            call: calls.ours,
            slices: RefCell::new(need.iter().map(|&n| vec![0.0; n]).collect()),
        }
    }

    fn ours(&self) -> u64 {
        let mut slices = self.slices.borrow_mut();
        let mut lent: Vec<&mut [f64]> = slices.iter_mut().map(|s| &mut s[..]).collect();
        let mut counts = [0; 2];
        assert_eq!((self.call)(&self.given, &mut lent, &mut counts), DONE);
        counts[0]
    }
}

/// How many of each function the replay list has.
const REPLAYED: usize = 60;

/// The replay list: lines split and bent, columns, their rooms and their halves.
pub fn replay(list: &mut List) {
    let path = |number| move |p: &Path, lent: &[usize]| path_call(number, p, lent);
    replay_calls(list, split_calls(), path(0x43));
    replay_calls(list, bent_calls(), path(0x44));
    replay_calls(list, pairs_calls(), |m, lent| {
        rails_call(0x60, &m.rails, &[m.step], lent)
    });
    replay_calls(list, column_calls(), |c, lent| column_call(0x62, c, lent));
    let rooms = [boundaries::matched(), boundaries::large_matched()].concat();
    list.sample("pairs_room", REPLAYED, few(rooms), rails::matched, |m| {
        let call = rails_call(0x61, &m.rails, &[m.step], &[])?;
        Some((call, enough(&owed::pairs_room(m))))
    });
    let rooms = [boundaries::columns(), boundaries::large_columns()].concat();
    list.sample("column_room", REPLAYED, few(rooms), rails::column, |c| {
        Some((column_call(0x63, c, &[])?, enough(&owed::column_room(c))))
    });
    replay_calls(list, underlay_calls(), |c, lent| column_call(0x64, c, lent));
    replay_calls(list, top_calls(), |t, lent| {
        let mut call = column_call(0x65, &t.column, lent)?;
        call.lists.push(vec![t.far.into()]);
        Some(call)
    });
}

/// One in eleven of the calls at the boundaries.
fn few<I>(list: Vec<I>) -> Vec<I> {
    list.into_iter().step_by(11).take(20).collect()
}

fn enough(e: &Enough) -> records::Owed {
    records::Owed::of(vec![e.answer, e.floats])
}

fn replay_calls<I: Operands + Clone>(
    list: &mut List,
    calls: Calls<I>,
    call: impl Fn(&I, &[usize]) -> Option<records::Call>,
) {
    let lent = |given: I, way: usize| {
        let need = (calls.need)(&given).unwrap_or((5..5 + calls.slices).collect());
        Call {
            lent: lend(way, &need),
            given,
        }
    };
    let first = few((calls.small)()).into_iter().map(|given| lent(given, 0));
    let any = |rng: &mut Rng| {
        let way = rng.index(ways(calls.slices));
        lent((calls.any)(rng), way)
    };
    list.sample(calls.name, REPLAYED, first.collect(), any, |c| {
        let call = call(&c.given, &c.lent)?;
        Some((call, records::left(&(calls.owed)(&c.given, &c.lent))))
    });
}

fn path_call(function: u64, p: &Path, lent: &[usize]) -> Option<records::Call> {
    let small = p.line.len() <= 24 && lent.iter().all(|&n| n <= 128);
    small.then_some(())?;
    records::bits(&[p.max])?;
    Some(records::Call {
        function,
        floats: vec![p.max],
        lent: lent.to_vec(),
        lists: vec![records::bits(&p.line)?],
        ..records::Call::default()
    })
}

fn rails_call(function: u64, r: &Rails, floats: &[f64], lent: &[usize]) -> Option<records::Call> {
    let words = r.a.len() + r.b.len() + r.sync.len();
    let small = words <= 48 && lent.iter().all(|&n| n <= 256);
    small.then_some(())?;
    records::bits(floats)?;
    let bits = records::bits;
    Some(records::Call {
        function,
        floats: floats.to_vec(),
        lent: lent.to_vec(),
        lists: vec![bits(&r.a)?, bits(&r.b)?, bits(&r.sync)?],
        ..records::Call::default()
    })
}

fn column_call(function: u64, c: &Column, lent: &[usize]) -> Option<records::Call> {
    let floats = [c.spacing, c.pull, c.run_len, c.split];
    Some(records::Call {
        wholes: vec![c.underlay, c.short_stitches.into(), c.style],
        ..rails_call(function, &c.rails, &floats, lent)?
    })
}
