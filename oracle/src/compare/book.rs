//! The sheet book: sheets stored, fetched and removed.

use super::records::{Call, List, Owed};
use super::{Function, Operands, Outcome, UNTOUCHED, no_tie};
use crate::book::{self, Sheet, Values};
use crate::expect::{DONE, LEN, SHRINK, SPACING};
use crate::inputs::numbers::{beside, outside, plain};
use crate::ours::book as ours;
use crate::rng::Rng;
use std::cell::RefCell;

pub fn functions() -> Vec<Function> {
    let store = Function::new("book_store", make, owed_store, gave_store, no_tie);
    let fetch = Function::new("book_fetch", make, owed_fetch, gave_fetch, no_tie);
    let remove = Function::new("book_remove", make, owed_remove, gave_remove, no_tie);
    vec![
        store.usually(20_000).timed_on(
            "book_store, 40 sheets".into(),
            |_| vec![Timed::new()],
            |t| book::store(&t.list, SOUGHT, &PLAIN).is_ok(),
            |t| t.ours(|list| ours::store(list, SOUGHT, floats(&PLAIN), PLAIN.stagger)),
        ),
        fetch.usually(20_000).timed_on(
            "book_fetch, 40 sheets".into(),
            |_| vec![Timed::new()],
            |t| book::fetch(&t.list, SOUGHT).is_ok(),
            |t| ours::fetch(&t.list, SOUGHT, &mut [0.0; 4], &mut 0),
        ),
        remove.usually(20_000).timed_on(
            "book_remove, 40 sheets".into(),
            |_| vec![Timed::new()],
            |t| book::remove(&t.list, SOUGHT).is_ok(),
            |t| t.ours(|list| ours::remove(list, SOUGHT)),
        ),
    ]
}

/// A full book of 40 sheets; the one in the middle is sought.
const SOUGHT: u16 = 120;

struct Timed {
    list: Vec<u8>,
    lent: RefCell<Vec<u8>>,
}

impl Timed {
    fn new() -> Timed {
        let sheets: Vec<Sheet> = (100..140).map(|n| sheet(n, &PLAIN)).collect();
        let list = book::bytes(&sheets);
        Timed {
            lent: RefCell::new(list.clone()),
            list,
        }
    }

    /// A change of the same book each time: the Rust makes a new list, ours is lent a copy.
    fn ours(&self, call: impl FnOnce(&mut [u8]) -> u64) -> u64 {
        let mut lent = self.lent.borrow_mut();
        lent.copy_from_slice(&self.list);
        call(&mut lent)
    }
}

/// A list, and what a call is given beside it: `fetch` and `remove` pass over the values.
struct Lent {
    list: Vec<u8>,
    number: u16,
    values: Values,
}

impl Operands for Lent {
    fn size(&self) -> (usize, u64) {
        (self.list.len(), self.number.into())
    }
    fn show(&self) -> String {
        let list = self.list.iter().take(400).map(|b| format!("{b:02x}"));
        format!(
            "number {} values {:x?} bytes {}: {}",
            self.number,
            words(&self.values),
            self.list.len(),
            list.collect::<String>()
        )
    }
}

/// What a call left: its answer, the five values' places, and the whole list between guards.
struct Left {
    answer: u64,
    values: [u64; 5],
    list: Vec<u8>,
}

impl Outcome for Left {
    fn same(&self, other: &Self) -> bool {
        (self.answer, self.values, &self.list) == (other.answer, other.values, &other.list)
    }
    fn show(&self) -> String {
        let list = self.list.iter().take(400).map(|b| format!("{b:02x}"));
        format!(
            "answer {} values {:x?} list {}",
            self.answer,
            self.values,
            list.collect::<String>()
        )
    }
    fn answer(&self) -> Option<u64> {
        Some(self.answer)
    }
}

fn floats(v: &Values) -> [f64; 4] {
    [v.spacing, v.len, v.inset, v.pull]
}

fn words(v: &Values) -> [u64; 5] {
    let [a, b, c, d] = floats(v).map(f64::to_bits);
    [a, b, c, d, v.stagger]
}

const GUARD: usize = 8;
const MARK: u8 = 0xa5;

fn guarded(list: &[u8]) -> Vec<u8> {
    [&[MARK; GUARD], list, &[MARK; GUARD]].concat()
}

/// Of a call that changes the list.
fn changed(l: &Lent, after: Result<Vec<u8>, u64>) -> Left {
    Left {
        answer: *after.as_ref().err().unwrap_or(&DONE),
        values: [UNTOUCHED; 5],
        list: guarded(after.as_ref().unwrap_or(&l.list)),
    }
}

fn owed_store(l: &Lent) -> Left {
    changed(l, book::store(&l.list, l.number, &l.values))
}

fn owed_remove(l: &Lent) -> Left {
    changed(l, book::remove(&l.list, l.number))
}

fn owed_fetch(l: &Lent) -> Left {
    let fetched = book::fetch(&l.list, l.number);
    Left {
        answer: *fetched.as_ref().err().unwrap_or(&DONE),
        values: fetched.map_or([UNTOUCHED; 5], |v| words(&v)),
        list: guarded(&l.list),
    }
}

fn gave(l: &Lent, call: impl FnOnce(&mut [u8]) -> u64) -> Left {
    let mut list = guarded(&l.list);
    let answer = call(&mut list[GUARD..GUARD + l.list.len()]);
    Left {
        answer,
        values: [UNTOUCHED; 5],
        list,
    }
}

fn gave_store(l: &Lent) -> Left {
    let v = &l.values;
    gave(l, |list| ours::store(list, l.number, floats(v), v.stagger))
}

fn gave_remove(l: &Lent) -> Left {
    gave(l, |list| ours::remove(list, l.number))
}

fn gave_fetch(l: &Lent) -> Left {
    let (mut floats, mut stagger) = ([f64::from_bits(UNTOUCHED); 4], UNTOUCHED);
    let left = gave(l, |list| {
        ours::fetch(list, l.number, &mut floats, &mut stagger)
    });
    let [a, b, c, d] = floats.map(f64::to_bits);
    Left {
        values: [a, b, c, d, stagger],
        ..left
    }
}

/// A book of three cut at every place first, and each value at each end of its range; then generated books.
fn make(rng: &mut Rng, n: u64) -> Lent {
    let chosen = [cut(n), edge(n.wrapping_sub(CUTS))];
    chosen
        .into_iter()
        .flatten()
        .next()
        .unwrap_or_else(|| any(rng))
}

const PLAIN: Values = Values {
    spacing: 4.0,
    len: 25.0,
    inset: -1.5,
    pull: 0.25,
    stagger: 4,
};

fn sheet(number: u16, values: &Values) -> Sheet {
    Sheet {
        version: 1,
        number,
        rest: values.bytes(),
    }
}

fn later(number: u16, version: u8, rest: Vec<u8>) -> Sheet {
    Sheet {
        version,
        number,
        rest,
    }
}

const CUTS: u64 = 4 * 120;

/// Two sheets with one of a later version between them, cut at every place and more: the number of each, and another.
fn cut(n: u64) -> Option<Lent> {
    let three = [
        sheet(7, &PLAIN),
        later(0x0107, 9, vec![5; 4]),
        sheet(1, &PLAIN),
    ];
    let mut list = book::bytes(&three);
    list.extend([0, 0, 9]);
    list.resize(120, 0);
    list.truncate((n / 4) as usize);
    (n < CUTS).then_some(Lent {
        list,
        number: [7, 0x0107, 1, 0x0701][n as usize % 4],
        values: PLAIN,
    })
}

/// Each value at both ends of its range, on both sides, and what is no number: given to be stored, and standing in the book.
fn edge(n: u64) -> Option<Lent> {
    let odd = [f64::NAN, f64::INFINITY, f64::NEG_INFINITY, 0.0, -0.0];
    let ends = |low: f64, high: f64| {
        let near = [low, high].into_iter();
        let near = near.flat_map(|x| [-1, 0, 1].map(|ulps| beside(x, ulps)));
        near.chain(odd).collect::<Vec<f64>>()
    };
    let floats = [
        ends(*SPACING.start(), *SPACING.end()),
        ends(*LEN.start(), *LEN.end()),
        ends(*SHRINK.start(), *SHRINK.end()),
        ends(*SHRINK.start(), *SHRINK.end()),
    ];
    let wholes = [0, 999, 1000, 1001, (1 << 32) - 1, 1 << 32, u64::MAX];
    let mut all = Vec::new();
    for (at, list) in floats.iter().enumerate() {
        all.extend(list.iter().map(|x| with(at, *x)));
    }
    all.extend(wholes.map(|stagger| Values { stagger, ..PLAIN }));
    let values = *all.get(n as usize / 3)?;
    // Stored behind the others, in the place of one, and found there as bytes.
    let standing = if n % 3 == 2 { values } else { PLAIN };
    let mut list = book::bytes(&[sheet(2, &PLAIN), sheet(3, &standing)]);
    list.extend([0; 50]);
    let number = if n % 3 == 0 { 4 } else { 3 };
    Some(Lent {
        list,
        number,
        values,
    })
}

/// The plain values with another float at a place.
fn with(at: usize, x: f64) -> Values {
    let mut v = PLAIN;
    *[&mut v.spacing, &mut v.len, &mut v.inset, &mut v.pull][at] = x;
    v
}

/// Numbers whose bytes are easily mistaken for one another.
fn number(rng: &mut Rng) -> u16 {
    match rng.below(8) {
        0 => rng.pick(&[0x0100, 0x0001, 0xff00, 0x00ff, 0xffff, 0]),
        1 => rng.below(65_536) as u16,
        _ => rng.below(8) as u16,
    }
}

/// Values of which one in five sets has one outside its range.
fn values(rng: &mut Rng) -> Values {
    let part = |rng: &mut Rng, low: f64, high: f64| match rng.below(6) {
        0 => low,
        1 => high,
        _ => low + (high - low) * (plain(rng).abs() / 100_000.0),
    };
    let mut v = Values {
        spacing: part(rng, *SPACING.start(), *SPACING.end()),
        len: part(rng, *LEN.start(), *LEN.end()),
        inset: part(rng, *SHRINK.start(), *SHRINK.end()),
        pull: part(rng, *SHRINK.start(), *SHRINK.end()),
        stagger: rng.below(1001),
    };
    if rng.one_in(5) {
        match rng.below(5) {
            0 => v.spacing = outside(rng, SPACING),
            1 => v.len = outside(rng, LEN),
            2 => v.inset = outside(rng, SHRINK),
            3 => v.pull = outside(rng, SHRINK),
            _ => v.stagger = rng.pick(&[1001, (1 << 32) - 1, 1 << 32, (1 << 32) + 7, u64::MAX]),
        }
    }
    v
}

/// Up to six sheets, a third of them of later versions; a number stands twice only by accident.
fn some_sheets(rng: &mut Rng) -> Vec<Sheet> {
    let mut sheets: Vec<Sheet> = Vec::new();
    for _ in 0..rng.below(7) {
        let number = number(rng);
        if sheets.iter().any(|s| s.number == number) && !rng.one_in(20) {
            continue;
        }
        sheets.push(match rng.below(3) {
            0 => {
                let version = rng.pick(&[2, 3, 255]);
                let rest = (0..rng.below(60)).map(|_| rng.below(4) as u8);
                later(number, version, rest.collect())
            }
            _ => sheet(number, &values(rng)),
        });
    }
    sheets
}

/// What is behind the last sheet: nothing, room exactly for one more or a byte short, zeros, or garbage behind an end.
fn behind(rng: &mut Rng, list: &mut Vec<u8>) {
    let more = match rng.below(8) {
        0 => 0,
        1 => 1,
        2 => 40,
        3..6 => 41,
        _ => rng.index(100),
    };
    let garbage = rng.one_in(3);
    list.extend((0..more).map(|i| {
        if garbage && i > 1 {
            rng.below(256) as u8
        } else {
            0
        }
    }));
    // A single byte ends the book, whatever it is.
    if more == 1 {
        *list.last_mut().unwrap() = rng.below(256) as u8;
    }
}

/// A length, version or number of one sheet gone wrong, a byte of any place, or the list cut.
fn damage(rng: &mut Rng, sheets: &[Sheet], list: &mut Vec<u8>) {
    if list.is_empty() {
        return;
    }
    let at = match sheets.len() {
        0 => 0,
        n => book::bytes(&sheets[..rng.index(n)]).len(),
    };
    let place = |more: usize| (at + more).min(list.len() - 1);
    let (high, low, version, number) = (place(0), place(1), place(2), place(4));
    match rng.below(9) {
        0 => (list[high], list[low]) = (0, rng.below(4) as u8),
        1 => list[low] = list[low].wrapping_add(1),
        2 => list[low] = list[low].wrapping_sub(1),
        3 => list[high] = 1,
        4 => list[version] = 0,
        5 => list[version] = 1,
        6 => list[number] = rng.below(8) as u8,
        7 => list.truncate(rng.index(list.len())),
        _ => {
            let any = rng.index(list.len());
            list[any] ^= 1 << rng.below(8);
        }
    }
}

fn any(rng: &mut Rng) -> Lent {
    let sheets = some_sheets(rng);
    let mut list = book::bytes(&sheets);
    behind(rng, &mut list);
    if rng.one_in(4) {
        damage(rng, &sheets, &mut list);
    }
    let number = match sheets.len() {
        n if n > 0 && !rng.one_in(4) => sheets[rng.index(n)].number,
        _ => number(rng),
    };
    Lent {
        list,
        number,
        values: values(rng),
    }
}

/// The replay list: some of the cut books, values at the ends of their ranges, and small books.
pub fn replay(list: &mut List) {
    let first = || {
        let cuts = (0..CUTS).step_by(17).filter_map(cut);
        cuts.chain((0..u64::MAX).step_by(7).map_while(edge))
            .collect::<Vec<Lent>>()
    };
    let changes = [
        ("book_store", 0x90, owed_store as fn(&Lent) -> Left),
        ("book_remove", 0x92, owed_remove),
    ];
    for (name, function, owed) in changes {
        list.sample(name, 90, first(), any, |l| {
            let left = owed(l);
            let after = &left.list[GUARD..GUARD + l.list.len()];
            let owed = Owed {
                words: vec![left.answer],
                slices: vec![after.iter().map(|&b| b.into()).collect()],
            };
            Some((call(function, l)?, owed))
        });
    }
    list.sample("book_fetch", 90, first(), any, |l| {
        let left = owed_fetch(l);
        let words = [vec![left.answer], left.values.to_vec()].concat();
        Some((call(0x91, l)?, Owed::of(words)))
    });
}

fn call(function: u64, l: &Lent) -> Option<Call> {
    (l.list.len() <= 180).then(|| Call {
        function,
        floats: floats(&l.values).to_vec(),
        wholes: vec![l.number.into(), l.values.stagger],
        lists: vec![l.list.iter().map(|&b| b.into()).collect()],
        ..Call::default()
    })
}
