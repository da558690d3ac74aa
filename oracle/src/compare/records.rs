//! The replay list (README.md): calls for the program `replay`, and what each
//! owes by the Rust and document 01. A call's numbers stand at places of their
//! own; what isn't said is 0.

use super::{UNTOUCHED, Written, WrittenLines};
use crate::expect::DONE;
use crate::owed::{Left, MARGIN, MARK};
use crate::rng::Rng;
use std::collections::{BTreeMap, BTreeSet};

/// How many of each refusal are kept among those that are drawn.
const REFUSED: usize = 4;

/// How many words the program can lend in one slice, and read in one line.
const ROOM: u64 = 256;
const WORDS: usize = 400;

#[derive(Default)]
pub struct Call {
    pub function: u64,
    /// At most six.
    pub floats: Vec<f64>,
    /// At most three.
    pub wholes: Vec<u64>,
    /// How many words are lent in each slice.
    pub lent: Vec<usize>,
    pub lists: Vec<Vec<u64>>,
}

/// What a call owes: its number, its counts or values, and all of each lent slice.
pub struct Owed {
    pub words: Vec<u64>,
    pub slices: Vec<Vec<u64>>,
}

impl Owed {
    /// Of a call that is lent no slice.
    pub fn of(words: Vec<u64>) -> Owed {
        let slices = Vec::new();
        Owed { words, slices }
    }
}

pub type Record = (Call, Owed);

#[derive(Default)]
pub struct List {
    pub calls: String,
    pub answers: String,
    seen: BTreeSet<String>,
}

impl List {
    /// A name stands in both files.
    pub fn name(&mut self, name: &str) {
        let line = format!("# {name}\n");
        self.calls += &line;
        self.answers += &line;
    }

    /// False where the list has this call already, or it is too large for it.
    pub fn add(&mut self, (call, owed): &Record) -> bool {
        let large = call.lent.iter().any(|&n| n as u64 > ROOM)
            || call.lists.iter().map(Vec::len).sum::<usize>() > WORDS;
        let line = call_line(call);
        if large || !self.seen.insert(line.clone()) {
            return false;
        }
        self.calls += &line;
        self.answers += &answer_line(owed);
        true
    }

    /// So many of one function: the calls that are handed in, then drawn ones,
    /// refusals before the others. `record` gives nothing for a call that doesn't
    /// belong into a list.
    pub fn sample<I>(
        &mut self,
        name: &str,
        each: usize,
        first: Vec<I>,
        mut make: impl FnMut(&mut Rng) -> I,
        record: impl Fn(&I) -> Option<Record>,
    ) {
        self.name(name);
        let mut kept = 0;
        for record in first.iter().filter_map(&record) {
            kept += usize::from(self.add(&record));
        }
        let mut rng = Rng::new(1, name);
        let mut by_answer: BTreeMap<u64, Vec<Record>> = BTreeMap::new();
        for _ in 0..5_000 {
            if let Some(record) = record(&make(&mut rng)) {
                let answer = record.1.words[0];
                let same = by_answer.entry(answer).or_default();
                if same.len() < if answer == DONE { each } else { REFUSED } {
                    same.push(record);
                }
            }
        }
        let done = by_answer.remove(&DONE).unwrap_or_default();
        for record in by_answer.into_values().flatten().chain(done) {
            if kept < each {
                kept += usize::from(self.add(&record));
            }
        }
    }
}

fn call_line(call: &Call) -> String {
    let mut words = vec![0; 16.max(10 + call.lent.len())];
    words[0] = call.function;
    for (at, x) in call.floats.iter().enumerate() {
        words[1 + at] = x.to_bits();
    }
    words[7..7 + call.wholes.len()].copy_from_slice(&call.wholes);
    for (at, &n) in call.lent.iter().enumerate() {
        words[10 + at] = n as u64;
    }
    // Lists stand behind all of them.
    if call.lists.is_empty() {
        let last = words.iter().rposition(|&w| w != 0).unwrap_or(0);
        words.truncate(last + 1);
    }
    let mut line: String = words.iter().map(|w| format!("{w:x} ")).collect();
    for list in &call.lists {
        line += ",";
        line.extend(list.iter().map(|w| format!("{w:x} ")));
    }
    if !call.lists.is_empty() {
        line += ",";
    }
    line + "\n"
}

fn answer_line(owed: &Owed) -> String {
    let mut line: String = owed.words.iter().map(|w| format!("{w:x} ")).collect();
    for slice in &owed.slices {
        for run in slice.chunk_by(|a, b| a == b) {
            line += &match run.len() {
                1 => format!("{:x} ", run[0]),
                n => format!("{:x}*{n:x} ", run[0]),
            };
        }
        line += ",";
    }
    line + "\n"
}

/// The bits of numbers; nothing where one is NaN, which has no bits in the
/// proved model.
pub fn bits(list: &[f64]) -> Option<Vec<u64>> {
    list.iter()
        .map(|x| (!x.is_nan()).then_some(x.to_bits()))
        .collect()
}

/// What a call owes that stores so many values where it answers DONE.
pub fn values(answer: u64, n: usize, value: impl FnOnce() -> Option<Vec<u64>>) -> Option<Owed> {
    let mut words = vec![answer];
    words.extend(if answer == DONE {
        value()?
    } else {
        vec![UNTOUCHED; n]
    });
    Some(Owed::of(words))
}

pub fn written(w: &Written) -> Option<Owed> {
    Some(Owed {
        words: vec![w.answer, w.count],
        slices: vec![bits(&w.out)?],
    })
}

pub fn lines(w: &WrittenLines) -> Option<Owed> {
    Some(Owed {
        words: vec![w.answer, w.lines, w.points],
        slices: vec![bits(&w.out)?, w.stops.clone()],
    })
}

/// What is left, without the margins, and the same mark for every word that
/// stands as it was.
pub fn left(left: &Left) -> Owed {
    let word = |(i, &w): (usize, &u64)| if w == MARK + i as u64 { UNTOUCHED } else { w };
    let inner = |slice: &Vec<u64>| {
        let words: Vec<u64> = slice.iter().enumerate().map(word).collect();
        words[MARGIN..words.len() - MARGIN].to_vec()
    };
    Owed {
        words: [vec![left.answer], left.counts.clone()].concat(),
        slices: left.slices.iter().map(inner).collect(),
    }
}
