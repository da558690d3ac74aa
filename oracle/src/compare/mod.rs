//! The common harness: one loop over generated calls, one way to collect and
//! report differences, one way to time. A group is a file with a list of
//! functions; see README.md for how to add one.

mod book;
mod dst;
mod dst_read;
pub mod fill;
pub mod geom;
mod jobs;
pub mod leaves;
pub mod meander;
pub mod patterns;
mod plain;
mod records;
mod salvage;
pub mod satin;
mod sheet;
pub mod stroke;
mod twice;

use crate::rng::Rng;
use records::List;
use std::collections::{BTreeMap, BinaryHeap};
use std::hint::black_box;
use std::rc::Rc;
use std::time::Instant;

/// How many differences of a function are kept (the smallest), and printed.
const KEPT: usize = 2000;
const PRINTED: usize = 20;

/// What a call is given.
pub trait Operands {
    /// What to sort differences by: fewer corners first, then simpler numbers.
    fn size(&self) -> (usize, u64);
    /// All its bits, in hex.
    fn show(&self) -> String;
}

/// What a call leaves behind: answer, values, counts and every lent slice.
pub trait Outcome {
    /// Equal in bits; any NaN equals any NaN.
    fn same(&self, other: &Self) -> bool;
    fn show(&self) -> String;
    /// Document 01's number, where the call answers one.
    fn answer(&self) -> Option<u64> {
        None
    }
}

pub struct Job {
    pub seed: u64,
    pub count: u64,
}

/// How many calls are compared where no other count is asked for.
const USUAL: u64 = 100_000;

/// A function that stands on both sides.
pub struct Function {
    pub name: &'static str,
    pub usual: u64,
    compare: Box<dyn Fn(&Job) -> Report>,
    benches: Vec<Bench>,
}

/// What to time: its label, the timing of inputs drawn from a random source, and
/// one go over them by each side, for counting instructions.
struct Bench {
    label: String,
    run: Box<dyn Fn(&mut Rng) -> Timing>,
    once: Box<dyn Fn(&mut Rng)>,
}

/// A named tie: the calls that the Rust leaves open, and what document 01 says there.
pub type Tie<T> = Option<(&'static str, T)>;

pub fn no_tie<I, T>(_: &I) -> Tie<T> {
    None
}

/// Stands where a value or a slice is lent: it must still stand there where
/// the call owes no change.
pub const UNTOUCHED: u64 = 0x1234_5678_9abc_def0;

impl Function {
    /// `make` gives the operands of a call by its number, `tie` tells the named ties.
    pub fn new<I: Operands, T: Outcome>(
        name: &'static str,
        make: impl Fn(&mut Rng, u64) -> I + 'static,
        rust: impl Fn(&I) -> T + 'static,
        ours: impl Fn(&I) -> T + 'static,
        tie: impl Fn(&I) -> Tie<T> + 'static,
    ) -> Function {
        let compare = move |job: &Job| {
            let mut report = Report::new(name, job.seed);
            let mut rng = Rng::new(job.seed, name);
            for call in 0..job.count {
                let operands = make(&mut rng, call);
                let wanted = match tie(&operands) {
                    Some((why, wanted)) => {
                        *report.ties.entry(why).or_default() += 1;
                        wanted
                    }
                    None => {
                        report.compared += 1;
                        rust(&operands)
                    }
                };
                report.add(&operands, &wanted, &ours(&operands));
            }
            report
        };
        Function {
            name,
            usual: USUAL,
            compare: Box::new(compare),
            benches: Vec::new(),
        }
    }

    /// Another count than the usual one, for calls that take longer.
    pub fn usually(mut self, count: u64) -> Function {
        self.usual = count;
        self
    }

    /// What to time: inputs from `make`, and the two sides bare of any harness.
    pub fn timed<I, A, B>(
        self,
        make: impl Fn(&mut Rng) -> I + 'static,
        rust: impl Fn(&I) -> A + 'static,
        ours: impl Fn(&I) -> B + 'static,
    ) -> Function {
        let name = self.name;
        self.timed_as(name, 1000, make, rust, ours)
    }

    /// The same on a list of inputs, under a label: a function may have several.
    pub fn timed_on<I, A, B>(
        mut self,
        label: String,
        inputs: impl Fn(&mut Rng) -> Vec<I> + 'static,
        rust: impl Fn(&I) -> A + 'static,
        ours: impl Fn(&I) -> B + 'static,
    ) -> Function {
        let sides = Rc::new((inputs, rust, ours));
        let both = sides.clone();
        let run = move |rng: &mut Rng| time(&both.0(rng), &both.1, &both.2);
        let once = move |rng: &mut Rng| {
            let inputs = sides.0(rng);
            rust_once(&inputs, &sides.1);
            ours_once(&inputs, &sides.2);
        };
        self.benches.push(Bench {
            label,
            run: Box::new(run),
            once: Box::new(once),
        });
        self
    }

    /// The same over so many made inputs.
    pub fn timed_as<I, A, B>(
        self,
        label: &str,
        inputs: usize,
        make: impl Fn(&mut Rng) -> I + 'static,
        rust: impl Fn(&I) -> A + 'static,
        ours: impl Fn(&I) -> B + 'static,
    ) -> Function {
        let many = move |rng: &mut Rng| (0..inputs).map(|_| make(rng)).collect();
        self.timed_on(label.to_string(), many, rust, ours)
    }

    /// Prints the function's line, and its differences if there are any.
    pub fn compare(&self, job: &Job) -> bool {
        let report = (self.compare)(job);
        let equal = report.differing == 0;
        report.print();
        equal
    }

    pub fn labels(&self) -> impl Iterator<Item = &str> {
        self.benches.iter().map(|b| b.label.as_str())
    }

    /// Goes once over the inputs of the benchmark of this label, by each side.
    pub fn once(&self, label: &str, seed: u64) {
        for bench in self.benches.iter().filter(|b| b.label == label) {
            (bench.once)(&mut Rng::new(seed, self.name));
        }
    }

    pub fn bench(&self, seed: u64) {
        for bench in &self.benches {
            let t = (bench.run)(&mut Rng::new(seed, self.name));
            let (label, ours, rust) = (&bench.label, t.ours, t.rust);
            println!(
                "{label:<38} ours {ours:13.2} ns   Rust {rust:13.2} ns   ratio {:7.3}",
                ours / rust
            );
        }
    }
}

/// One call that differed; the order is that of its size.
#[derive(PartialEq, Eq, PartialOrd, Ord)]
struct Difference {
    size: (usize, u64),
    text: String,
}

struct Report {
    name: &'static str,
    seed: u64,
    compared: u64,
    ties: BTreeMap<&'static str, u64>,
    answers: BTreeMap<u64, u64>,
    differing: u64,
    smallest: BinaryHeap<Difference>,
}

impl Report {
    fn new(name: &'static str, seed: u64) -> Report {
        Report {
            name,
            seed,
            compared: 0,
            ties: BTreeMap::new(),
            answers: BTreeMap::new(),
            differing: 0,
            smallest: BinaryHeap::new(),
        }
    }

    fn add<I: Operands, T: Outcome>(&mut self, operands: &I, wanted: &T, given: &T) {
        if let Some(answer) = wanted.answer() {
            *self.answers.entry(answer).or_default() += 1;
        }
        if wanted.same(given) {
            return;
        }
        self.differing += 1;
        let size = operands.size();
        let full = self.smallest.len() == KEPT;
        if full && self.smallest.peek().is_some_and(|d| d.size <= size) {
            return;
        }
        if full {
            self.smallest.pop();
        }
        self.smallest.push(Difference {
            size,
            text: format!(
                "  {}({})\n    wanted {}\n    given  {}",
                self.name,
                operands.show(),
                wanted.show(),
                given.show()
            ),
        });
    }

    fn print(self) {
        let tied: u64 = self.ties.values().sum();
        let mut line = format!(
            "{:<22} seed {}  compared {}  ties {}  differences {}",
            self.name, self.seed, self.compared, tied, self.differing
        );
        for (why, n) in &self.ties {
            line += &format!("  [{why}: {n}]");
        }
        if !self.answers.is_empty() {
            let list: Vec<String> = self
                .answers
                .iter()
                .map(|(a, n)| format!("{a}:{n}"))
                .collect();
            line += &format!("  answers {}", list.join(" "));
        }
        println!("{line}");
        let mut kept = self.smallest.into_sorted_vec();
        kept.dedup();
        for difference in kept.iter().take(PRINTED) {
            println!("{}", difference.text);
        }
        if kept.len() > PRINTED {
            println!("  .. and others: the {PRINTED} smallest are shown");
        }
    }
}

struct Timing {
    rust: f64,
    ours: f64,
}

/// Nanoseconds per call of each side: the median of rounds taken in turns, so
/// that both meet the same disturbances.
fn time<I, A, B>(inputs: &[I], rust: impl Fn(&I) -> A, ours: impl Fn(&I) -> B) -> Timing {
    const ROUNDS: usize = 15;
    let rust = |input: &I| called(&rust, input);
    let times = repeats(inputs, &rust).max(repeats(inputs, &ours));
    let mut rounds = (Vec::new(), Vec::new());
    for _ in 0..ROUNDS {
        rounds.0.push(round(inputs, &rust, times));
        rounds.1.push(round(inputs, &ours, times));
    }
    rounds.0.sort_by(f64::total_cmp);
    rounds.1.sort_by(f64::total_cmp);
    Timing {
        rust: rounds.0[ROUNDS / 2],
        ours: rounds.1[ROUNDS / 2],
    }
}

/// The Rust as a call of its own: ours is always one, into the archive.
#[inline(never)]
fn called<I, A>(rust: &impl Fn(&I) -> A, input: &I) -> A {
    rust(input)
}

/// By these two names `oracle/instructions` finds what each side takes.
#[inline(never)]
fn rust_once<I, A>(inputs: &[I], rust: &impl Fn(&I) -> A) {
    round(inputs, rust, 1);
}

#[inline(never)]
fn ours_once<I, A>(inputs: &[I], ours: &impl Fn(&I) -> A) {
    round(inputs, ours, 1);
}

/// How often to go over the inputs so that a round takes some milliseconds.
fn repeats<I, T>(inputs: &[I], f: &impl Fn(&I) -> T) -> usize {
    let once = round(inputs, f, 1) * inputs.len() as f64;
    (3e6 / once).clamp(1.0, 1e6 / inputs.len() as f64) as usize
}

fn round<I, T>(inputs: &[I], f: &impl Fn(&I) -> T, times: usize) -> f64 {
    let start = Instant::now();
    for _ in 0..times {
        for input in inputs {
            black_box(f(black_box(input)));
        }
    }
    start.elapsed().as_nanos() as f64 / (times * inputs.len()) as f64
}

/// How far a number is from a simple one: its digits, its exponent's size, its sign.
pub fn simplicity(x: f64) -> u64 {
    let bits = x.to_bits();
    if x == 0.0 {
        return bits >> 63;
    }
    let fraction = bits & ((1 << 52) - 1);
    let exponent = (bits >> 52) & 0x7ff;
    let digits = u64::from(52 - fraction.trailing_zeros().min(52));
    digits + exponent.abs_diff(1023) + (bits >> 63)
}

pub fn hex(x: f64) -> String {
    format!("{:016x}", x.to_bits())
}

impl Operands for f64 {
    fn size(&self) -> (usize, u64) {
        (0, simplicity(*self))
    }
    fn show(&self) -> String {
        hex(*self)
    }
}

impl Operands for (f64, f64) {
    fn size(&self) -> (usize, u64) {
        (0, simplicity(self.0) + simplicity(self.1))
    }
    fn show(&self) -> String {
        format!("{}, {}", hex(self.0), hex(self.1))
    }
}

impl Operands for u64 {
    fn size(&self) -> (usize, u64) {
        (0, u64::from(64 - self.leading_zeros() + self.count_ones()))
    }
    fn show(&self) -> String {
        format!("{self:016x}")
    }
}

impl Outcome for f64 {
    fn same(&self, other: &f64) -> bool {
        self.to_bits() == other.to_bits() || (self.is_nan() && other.is_nan())
    }
    fn show(&self) -> String {
        hex(*self)
    }
}

impl Outcome for u64 {
    fn same(&self, other: &u64) -> bool {
        self == other
    }
    fn show(&self) -> String {
        format!("{self:016x}")
    }
}

impl Outcome for i64 {
    fn same(&self, other: &i64) -> bool {
        self == other
    }
    fn show(&self) -> String {
        format!("{self:016x}")
    }
}

impl Outcome for bool {
    fn same(&self, other: &bool) -> bool {
        self == other
    }
    fn show(&self) -> String {
        self.to_string()
    }
}

/// A call that answers document 01's number and stores one value on 0.
pub struct Answered<T> {
    pub answer: u64,
    pub value: T,
}

impl<T: Outcome> Outcome for Answered<T> {
    fn same(&self, other: &Self) -> bool {
        self.answer == other.answer && self.value.same(&other.value)
    }
    fn show(&self) -> String {
        format!("answer {} value {}", self.answer, self.value.show())
    }
    fn answer(&self) -> Option<u64> {
        Some(self.answer)
    }
}

impl<const N: usize> Operands for [f64; N] {
    fn size(&self) -> (usize, u64) {
        (0, self.iter().copied().map(simplicity).sum())
    }
    fn show(&self) -> String {
        list(self)
    }
}

impl<const N: usize> Outcome for [f64; N] {
    fn same(&self, other: &Self) -> bool {
        self.iter().zip(other).all(|(a, b)| a.same(b))
    }
    fn show(&self) -> String {
        list(self)
    }
}

pub fn list(numbers: &[f64]) -> String {
    let all: Vec<String> = numbers.iter().copied().map(hex).collect();
    format!("[{}]", all.join(" "))
}

/// A call that answers document 01's number and a count, and writes points to a
/// lent slice: the whole slice counts, before and after the points.
pub struct Written {
    pub answer: u64,
    pub count: u64,
    pub out: Vec<f64>,
}

impl Outcome for Written {
    fn same(&self, other: &Self) -> bool {
        self.answer == other.answer
            && self.count == other.count
            && self.out.len() == other.out.len()
            && self.out.iter().zip(&other.out).all(|(a, b)| a.same(b))
    }
    fn show(&self) -> String {
        let (answer, count) = (self.answer, self.count);
        format!("answer {answer} count {count} out {}", list(&self.out))
    }
    fn answer(&self) -> Option<u64> {
        Some(self.answer)
    }
}

/// A call that writes lines to two lent slices: their points, x before y, and
/// where each ends, in points.
pub struct WrittenLines {
    pub answer: u64,
    pub lines: u64,
    pub points: u64,
    pub out: Vec<f64>,
    pub stops: Vec<u64>,
}

impl Outcome for WrittenLines {
    fn same(&self, other: &Self) -> bool {
        (self.answer, self.lines, self.points) == (other.answer, other.lines, other.points)
            && self.stops == other.stops
            && self.out.len() == other.out.len()
            && self.out.iter().zip(&other.out).all(|(a, b)| a.same(b))
    }
    fn show(&self) -> String {
        format!(
            "answer {} lines {} points {} out {} stops {:x?}",
            self.answer,
            self.lines,
            self.points,
            list(&self.out),
            self.stops
        )
    }
    fn answer(&self) -> Option<u64> {
        Some(self.answer)
    }
}

/// A group's name and its functions.
pub struct Group {
    pub name: &'static str,
    pub functions: Vec<Function>,
}

pub fn groups() -> Vec<Group> {
    let group = |name, functions| Group { name, functions };
    vec![
        group("leaves", leaves::functions()),
        group("geom", geom::functions()),
        group("stroke", stroke::functions()),
        group("fill", fill::functions()),
        group("jobs", jobs::functions()),
        group("patterns", patterns::functions()),
        group("meander", meander::functions()),
        group("satin", satin::functions()),
        group(
            "machine",
            [dst::functions(), dst_read::functions()]
                .into_iter()
                .flatten()
                .collect(),
        ),
        group("plain", plain::functions()),
        group("mending", salvage::functions()),
        group("book", book::functions()),
    ]
}

/// The replay list: document 01's sheet of checks, then calls of every group.
pub fn replay() -> List {
    let mut list = List::default();
    sheet::replay(&mut list);
    for group in [
        leaves::replay,
        geom::replay,
        stroke::replay,
        fill::replay,
        plain::replay,
        twice::replay,
        jobs::replay,
        satin::replay,
        patterns::replay,
        meander::replay,
        dst::replay,
        dst_read::replay,
        salvage::replay,
        book::replay,
    ] {
        group(&mut list);
    }
    list
}
