//! Number leaves: Rust's own library on the one side, `leaves` on the other.

use super::records::{self, Call, List, Owed, Record};
use super::{Answered, Function, UNTOUCHED, no_tie};
use crate::expect::{DONE, NUMBER};
use crate::inputs::numbers;
use crate::ours;
use crate::rng::Rng;
use std::cmp::Ordering;

const UNLIKE_ZEROS: &str = "zeros of unlike sign";
const NAN_PLACE: &str = "NaN has no place in the order";
const SIGNALLING: &str = "a signalling NaN";

pub fn functions() -> Vec<Function> {
    vec![
        // The total face.
        root(),
        one("floor", f64::floor, ours::floor),
        one("ceil", f64::ceil, ours::ceil),
        two("smaller", f64::min, ours::smaller, -0.0),
        two("larger", f64::max, ours::larger, 0.0),
        one("magnitude", f64::abs, ours::magnitude),
        before(),
        to_i64(),
        to_u64(),
        of_i64(),
        of_u64(),
        // The public face.
        leaf_root(),
        leaf_one("leaf_floor", f64::floor, ours::leaf_floor),
        leaf_one("leaf_ceil", f64::ceil, ours::leaf_ceil),
        leaf_one("leaf_magnitude", f64::abs, ours::leaf_magnitude),
        leaf_two("leaf_smaller", f64::min, ours::leaf_smaller, -0.0),
        leaf_two("leaf_larger", f64::max, ours::leaf_larger, 0.0),
        leaf_order(),
    ]
}

fn unlike_zeros(a: f64, b: f64) -> bool {
    a == 0.0 && b == 0.0 && a.to_bits() != b.to_bits()
}

fn signalling(x: f64) -> bool {
    const QUIET: u64 = 1 << 51;
    x.is_nan() && x.to_bits() & QUIET == 0
}

fn plain_pair(rng: &mut Rng) -> (f64, f64) {
    (numbers::plain(rng), numbers::plain(rng))
}

fn root() -> Function {
    Function::new(
        "root",
        numbers::seldom_negative,
        |x: &f64| x.sqrt(),
        |&x| ours::root(x),
        no_tie,
    )
    .timed(
        |rng| numbers::plain(rng).abs(),
        |x| x.sqrt(),
        |&x| ours::root(x),
    )
}

fn one(
    name: &'static str,
    rust: impl Fn(f64) -> f64 + Copy + 'static,
    ours: impl Fn(f64) -> f64 + Copy + 'static,
) -> Function {
    Function::new(
        name,
        numbers::one,
        move |&x| rust(x),
        move |&x| ours(x),
        no_tie,
    )
    .timed(numbers::plain, move |&x| rust(x), move |&x| ours(x))
}

/// Of two zeros of unlike sign, document 01 gives `zero`. What the Rust gives for a
/// signalling NaN depends on the processor; ours gives the number, as for any NaN.
fn two(
    name: &'static str,
    rust: impl Fn(f64, f64) -> f64 + Copy + 'static,
    ours: impl Fn(f64, f64) -> f64 + Copy + 'static,
    zero: f64,
) -> Function {
    let tie = move |&(a, b): &(f64, f64)| {
        let number = if a.is_nan() { b } else { a };
        (signalling(a) || signalling(b))
            .then_some((SIGNALLING, number))
            .or(unlike_zeros(a, b).then_some((UNLIKE_ZEROS, zero)))
    };
    Function::new(
        name,
        numbers::two,
        move |&(a, b)| rust(a, b),
        move |&(a, b)| ours(a, b),
        tie,
    )
    .timed(
        plain_pair,
        move |&(a, b)| rust(a, b),
        move |&(a, b)| ours(a, b),
    )
}

fn before() -> Function {
    let rust = |&(a, b): &(f64, f64)| a.total_cmp(&b) == Ordering::Less;
    let ours = |&(a, b): &(f64, f64)| ours::before(a, b);
    let tie = |&(a, b): &(f64, f64)| (a.is_nan() || b.is_nan()).then_some((NAN_PLACE, false));
    Function::new("before", numbers::two, rust, ours, tie).timed(plain_pair, rust, ours)
}

fn to_i64() -> Function {
    let rust = |x: &f64| *x as i64;
    let ours = |x: &f64| ours::to_i64(*x);
    Function::new("to_i64", numbers::one, rust, ours, no_tie).timed(numbers::plain, rust, ours)
}

fn to_u64() -> Function {
    let rust = |x: &f64| *x as u64;
    let ours = |x: &f64| ours::to_u64(*x);
    let plain = |rng: &mut Rng| numbers::plain(rng).abs();
    Function::new("to_u64", numbers::one, rust, ours, no_tie).timed(plain, rust, ours)
}

fn of_i64() -> Function {
    let rust = |n: &u64| *n as i64 as f64;
    let ours = |n: &u64| ours::of_i64(*n as i64);
    let plain = |rng: &mut Rng| rng.range(-100_000, 100_000) as u64;
    Function::new("of_i64", numbers::bits, rust, ours, no_tie).timed(plain, rust, ours)
}

fn of_u64() -> Function {
    let rust = |n: &u64| *n as f64;
    let ours = |n: &u64| ours::of_u64(*n);
    let plain = |rng: &mut Rng| rng.below(100_000);
    Function::new("of_u64", numbers::bits, rust, ours, no_tie).timed(plain, rust, ours)
}

/// What the public face owes: the value where it is defined, or NUMBER and
/// nothing stored.
fn owed(defined: bool, value: impl FnOnce() -> f64) -> Answered<f64> {
    if defined {
        Answered {
            answer: DONE,
            value: value(),
        }
    } else {
        Answered {
            answer: NUMBER,
            value: f64::from_bits(UNTOUCHED),
        }
    }
}

/// What the public face gave.
fn given(call: impl FnOnce(&mut f64) -> u64) -> Answered<f64> {
    let mut value = f64::from_bits(UNTOUCHED);
    let answer = call(&mut value);
    Answered { answer, value }
}

fn leaf_root() -> Function {
    Function::new(
        "leaf_root",
        numbers::seldom_negative,
        |&x: &f64| owed(x.is_finite() && x >= 0.0, || x.sqrt()),
        |&x| given(|v| ours::leaf_root(x, v)),
        no_tie,
    )
}

fn leaf_one(
    name: &'static str,
    rust: impl Fn(f64) -> f64 + Copy + 'static,
    ours: impl Fn(f64, &mut f64) -> u64 + Copy + 'static,
) -> Function {
    Function::new(
        name,
        numbers::one,
        move |&x: &f64| owed(x.is_finite(), || rust(x)),
        move |&x| given(|v| ours(x, v)),
        no_tie,
    )
}

fn leaf_two(
    name: &'static str,
    rust: impl Fn(f64, f64) -> f64 + Copy + 'static,
    ours: impl Fn(f64, f64, &mut f64) -> u64 + Copy + 'static,
    zero: f64,
) -> Function {
    Function::new(
        name,
        numbers::two,
        move |&(a, b)| owed(a.is_finite() && b.is_finite(), || rust(a, b)),
        move |&(a, b)| given(|v| ours(a, b, v)),
        move |&(a, b)| unlike_zeros(a, b).then(|| (UNLIKE_ZEROS, owed(true, || zero))),
    )
}

fn leaf_order() -> Function {
    let rust = |&(a, b): &(f64, f64)| {
        let finite = a.is_finite() && b.is_finite();
        Answered {
            answer: if finite { DONE } else { NUMBER },
            value: match a.total_cmp(&b) {
                _ if !finite => UNTOUCHED,
                Ordering::Less => 0,
                Ordering::Equal => 1,
                Ordering::Greater => 2,
            },
        }
    };
    let ours = |&(a, b): &(f64, f64)| {
        let mut value = UNTOUCHED;
        let answer = ours::leaf_order(a, b, &mut value);
        Answered { answer, value }
    };
    Function::new("leaf_order", numbers::two, rust, ours, no_tie)
}

/// How many of each function of the checked face the replay list has.
const EACH: usize = 60;

/// The replay list: functions 0 to 16 of README.md's table. The boundaries come
/// first, then others.
pub fn replay(list: &mut List) {
    let (ones, twos, wholes, roots) = operands();
    let one: [(&str, fn(f64) -> u64); 6] = [
        ("root", |x| x.sqrt().to_bits()),
        ("floor", |x| x.floor().to_bits()),
        ("ceil", |x| x.ceil().to_bits()),
        ("magnitude", |x| x.abs().to_bits()),
        ("to_i64", |x| x as i64 as u64),
        ("to_u64", |x| x as u64),
    ];
    for ((name, rust), number) in one.into_iter().zip([0, 1, 2, 3, 7, 8]) {
        list.name(name);
        let more = if name == "root" { &roots[..] } else { &[] };
        for &x in ones.iter().chain(more) {
            total(list, number, &[x], rust(x));
        }
    }
    let two: [(&str, fn(f64, f64) -> u64); 3] = [
        ("smaller", |a, b| smaller(a, b).to_bits()),
        ("larger", |a, b| larger(a, b).to_bits()),
        ("before", |a, b| (a.total_cmp(&b) == Ordering::Less).into()),
    ];
    for ((name, rust), number) in two.into_iter().zip(4..) {
        list.name(name);
        for &(a, b) in &twos {
            total(list, number, &[a, b], rust(a, b));
        }
    }
    let of: [(&str, fn(u64) -> f64); 2] =
        [("of_i64", |n| n as i64 as f64), ("of_u64", |n| n as f64)];
    for ((name, rust), number) in of.into_iter().zip(9..) {
        list.name(name);
        for &n in &wholes {
            let call = Call {
                function: number,
                wholes: vec![n],
                ..Call::default()
            };
            list.add(&(call, Owed::of(vec![rust(n).to_bits()])));
        }
    }
    replay_checked(list);
}

/// A call of the total face; one with a NaN, which has no bits in the proved
/// model, is left out.
fn total(list: &mut List, function: u64, floats: &[f64], owed: u64) {
    let nan = floats.iter().any(|x| x.is_nan());
    let float = !matches!(function, 6..=8);
    if nan || float && f64::from_bits(owed).is_nan() {
        return;
    }
    let call = Call {
        function,
        floats: floats.to_vec(),
        ..Call::default()
    };
    list.add(&(call, Owed::of(vec![owed])));
}

type Operands = (Vec<f64>, Vec<(f64, f64)>, Vec<u64>, Vec<f64>);

/// Operands of one number, of two, whole numbers, and more for the root alone.
fn operands() -> Operands {
    let mut ones = numbers::corners().to_vec();
    // Pairings of these few say all that an order or a choice can get wrong.
    let few = [0.0, 5e-324, f64::MIN_POSITIVE, 1.0, f64::MAX, f64::INFINITY];
    let few: Vec<f64> = few.iter().flat_map(|&x| [x, -x]).collect();
    let pairs = few.iter().flat_map(|&a| few.iter().map(move |&b| (a, b)));
    let mut twos: Vec<(f64, f64)> = pairs.collect();
    let places = (0..64).map(|place| 1u64 << place);
    let mut wholes: Vec<u64> = places.flat_map(|n| [n, n + 1, n - 1]).collect();
    let subnormal = |length: u32| f64::from_bits((1 << length) - 1);
    let mut roots: Vec<f64> = (1..=52).map(subnormal).collect();
    // Past the boundaries, whose calls come first.
    let (mut rng, past) = (Rng::new(1, "replay"), u64::MAX);
    for _ in 0..30 {
        let x = numbers::one(&mut rng, past);
        ones.extend([x, -x]);
        roots.extend((0..3).map(|_| numbers::seldom_negative(&mut rng, past).abs()));
        twos.push(numbers::two(&mut rng, past));
        wholes.push(numbers::bits(&mut rng, past));
    }
    (ones, twos, wholes, roots)
}

/// Of two zeros of unlike sign by document 01.
fn smaller(a: f64, b: f64) -> f64 {
    if unlike_zeros(a, b) { -0.0 } else { a.min(b) }
}

fn larger(a: f64, b: f64) -> f64 {
    if unlike_zeros(a, b) { 0.0 } else { a.max(b) }
}

/// What isn't finite, and numbers at the boundaries.
fn few() -> Vec<f64> {
    let few = [0.0, 5e-324, 1.0, 2.0, 2.5, f64::MAX, f64::INFINITY];
    let mut few: Vec<f64> = few.iter().flat_map(|&x| [x, -x]).collect();
    few.push(f64::NAN);
    few
}

/// The public face; here a NaN may stand, since it is refused.
fn replay_checked(list: &mut List) {
    let one: [(&str, fn(f64) -> bool, fn(f64) -> f64); 4] = [
        ("leaf_root", |x| x.is_finite() && x >= 0.0, f64::sqrt),
        ("leaf_floor", f64::is_finite, f64::floor),
        ("leaf_ceil", f64::is_finite, f64::ceil),
        ("leaf_magnitude", f64::is_finite, f64::abs),
    ];
    for ((name, defined, rust), number) in one.into_iter().zip(0x10..) {
        let make = |rng: &mut Rng| numbers::one(rng, u64::MAX);
        list.sample(name, EACH, few(), make, |&x| {
            let answer = if defined(x) { DONE } else { NUMBER };
            checked(number, &[x], answer, || rust(x).to_bits())
        });
    }
    let pairs = || {
        let pairs = few()
            .into_iter()
            .flat_map(|a| [(a, 1.0), (-1.0, a), (a, -a)]);
        pairs.collect::<Vec<_>>()
    };
    let two: [(&str, fn(f64, f64) -> u64); 3] = [
        ("leaf_smaller", |a, b| smaller(a, b).to_bits()),
        ("leaf_larger", |a, b| larger(a, b).to_bits()),
        ("leaf_order", |a, b| match a.total_cmp(&b) {
            Ordering::Less => 0,
            Ordering::Equal => 1,
            Ordering::Greater => 2,
        }),
    ];
    for ((name, rust), number) in two.into_iter().zip(0x14..) {
        let make = |rng: &mut Rng| numbers::two(rng, u64::MAX);
        list.sample(name, EACH, pairs(), make, |&(a, b)| {
            let finite = a.is_finite() && b.is_finite();
            let answer = if finite { DONE } else { NUMBER };
            checked(number, &[a, b], answer, || rust(a, b))
        });
    }
}

fn checked(
    function: u64,
    floats: &[f64],
    answer: u64,
    value: impl FnOnce() -> u64,
) -> Option<Record> {
    let call = Call {
        function,
        floats: floats.to_vec(),
        ..Call::default()
    };
    Some((call, records::values(answer, 1, || Some(vec![value()]))?))
}
