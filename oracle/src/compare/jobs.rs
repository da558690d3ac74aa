//! A job by its bytes: what is printed for it, framing and refusals included.

use super::fill::replayed;
use super::records::{self, Call, List, Owed, Record};
use super::{Function, Operands, Outcome, UNTOUCHED, no_tie};
use crate::expect::LAYOUT;
use crate::filled::{filled1, filled2};
use crate::inputs::boundaries::boundaries;
use crate::inputs::fills::{self, Fill, lend, ways};
use crate::inputs::outlines::Outline;
use crate::job::{decode, decode2, job, job2, relength, wanted1, wanted2};
use crate::owed::fill;
use crate::rng::Rng;

pub fn functions() -> Vec<Function> {
    let rust = |b: &Bytes| Listing(wanted1(&b.0));
    let ours = |b: &Bytes| Listing(filled1(&b.0));
    let rust2 = |b: &Bytes| Listing(wanted2(&b.0));
    let ours2 = |b: &Bytes| Listing(filled2(&b.0));
    vec![
        Function::new("fill_job", bytes, rust, ours, no_tie).usually(20_000),
        Function::new("fill_job2", bytes2, rust2, ours2, no_tie).usually(10_000),
    ]
}

struct Bytes(Vec<u8>);

impl Operands for Bytes {
    fn size(&self) -> (usize, u64) {
        (self.0.len(), 0)
    }
    fn show(&self) -> String {
        self.0.iter().map(|b| format!("{b:02x}")).collect()
    }
}

struct Listing(String);

impl Outcome for Listing {
    fn same(&self, other: &Self) -> bool {
        self.0 == other.0
    }
    fn show(&self) -> String {
        self.0.chars().take(600).collect()
    }
    fn answer(&self) -> Option<u64> {
        self.0.split(' ').next()?.parse().ok()
    }
}

/// The replay list of jobs of both versions, and K1's lent in every way.
pub fn replay(list: &mut List) {
    let k1 = Fill::k1();
    let beneath = Fill {
        spacing: 2.0,
        ..k1.clone()
    };
    let (one, two) = (job(&k1), job2(&k1, &beneath));
    jobs(list, "fill_job", bytes, record, one, 4);
    jobs(list, "fill_job2", bytes2, record2, two, 10);
}

fn jobs(
    list: &mut List,
    name: &str,
    make: fn(&mut Rng, u64) -> Bytes,
    record: fn(&[u8], usize) -> Option<Record>,
    k1: Option<Vec<u8>>,
    slices: usize,
) {
    let first = [0, 1, 2, 3, 4].map(|n| make(&mut Rng::new(n, "job"), n));
    let any = |rng: &mut Rng| make(rng, u64::MAX);
    list.sample(name, 44, first.into(), any, |b| record(&b.0, 0));
    list.name(&format!("{name}, lent in every way"));
    let k1 = k1.expect("K1 is no job");
    for record in (0..ways(slices)).filter_map(|way| record(&k1, way)) {
        list.add(&record);
    }
}

/// How much is lent for an outline's corners and ends.
const OUTLINE: [usize; 2] = [26, 8];

fn record(bytes: &[u8], way: usize) -> Option<Record> {
    let Some(f) = decode(bytes) else {
        return unframed(0x80, bytes, &[6, 5, 4, 3], 1);
    };
    let lent = lend(way, &fill::tatami_need(&f).unwrap_or(vec![8; 4]));
    // Small, with no NaN and no equal crossings, as any fill of the list.
    replayed(0, &f, &lent)?;
    let left = fill::tatami(&f, &lent, fill::Equal::Original);
    framed_as(0x80, bytes, &f.outline, &lent, records::left(&left))
}

fn record2(bytes: &[u8], way: usize) -> Option<Record> {
    let Some((f, second)) = decode2(bytes) else {
        return unframed(0x81, bytes, &[6, 5, 4, 3, 2, 1, 2, 3, 4, 5], 2);
    };
    let lent = lend(way, &fill::twice_need(&f, &second));
    replayed(0, &f, &lent)?;
    replayed(0, &second, &lent)?;
    let left = fill::tatami_twice(&f, &second, &lent, fill::Equal::Original);
    framed_as(0x81, bytes, &f.outline, &lent, records::left(&left))
}

/// Each byte is a word.
fn call(function: u64, bytes: &[u8], lent: &[usize]) -> Option<Call> {
    (bytes.len() <= 250).then(|| Call {
        function,
        lent: [&OUTLINE[..], lent].concat(),
        lists: vec![bytes.iter().map(|&b| b.into()).collect()],
        ..Call::default()
    })
}

/// LAYOUT of each fill, and nothing touched.
fn unframed(function: u64, bytes: &[u8], lent: &[usize], fills: usize) -> Option<Record> {
    let call = call(function, bytes, lent)?;
    let slices = call.lent.iter().map(|&n| vec![UNTOUCHED; n]).collect();
    let words = [LAYOUT, 0, 0].repeat(fills);
    Some((call, Owed { words, slices }))
}

/// The outline goes to the front of two slices that have room for it, also where
/// a fill is then refused.
fn framed_as(
    function: u64,
    bytes: &[u8],
    outline: &Outline,
    lent: &[usize],
    mut owed: Owed,
) -> Option<Record> {
    let front = |mut words: Vec<u64>, room| {
        words.resize(room, UNTOUCHED);
        words
    };
    let corners = front(records::bits(&outline.corners)?, OUTLINE[0]);
    let ends = front(outline.ends.clone(), OUTLINE[1]);
    owed.slices = [vec![corners, ends], owed.slices].concat();
    Some((call(function, bytes, lent)?, owed))
}

/// The job of a fill that document 01's framing can say.
fn framed(rng: &mut Rng) -> Vec<u8> {
    loop {
        if let Some(bytes) = job(&fills::any(rng)) {
            return bytes;
        }
    }
}

/// Each boundary first; then generated jobs, two in three with damage.
fn bytes(rng: &mut Rng, n: u64) -> Bytes {
    if let Some(bytes) = boundaries().get(n as usize).and_then(job) {
        return Bytes(bytes);
    }
    let bytes = framed(rng);
    damaged(rng, bytes)
}

/// The same of version 2: each boundary first as the one fill and then as the
/// other; seldom a version 1 job.
fn bytes2(rng: &mut Rng, n: u64) -> Bytes {
    if let Some(f) = boundaries().get(n as usize / 2) {
        let other = fills::beneath(rng, f);
        let (first, second) = if n % 2 == 0 { (f, &other) } else { (&other, f) };
        if let Some(bytes) = job2(first, second) {
            return Bytes(bytes);
        }
    }
    if rng.one_in(50) {
        return Bytes(framed(rng));
    }
    loop {
        let first = fills::any(rng);
        if let Some(bytes) = job2(&first, &fills::beneath(rng, &first)) {
            return damaged(rng, bytes);
        }
    }
}

/// Two in three with damage.
fn damaged(rng: &mut Rng, mut bytes: Vec<u8>) -> Bytes {
    match rng.below(6) {
        // Some bits turned.
        0 | 1 => {
            for _ in 0..1 + rng.below(3) {
                let at = rng.index(bytes.len());
                bytes[at] ^= 1 << rng.below(8);
            }
        }
        // Cut, or longer, with the length as it was or made right.
        2 => bytes.truncate(rng.index(bytes.len())),
        3 => bytes.extend((0..1 + rng.below(20)).map(|_| rng.next() as u8)),
        _ => {}
    }
    if rng.below(2) == 0 && bytes.len() >= 4 {
        bytes = relength(bytes);
    }
    Bytes(bytes)
}
