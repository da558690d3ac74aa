//! Machine files that come back: DST records to points.

use super::dst::{any, sewn};
use super::records::{Call, List, Owed};
use super::{Function, Operands, Outcome, UNTOUCHED, no_tie};
use crate::dst::{self, Refused};
use crate::expect::{self, DONE, ROOM};
use crate::ours::machine as ours;
use crate::rng::Rng;
use std::cell::RefCell;

pub fn functions() -> Vec<Function> {
    let function = Function::new("dst_read", make, owed, gave, no_tie).usually(20_000);
    vec![function.timed_on(
        "dst_read, 1000 points".into(),
        |_| {
            let bytes = dst::file(&sewn(1000));
            let most = bytes.len() / 3;
            vec![(bytes, RefCell::new((vec![0.0; 2 * most], vec![0; most])))]
        },
        |(bytes, _)| dst::read(bytes).is_ok(),
        |(bytes, lent)| {
            let (points, marks) = &mut *lent.borrow_mut();
            let (mut count, mut number) = (0, 0);
            let answer = ours::dst_read(bytes, points, marks, &mut count, &mut number);
            assert_eq!(answer, DONE);
            count
        },
    )]
}

struct File {
    bytes: Vec<u8>,
    room: usize,
    marks: usize,
}

impl Operands for File {
    fn size(&self) -> (usize, u64) {
        (self.bytes.len(), (self.room + self.marks) as u64)
    }
    fn show(&self) -> String {
        let bytes = self.bytes.iter().take(300).map(|b| format!("{b:02x}"));
        format!(
            "room {} marks {} bytes {}: {}",
            self.room,
            self.marks,
            self.bytes.len(),
            bytes.collect::<String>()
        )
    }
}

/// What the call left: its answer, the count, the record's number, and both lent slices between guards.
struct Left {
    answer: u64,
    count: u64,
    number: u64,
    points: Vec<u64>,
    marks: Vec<u64>,
}

impl Outcome for Left {
    fn same(&self, other: &Self) -> bool {
        (self.answer, self.count, self.number) == (other.answer, other.count, other.number)
            && self.points == other.points
            && self.marks == other.marks
    }
    fn show(&self) -> String {
        let points = self.points.iter().take(40).map(|x| format!(" {x:016x}"));
        let marks = self.marks.iter().take(20).map(|m| format!(" {m}"));
        format!(
            "answer {} count {} number {} points{} marks{}",
            self.answer,
            self.count,
            self.number,
            points.collect::<String>(),
            marks.collect::<String>()
        )
    }
    fn answer(&self) -> Option<u64> {
        Some(self.answer)
    }
}

const GUARD: usize = 4;

fn owed(f: &File) -> Left {
    let mut left = Left {
        answer: DONE,
        count: 0,
        number: 0,
        points: vec![UNTOUCHED; f.room + 2 * GUARD],
        marks: vec![UNTOUCHED; f.marks + 2 * GUARD],
    };
    match dst::read(&f.bytes) {
        Err(Refused { answer, number }) => (left.answer, left.number) = (answer, number),
        Ok(points) if 2 * points.len() > f.room || points.len() > f.marks => left.answer = ROOM,
        Ok(points) => {
            left.count = points.len() as u64;
            for (i, (x, y, mark)) in points.into_iter().enumerate() {
                left.points[GUARD + 2 * i] = (x as f64).to_bits();
                left.points[GUARD + 2 * i + 1] = (y as f64).to_bits();
                left.marks[GUARD + i] = mark;
            }
        }
    }
    left
}

fn gave(f: &File) -> Left {
    let mut points = vec![f64::from_bits(UNTOUCHED); f.room + 2 * GUARD];
    let mut marks = vec![UNTOUCHED; f.marks + 2 * GUARD];
    let (mut count, mut number) = (UNTOUCHED, UNTOUCHED);
    let lent = &mut points[GUARD..GUARD + f.room];
    let kept = &mut marks[GUARD..GUARD + f.marks];
    let answer = ours::dst_read(&f.bytes, lent, kept, &mut count, &mut number);
    Left {
        answer,
        count,
        number,
        points: points.iter().map(|x| x.to_bits()).collect(),
        marks,
    }
}

/// The longest files first; then, in turn, single records by their bytes, and generated files.
fn make(rng: &mut Rng, n: u64) -> File {
    let bytes = match n {
        0..8 => longest(n),
        _ if n % 2 == 0 => single(n / 2 - 4),
        _ => generated(rng),
    };
    let need = dst::read(&bytes).map_or(bytes.len() / 3, |points| points.len());
    let (room, marks) = match rng.below(10) {
        0 => ((2 * need).saturating_sub(1), need),
        1 => (2 * need, need.saturating_sub(1)),
        2 => (rng.index(2 * need + 1), rng.index(need + 1)),
        3 => (2 * need + 1, need + 1),
        4 => (0, 0),
        5 => (2 * need + rng.index(20), need + rng.index(20)),
        _ => (2 * need, need),
    };
    File { bytes, room, marks }
}

const STITCH: [u8; 3] = [0x01, 0x00, 0x03];
const BAD: [u8; 3] = [0x03, 0x00, 0x03];
const END: [u8; 3] = [0x00, 0x00, 0xf3];

/// A million records, one less and one more; a bad one, a cut one and the end behind a million.
fn longest(n: u64) -> Vec<u8> {
    let million = STITCH.repeat(1_000_000);
    match n {
        0 => [&million[3..], &END].concat(),
        1 => [&million[..], &END].concat(),
        2 => [&million[..], &STITCH, &END].concat(),
        3 => [&million[..], &BAD, &END].concat(),
        4 => [&million[..], &STITCH[..2]].concat(),
        5 => million,
        6 => [&million[3..], &BAD, &END].concat(),
        _ => [&[0x55, 0x55, 0x17].repeat(1_000_000)[..], &END, &BAD].concat(), // as far as it goes, 121 and -121
    }
}

/// One file cut at every place; then one record and the end: every third byte with chosen first and
/// second bytes, and every first and second byte with chosen third ones.
fn single(n: u64) -> Vec<u8> {
    const CUTS: u64 = 40;
    const CHOSEN: [u8; 8] = [0x00, 0x55, 0xaa, 0x99, 0x21, 0x12, 0x03, 0xc0];
    const THIRDS: [u8; 8] = [0x03, 0x83, 0xc3, 0x17, 0xab, 0xf3, 0x43, 0x33];
    if n < CUTS {
        let mut file = dst::file(&[122.0, -3.5, 500.0, 0.0, 501.0, 1.0, 0.0, 0.0]);
        file.truncate(n as usize);
        return file;
    }
    let n = (n - CUTS) as usize;
    let record = match n {
        0..16_384 => [CHOSEN[n / 256 % 8], CHOSEN[n / 2048], (n % 256) as u8],
        _ => [
            (n % 256) as u8,
            (n / 256 % 256) as u8,
            THIRDS[(n / 65_536 + n) % 8],
        ],
    };
    [STITCH, record, END].concat()
}

/// A record that is taken, of any mark, or in one of four any three bytes.
fn record(rng: &mut Rng) -> [u8; 3] {
    if rng.one_in(4) {
        return [(); 3].map(|_| rng.below(256) as u8);
    }
    let mut signs = |pairs: usize| (0..pairs).fold(0, |byte, _| byte << 2 | rng.below(3) as u8);
    let (first, second, third) = (signs(4), signs(4), signs(2));
    let kind = [0x03, 0x83, 0xc3][rng.index(3)];
    [first, second, third << 2 | kind]
}

/// A file that [1] writes, perhaps with other records among its own, damaged, cut, or with something behind its end.
fn generated(rng: &mut Rng) -> Vec<u8> {
    let points = any(rng);
    let accepted = points.len() % 2 == 0 && expect::numbers(&points);
    let mut bytes = if accepted {
        dst::file(&points)
    } else {
        END.to_vec()
    };
    for _ in 0..rng.below(4) {
        let at = 3 * rng.index(bytes.len() / 3);
        bytes.splice(at..at, record(rng));
    }
    match rng.below(8) {
        0 => bytes.truncate(rng.index(bytes.len() + 1)),
        1 => {
            let at = rng.index(bytes.len());
            bytes[at] ^= 1 << rng.below(8);
        }
        2 => bytes.extend((0..rng.below(8)).map(|_| 0x5a)),
        3 => bytes.extend(dst::file(&[1.0, 2.0])),
        4 => {
            let at = rng.index(bytes.len());
            bytes.remove(at);
        }
        _ => {}
    }
    bytes
}

/// The replay list of files that come back: cut ones and single records first.
pub fn replay(list: &mut List) {
    let first = (0..40)
        .step_by(3)
        .chain((40..16_424).step_by(611))
        .map(single);
    let roomy = |bytes: Vec<u8>| File {
        room: bytes.len(),
        marks: bytes.len() / 2,
        bytes,
    };
    let any = |rng: &mut Rng| make(rng, u64::MAX);
    list.sample("dst_read", 80, first.map(roomy).collect(), any, |f| {
        let small = f.bytes.len() <= 128 && f.room <= 128 && f.marks <= 128;
        small.then_some(())?;
        let call = Call {
            function: 0x46,
            lent: vec![f.room, f.marks],
            lists: vec![f.bytes.iter().map(|&b| b.into()).collect()],
            ..Call::default()
        };
        let left = owed(f);
        let inner = |slice: &[u64]| slice[GUARD..slice.len() - GUARD].to_vec();
        let owed = Owed {
            words: vec![left.answer, left.count, left.number],
            slices: vec![inner(&left.points), inner(&left.marks)],
        };
        Some((call, owed))
    });
}
