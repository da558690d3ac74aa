//! Machine files: points to DST records.

use super::records::{self, Call, List, Owed};
use super::{Function, Operands, Outcome, UNTOUCHED, no_tie};
use crate::dst;
use crate::expect::{self, DONE, LAYOUT, NUMBER, ROOM};
use crate::inputs::numbers::{beside, coordinate, spoil};
use crate::ours::machine as ours;
use crate::rng::Rng;
use std::cell::RefCell;

pub fn functions() -> Vec<Function> {
    let function = Function::new("dst", make, owed, gave, no_tie).usually(20_000);
    vec![function.timed_on(
        "dst, 1000 points".into(),
        |_| {
            let points = sewn(1000);
            let room = dst::file(&points).len();
            vec![(points, RefCell::new(vec![0; room]))]
        },
        |(points, _)| dst::file(points),
        |(points, lent)| {
            let mut count = 0;
            let answer = ours::dst(points, &mut lent.borrow_mut(), &mut count);
            assert_eq!(answer, DONE);
            count
        },
    )]
}

/// Points on a wavy ring, for timing: stitches of some 3 mm, and a jump at every hundredth.
pub fn sewn(points: usize) -> Vec<f64> {
    let at = |k: usize| {
        let angle = k as f64 * 0.06;
        let radius = 500.0 + 40.0 * (7.0 * angle).sin() + if k % 100 == 0 { 300.0 } else { 0.0 };
        [radius * angle.cos(), radius * angle.sin()]
    };
    (0..points).flat_map(at).collect()
}

struct Stitches {
    coordinates: Vec<f64>,
    room: usize,
}

impl Operands for Stitches {
    fn size(&self) -> (usize, u64) {
        (self.coordinates.len(), self.room as u64)
    }
    fn show(&self) -> String {
        let bits = self
            .coordinates
            .iter()
            .map(|x| format!(" {:016x}", x.to_bits()));
        format!("room {} coordinates{}", self.room, bits.collect::<String>())
    }
}

/// What the call left: its answer, its count, and the lent bytes between guards.
struct Bytes {
    answer: u64,
    count: u64,
    out: Vec<u8>,
}

impl Outcome for Bytes {
    fn same(&self, other: &Self) -> bool {
        (self.answer, self.count, &self.out) == (other.answer, other.count, &other.out)
    }
    fn show(&self) -> String {
        let out = self.out.iter().take(200).map(|b| format!("{b:02x}"));
        let (answer, count) = (self.answer, self.count);
        format!(
            "answer {answer} count {count} out {}",
            out.collect::<String>()
        )
    }
    fn answer(&self) -> Option<u64> {
        Some(self.answer)
    }
}

const GUARD: usize = 8;
const MARK: u8 = 0xa5;

fn owed(s: &Stitches) -> Bytes {
    let mut out = vec![MARK; s.room + 2 * GUARD];
    let refusal = expect::first(&[
        (LAYOUT, s.coordinates.len() % 2 == 0),
        (NUMBER, expect::numbers(&s.coordinates)),
    ]);
    let refused = |answer, out| Bytes {
        answer,
        count: 0,
        out,
    };
    if refusal != DONE {
        return refused(refusal, out);
    }
    let file = dst::file(&s.coordinates);
    if file.len() > s.room {
        return refused(ROOM, out);
    }
    out[GUARD..GUARD + file.len()].copy_from_slice(&file);
    Bytes {
        answer: DONE,
        count: file.len() as u64,
        out,
    }
}

fn gave(s: &Stitches) -> Bytes {
    let mut out = vec![MARK; s.room + 2 * GUARD];
    let mut count = UNTOUCHED;
    let lent = &mut out[GUARD..GUARD + s.room];
    let answer = ours::dst(&s.coordinates, lent, &mut count);
    Bytes { answer, count, out }
}

/// Every move from -121 to 121 either way first, 243 to a call; then each way
/// at a boundary alone, in x, in y and in both; then generated points.
fn make(rng: &mut Rng, n: u64) -> Stitches {
    let coordinates = match n {
        0..243 => moves(n as i64 - 121),
        _ => alone((n - 243) as usize).unwrap_or_else(|| any(rng)),
    };
    let accepted = coordinates.len() % 2 == 0 && expect::numbers(&coordinates);
    let need = if accepted {
        dst::file(&coordinates).len()
    } else {
        60
    };
    let room = match rng.below(8) {
        0 => need - 1,
        1 => need - 3,
        2 => rng.index(4),
        3 => need + 1,
        4..6 => need,
        _ => need + rng.index(40),
    };
    Stitches { coordinates, room }
}

/// Points whose moves are (dx, -121) to (dx, 121), each from where the needle stands.
fn moves(dx: i64) -> Vec<f64> {
    let (mut x, mut y) = (0, 0);
    let point = |dy| {
        x += dx;
        y += dy;
        [x as f64, y as f64]
    };
    (-121..=121).flat_map(point).collect()
}

/// Lengths at which the count of parts or the rounding turns.
fn turning() -> Vec<f64> {
    let mut list = vec![
        0.0,
        5e-324,
        f64::MIN_POSITIVE,
        f64::NAN,
        f64::INFINITY,
        1e300,
    ];
    for whole in [
        1.0, 13.0, 40.0, 41.0, 121.0, 122.0, 242.0, 243.0, 363.0, 364.0, 99_999.0,
    ] {
        for x in [whole - 0.5, whole, whole + 0.5] {
            list.extend((-1..=1).map(|ulps| beside(x, ulps)));
        }
    }
    list.extend((-1..=1).map(|ulps| beside(100_000.0, ulps)));
    list
}

fn alone(n: usize) -> Option<Vec<f64>> {
    let list = turning();
    let x = list.get(n / 8)?;
    let x = if n % 8 < 4 { *x } else { -x };
    Some(match n % 4 {
        0 => vec![x, 0.0],
        1 => vec![0.0, x],
        2 => vec![x, -x],
        _ => vec![x, x, x],
    })
}

/// Points near one another or anywhere; one list in sixteen is spoilt, one in twenty odd.
pub fn any(rng: &mut Rng) -> Vec<f64> {
    let mut list = Vec::new();
    let (mut x, mut y) = (0.0, 0.0);
    for _ in 0..rng.below(8) {
        (x, y) = match rng.below(8) {
            0 => (coordinate(rng), coordinate(rng)),
            1 => (x, y), // a zero move
            2 => (x + halves(rng, 300), y + halves(rng, 300)),
            3 => (halves(rng, 2000), y),
            4 => (x + halves(rng, 130), y + rng.range(-130, 130) as f64 / 10.0),
            _ => (
                x + rng.range(-1300, 1300) as f64 / 10.0,
                y + halves(rng, 30),
            ),
        };
        (x, y) = (
            x.clamp(-100_000.0, 100_000.0),
            y.clamp(-100_000.0, 100_000.0),
        );
        list.extend([x, y]);
    }
    spoil(rng, &mut list, 16);
    if rng.one_in(20) {
        list.push(1.0);
    }
    list
}

/// A multiple of a half, or its neighbour.
fn halves(rng: &mut Rng, most: i64) -> f64 {
    beside(rng.range(-most, most) as f64 / 2.0, rng.range(-1, 1))
}

/// The replay list of machine files.
pub fn replay(list: &mut List) {
    let few = turning().len() * 8;
    let first = (0..few).step_by(31).filter_map(alone).map(roomy);
    let any = |rng: &mut Rng| make(rng, u64::MAX);
    list.sample("dst", 60, first.collect(), any, |s| {
        let call = Call {
            function: 0x45,
            lent: vec![s.room],
            lists: vec![records::bits(&s.coordinates)?],
            ..Call::default()
        };
        let left = owed(s);
        let inner = &left.out[GUARD..GUARD + s.room];
        let owed = Owed {
            words: vec![left.answer, left.count],
            slices: vec![inner.iter().map(|&b| b.into()).collect()],
        };
        (s.room <= 128).then_some((call, owed))
    });
}

/// Lent a little more than is needed.
fn roomy(coordinates: Vec<f64>) -> Stitches {
    let room = owed(&Stitches {
        coordinates: coordinates.clone(),
        room: 20_000,
    });
    Stitches {
        room: room.count as usize + 2,
        coordinates,
    }
}
