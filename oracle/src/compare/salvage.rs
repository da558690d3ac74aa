//! Broken outlines: stray corners dropped and told.

use super::records::{Call, List, Owed};
use super::{Function, Operands, Outcome, UNTOUCHED, list, no_tie, simplicity};
use crate::expect::{self, DONE, LAYOUT, ROOM};
use crate::inputs::{
    crests,
    numbers::{beside, coordinate},
    outlines::{self, Outline},
};
use crate::ours::salvage::{self as ours, Lent};
use crate::rng::Rng;
use crate::salvage;
use std::cell::RefCell;
use zigzag::geom::{P, Polyline};

pub fn functions() -> Vec<Function> {
    let mut function = Function::new("salvage", make, owed, gave, no_tie);
    for (name, fill) in crests::named().into_iter().skip(1) {
        function = function.timed_on(
            format!("salvage {name}"),
            move |rng| vec![Timed::new(rng, fill.outline.rings())],
            |t| salvage::salvage(&t.rings),
            Timed::ours,
        );
    }
    vec![function]
}

/// An outline with twenty faults set in, and the slices that it is lent again and again.
struct Timed {
    rings: Vec<Polyline>,
    outline: Outline,
    corners: RefCell<Vec<f64>>,
    wholes: RefCell<[Vec<u64>; 3]>,
}

impl Timed {
    fn new(rng: &mut Rng, mut rings: Vec<Polyline>) -> Timed {
        (0..20).for_each(|_| fault(rng, &mut rings));
        outlines::truncate(&mut rings);
        let needs = needs(&salvage::salvage(&rings));
        Timed {
            outline: Outline::new(&rings),
            rings,
            corners: RefCell::new(vec![0.0; needs[0]]),
            wholes: RefCell::new([1, 2, 3].map(|k| vec![0; needs[k]])),
        }
    }

    fn ours(&self) -> u64 {
        let [ends, places, reasons] = &mut *self.wholes.borrow_mut();
        let (mut kept, mut dropped) = (0, 0);
        let answer = ours::salvage(
            &self.outline,
            Lent {
                corners: &mut self.corners.borrow_mut(),
                ends,
                places,
                reasons,
                kept: &mut kept,
                dropped: &mut dropped,
            },
        );
        assert_eq!(answer, DONE);
        kept
    }
}

/// An outline, and how long the four output slices are.
struct Broken {
    outline: Outline,
    rooms: [usize; 4],
}

impl Operands for Broken {
    fn size(&self) -> (usize, u64) {
        let corners = self.outline.corners.iter().copied().map(simplicity).sum();
        (
            self.outline.corners.len() / 2 + self.outline.ends.len(),
            corners,
        )
    }
    fn show(&self) -> String {
        format!(
            "rooms {:?} corners {} ends {:x?}",
            self.rooms,
            list(&self.outline.corners),
            self.outline.ends
        )
    }
}

/// What the call left: its answer, its counts, and the four lent slices between guards.
#[derive(PartialEq)]
struct Left {
    answer: u64,
    counts: [u64; 2],
    corners: Vec<u64>,
    wholes: [Vec<u64>; 3],
}

impl Outcome for Left {
    fn same(&self, other: &Self) -> bool {
        self == other
    }
    fn show(&self) -> String {
        format!(
            "answer {} counts {:?} corners {:x?} ends, places, reasons {:x?}",
            self.answer, self.counts, self.corners, self.wholes
        )
    }
    fn answer(&self) -> Option<u64> {
        Some(self.answer)
    }
}

const GUARD: usize = 4;

fn lent(room: usize) -> Vec<u64> {
    vec![UNTOUCHED; room + 2 * GUARD]
}

fn put(slice: &mut [u64], values: impl IntoIterator<Item = u64>) {
    for (place, value) in slice[GUARD..].iter_mut().zip(values) {
        *place = value;
    }
}

fn flat(rings: &[Polyline]) -> impl Iterator<Item = u64> {
    let points = rings.iter().flatten();
    points.flat_map(|p| [p.x.to_bits(), p.y.to_bits()])
}

/// What the four slices have to hold.
fn needs(made: &salvage::Salvaged) -> [usize; 4] {
    let dropped = made.dropped.len();
    let kept = made.rings.iter().map(Vec::len).sum::<usize>();
    [2 * kept, made.rings.len(), dropped, dropped]
}

fn owed(b: &Broken) -> Left {
    let mut left = Left {
        answer: LAYOUT,
        counts: [0; 2],
        corners: lent(b.rooms[0]),
        wholes: [lent(b.rooms[1]), lent(b.rooms[2]), lent(b.rooms[3])],
    };
    if !expect::outline(&b.outline.corners, &b.outline.ends) {
        return left;
    }
    let made = salvage::salvage(&b.outline.rings());
    let needs = needs(&made);
    if needs.iter().zip(b.rooms).any(|(need, room)| *need > room) {
        left.answer = ROOM;
        return left;
    }
    left.answer = DONE;
    left.counts = [needs[0] as u64 / 2, needs[2] as u64];
    put(&mut left.corners, flat(&made.rings));
    put(&mut left.wholes[0], Outline::new(&made.rings).ends);
    put(&mut left.wholes[1], made.dropped.keys().copied());
    put(&mut left.wholes[2], made.dropped.values().copied());
    left
}

fn gave(b: &Broken) -> Left {
    let mut corners = vec![f64::from_bits(UNTOUCHED); b.rooms[0] + 2 * GUARD];
    let [mut ends, mut places, mut reasons] = [1, 2, 3].map(|k| lent(b.rooms[k]));
    let mut counts = [UNTOUCHED; 2];
    let [kept, dropped] = &mut counts;
    let answer = ours::salvage(
        &b.outline,
        Lent {
            corners: &mut corners[GUARD..GUARD + b.rooms[0]],
            ends: &mut ends[GUARD..GUARD + b.rooms[1]],
            places: &mut places[GUARD..GUARD + b.rooms[2]],
            reasons: &mut reasons[GUARD..GUARD + b.rooms[3]],
            kept,
            dropped,
        },
    );
    Left {
        answer,
        counts,
        corners: corners.iter().map(|x| x.to_bits()).collect(),
        wholes: [ends, places, reasons],
    }
}

/// Small rings of few places first, then every kind of outline with faults set in; the rooms exact, one short, or more.
fn make(rng: &mut Rng, n: u64) -> Broken {
    let mut rings = match rng.below(3) {
        _ if n < 40_000 => small(rng),
        0 => small(rng),
        _ => outlines::sound(rng).rings(),
    };
    for _ in 0..rng.below(6) {
        fault(rng, &mut rings);
    }
    outlines::truncate(&mut rings);
    let outline = outlines::damaged(rng, Outline::new(&rings));
    let needs = if expect::outline(&outline.corners, &outline.ends) {
        needs(&salvage::salvage(&outline.rings()))
    } else {
        [6, 2, 3, 3]
    };
    let short = rng.below(12) as usize; // one of the four slices, or none
    let rooms = std::array::from_fn(|k| match rng.below(4) {
        _ if k == short => needs[k].saturating_sub(1 + rng.index(2)),
        0 | 1 => needs[k],
        2 => needs[k] + 1,
        _ => needs[k] + rng.index(40),
    });
    Broken { outline, rooms }
}

/// Rings of 0 to 6 corners at a few places, so that neighbours and ends meet; most of the coordinates are good.
fn small(rng: &mut Rng) -> Vec<Polyline> {
    let ring = |rng: &mut Rng| {
        let corner = |rng: &mut Rng| P::new(place(rng), place(rng));
        (0..rng.below(7)).map(|_| corner(rng)).collect()
    };
    (0..rng.below(5)).map(|_| ring(rng)).collect()
}

fn place(rng: &mut Rng) -> f64 {
    if rng.one_in(10) {
        odd(rng)
    } else {
        rng.pick(&[0.0, 0.0, -0.0, 1.0])
    }
}

/// At the edge of what is kept, beyond it, or not finite.
fn odd(rng: &mut Rng) -> f64 {
    let x = match rng.below(6) {
        0 => f64::NAN,
        1 => f64::INFINITY,
        2 => f64::from_bits(0x7ff0_0000_0000_0001 | rng.next() >> 12),
        3 => coordinate(rng),
        4 => f64::MAX,
        _ => beside(100_000.0, rng.range(-1, 1)),
    };
    if rng.one_in(2) { -x } else { x }
}

/// A corner repeated, a ring closed, another zero, or a number at or past the edge.
fn fault(rng: &mut Rng, rings: &mut [Polyline]) {
    if rings.is_empty() {
        return;
    }
    let ring = &mut rings[rng.index(rings.len())];
    if ring.is_empty() {
        return;
    }
    let at = rng.index(ring.len());
    let p = ring[at];
    match rng.below(6) {
        0 => ring.insert(at, p),
        1 => {
            let first = ring[0];
            ring.extend([first; 2].iter().take(1 + rng.index(2)));
        }
        2 => ring[at] = P::new(-p.x, p.y),
        3 => ring.insert(at, P::new(odd(rng), p.y)),
        4 => ring[at].y = odd(rng),
        _ => ring[at].x = 0.0 * p.x,
    }
}

/// The replay list of broken outlines. A NaN may stand here: it is dropped.
pub fn replay(list: &mut List) {
    let any = |rng: &mut Rng| make(rng, u64::MAX);
    list.sample("salvage", 75, vec![], any, |b| {
        let Outline { corners, ends } = &b.outline;
        let small = corners.len() <= 24 && ends.len() <= 6 && b.rooms.iter().all(|&n| n <= 64);
        let call = Call {
            function: 0x34,
            lent: b.rooms.to_vec(),
            lists: vec![corners.iter().map(|x| x.to_bits()).collect(), ends.clone()],
            ..Call::default()
        };
        let left = owed(b);
        let slices = [&left.corners].into_iter().chain(&left.wholes);
        let owed = Owed {
            words: [vec![left.answer], left.counts.to_vec()].concat(),
            slices: slices.map(|s| s[GUARD..s.len() - GUARD].to_vec()).collect(),
        };
        small.then_some((call, owed))
    });
}
