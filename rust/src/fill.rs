//! Tatami fill, and the row list that it sews.

use crate::raw::{
    beahcerot_fill_job2, beahcerot_plain_tatami, beahcerot_row_list, beahcerot_tatami,
    beahcerot_tatami_twice,
};
use crate::room::{DONE, ROOM, Room, WORK, lend};
use crate::{FillRule, P, Polyline, Refusal, lines, outline};

#[derive(Clone, Debug)]
pub struct FillParams {
    /// Row direction, radians.
    pub angle: f64,
    /// Distance between rows, units.
    pub spacing: f64,
    /// Max stitch length along a row, units.
    pub len: f64,
    /// Shrink each row end by this much (for underlay), units.
    pub inset: f64,
    /// Extend each row end by this much (pull compensation), units.
    pub pull: f64,
    /// Number of rows in the stagger cycle (tatami pattern).
    pub stagger: u32,
    /// Sew rows from the bottom up (for caps: push puckering away from the brim seam).
    pub bottom_up: bool,
}

/// A kept piece of a row.
#[derive(Clone, Copy, Debug, PartialEq)]
pub struct Piece {
    pub row: i64,
    pub y: f64,
    pub xa: f64,
    pub xb: f64,
    pub section: usize,
}

/// A first guess of the room that a fill needs: a few pieces for each corner.
fn guess(corners: usize) -> Room {
    Room {
        work: 16 * corners + 1024,
        out: 64 * corners + 1024,
    }
}

/// A fill's entry: the sweep's or the plain engine's.
type Engine = unsafe extern "C" fn(
    *const f64,
    usize,
    *const usize,
    usize,
    u64,
    f64,
    f64,
    f64,
    f64,
    f64,
    f64,
    u64,
    bool,
    *mut f64,
    usize,
    *mut usize,
    usize,
    *mut f64,
    usize,
    *mut usize,
    usize,
    *mut u64,
    *mut u64,
) -> u64;

/// One stitched polyline per section, in original coordinates.
pub fn tatami(
    rings: &[Polyline],
    rule: FillRule,
    p: &FillParams,
) -> Result<Vec<Polyline>, Refusal> {
    sewn(beahcerot_tatami, rings, rule, p)
}

/// The same by the plain engine, which keeps no edge table: slower, in less room.
pub fn tatami_plain(
    rings: &[Polyline],
    rule: FillRule,
    p: &FillParams,
) -> Result<Vec<Polyline>, Refusal> {
    sewn(beahcerot_plain_tatami, rings, rule, p)
}

/// Whether both engines answer alike, to the last bit: for a suspicious crest.
pub fn cross_check(rings: &[Polyline], rule: FillRule, p: &FillParams) -> bool {
    let bits = |q: &P| [q.x.to_bits(), q.y.to_bits()];
    let all = |s: Vec<Polyline>| -> Vec<Vec<[u64; 2]>> {
        s.iter().map(|l| l.iter().map(bits).collect()).collect()
    };
    tatami(rings, rule, p).map(all) == tatami_plain(rings, rule, p).map(all)
}

fn sewn(
    engine: Engine,
    rings: &[Polyline],
    rule: FillRule,
    p: &FillParams,
) -> Result<Vec<Polyline>, Refusal> {
    let (corners, ends) = outline(rings);
    lend(guess(corners.len()), |room| {
        let (mut floats, mut wholes) = (vec![0.0; room.work], vec![0; room.work]);
        // A section has two points or more, four floats.
        let (mut out, mut stops) = (vec![0.0; room.out], vec![0; room.out / 4]);
        let (mut sections, mut count) = (0, 0);
        let answer = unsafe {
            call!(engine(
                in corners, in ends, rule.number(), p.spacing, p.len, p.inset, p.pull,
                p.angle.cos(), p.angle.sin(), p.stagger.into(), p.bottom_up, mut floats,
                mut wholes, mut out, mut stops, &mut sections, &mut count
            ))
        };
        (answer, lines(&out, &stops[..sections as usize]))
    })
}

/// What one of two fills over one table came to.
pub type Sewn = Result<Vec<Polyline>, Refusal>;

/// What two fills over one table are lent: the table's first, then each fill's.
struct Layers {
    floats: [Vec<f64>; 3],
    wholes: [Vec<usize>; 3],
    out: [Vec<f64>; 2],
    stops: [Vec<usize>; 2],
    sections: [u64; 2],
    count: [u64; 2],
    /// What the second fill answers.
    answer: u64,
}

/// Lends until neither fill asks for more.
fn both(room: Room, mut call: impl FnMut(&mut Layers) -> u64) -> [Sewn; 2] {
    let both = lend(room, |room| {
        let mut l = Layers {
            floats: [(); 3].map(|()| vec![0.0; room.work]),
            wholes: [(); 3].map(|()| vec![0; room.work]),
            out: [(); 2].map(|()| vec![0.0; room.out]),
            stops: [(); 2].map(|()| vec![0; room.out / 4]),
            sections: [0; 2],
            count: [0; 2],
            answer: 0,
        };
        let answers = [call(&mut l), l.answer];
        let sewn = [0, 1].map(|i| {
            let stops = &l.stops[i][..l.sections[i] as usize];
            (answers[i], lines(&l.out[i], stops))
        });
        let short = answers.into_iter().find(|n| [WORK, ROOM].contains(n));
        (short.unwrap_or(DONE), sewn)
    });
    match both {
        Ok(both) => both.map(|(answer, sewn)| match answer {
            DONE => Ok(sewn),
            number => Err(Refusal::of(number)),
        }),
        Err(refusal) => [Err(refusal), Err(refusal)],
    }
}

/// A light fill beneath a dense one, over one edge table at the first's angle.
/// One may be refused and the other sewn; the outline's refusal is given to both.
pub fn tatami_twice(
    rings: &[Polyline],
    rule: FillRule,
    first: &FillParams,
    second: &FillParams,
) -> [Sewn; 2] {
    let (corners, ends) = outline(rings);
    both(guess(corners.len()), |l| unsafe {
        call!(beahcerot_tatami_twice(
            in corners, in ends, rule.number(), first.angle.cos(), first.angle.sin(),
            first.spacing, first.len, first.inset, first.pull, first.stagger.into(),
            first.bottom_up, second.spacing, second.len, second.inset, second.pull,
            second.stagger.into(), second.bottom_up, mut l.floats[0], mut l.wholes[0],
            mut l.floats[1], mut l.wholes[1], mut l.out[0], mut l.stops[0], mut l.floats[2],
            mut l.wholes[2], mut l.out[1], mut l.stops[1], &mut l.sections[0], &mut l.count[0],
            &mut l.answer, &mut l.sections[1], &mut l.count[1]
        ))
    })
}

/// Both fills of a version 2 job of the program `fill`, by its bytes.
pub fn fill_job2(bytes: &[u8]) -> [Sewn; 2] {
    // Room for the outline of every job.
    let (mut corners, mut ends) = ([0.0; 2048], [0; 255]);
    both(guess(bytes.len() / 8), |l| unsafe {
        call!(beahcerot_fill_job2(
            in bytes, mut corners, mut ends, mut l.floats[0], mut l.wholes[0], mut l.floats[1],
            mut l.wholes[1], mut l.out[0], mut l.stops[0], mut l.floats[2], mut l.wholes[2],
            mut l.out[1], mut l.stops[1], &mut l.sections[0], &mut l.count[0], &mut l.answer,
            &mut l.sections[1], &mut l.count[1]
        ))
    })
}

/// Every kept piece, in the order met, with the section that sews it.
pub fn row_list(rings: &[Polyline], rule: FillRule, p: &FillParams) -> Result<Vec<Piece>, Refusal> {
    let (corners, ends) = outline(rings);
    lend(guess(corners.len()), |room| {
        let (mut floats, mut wholes) = (vec![0.0; room.work], vec![0; room.work]);
        let mut ys = vec![0.0; 3 * room.out];
        let (mut rows, mut sections) = (vec![0; room.out], vec![0; room.out]);
        let mut count = 0;
        let answer = unsafe {
            call!(beahcerot_row_list(
                in corners, in ends, rule.number(), p.spacing, p.len, p.inset, p.pull,
                p.angle.cos(), p.angle.sin(), p.stagger.into(), p.bottom_up, mut floats,
                mut wholes, mut ys, mut rows, mut sections, &mut count
            ))
        };
        let piece = |i: usize| Piece {
            row: rows[i],
            y: ys[3 * i],
            xa: ys[3 * i + 1],
            xb: ys[3 * i + 2],
            section: sections[i],
        };
        (answer, (0..count as usize).map(piece).collect())
    })
}
