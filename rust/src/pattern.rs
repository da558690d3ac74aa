//! Bounds, clipping, cross stitch and meander.

use crate::raw::{
    beahcerot_bounds, beahcerot_clip_inside, beahcerot_cross_stitch, beahcerot_meander,
};
use crate::room::{Room, lend};
use crate::{FillRule, P, Polyline, Refusal, flat, lines, outline};

/// The box around the corners: its low and its high corner; with no corners plus and minus infinity.
pub fn bounds(rings: &[Polyline]) -> Result<(P, P), Refusal> {
    let (corners, ends) = outline(rings);
    let (mut low, mut high) = (P::default(), P::default());
    let answer = unsafe {
        call!(beahcerot_bounds(
            in corners, in ends, &mut low.x, &mut low.y, &mut high.x, &mut high.y
        ))
    };
    if answer == 0 {
        Ok((low, high))
    } else {
        Err(Refusal::of(answer))
    }
}

/// The runs of `pts` that lie inside.
pub fn clip_inside(
    pts: &[P],
    rings: &[Polyline],
    rule: FillRule,
) -> Result<Vec<Polyline>, Refusal> {
    let line = flat(pts);
    let (corners, ends) = outline(rings);
    lend(Room::output(line.len()), |room| {
        let (mut out, mut stops) = (vec![0.0; room.out], vec![0; room.out]);
        let (mut runs, mut count) = (0, 0);
        let answer = unsafe {
            call!(beahcerot_clip_inside(
                in line, in corners, in ends, rule.number(), mut out, mut stops, &mut runs,
                &mut count
            ))
        };
        (answer, lines(&out, &stops[..runs as usize]))
    })
}

/// Full cross stitch: an X in every cell whose centre is inside.
pub fn cross_stitch(
    rings: &[Polyline],
    rule: FillRule,
    cell: f64,
) -> Result<Vec<Polyline>, Refusal> {
    let (corners, ends) = outline(rings);
    lend(Room::output(4096), |room| {
        let (mut out, mut stops) = (vec![0.0; room.out], vec![0; room.out / 8]);
        let (mut rows, mut count) = (0, 0);
        let answer = unsafe {
            call!(beahcerot_cross_stitch(
                in corners, in ends, rule.number(), cell, mut out, mut stops, &mut rows,
                &mut count
            ))
        };
        (answer, lines(&out, &stops[..rows as usize]))
    })
}

/// Lines that wander over the shape, through every point of a grid that lies inside and can be reached.
pub fn meander(
    rings: &[Polyline],
    rule: FillRule,
    spacing: f64,
    len: f64,
    seed: u64,
) -> Result<Vec<Polyline>, Refusal> {
    let (corners, ends) = outline(rings);
    let room = Room {
        work: 8192,
        out: 8192,
    };
    lend(room, |room| {
        let (mut out, mut stops) = (vec![0.0; room.out], vec![0; room.out / 4]);
        let mut wholes = vec![0; room.work];
        let (mut rows, mut count) = (0, 0);
        let answer = unsafe {
            call!(beahcerot_meander(
                in corners, in ends, rule.number(), spacing, len, seed, mut out, mut stops,
                mut wholes, &mut rows, &mut count
            ))
        };
        (answer, lines(&out, &stops[..rows as usize]))
    })
}
