//! Satin columns between two rails.

use crate::raw::{
    beahcerot_column, beahcerot_column_room, beahcerot_pairs, beahcerot_pairs_room,
    beahcerot_s_stitch, beahcerot_split_long, beahcerot_top, beahcerot_underlay,
};
use crate::room::{Room, sewn, sewn_along};
use crate::{P, Polyline, Refusal, flat};

/// Two rails, and the places where they are kept in step. zigzag's `closed` is read by none of these calls.
#[derive(Clone, Debug)]
pub struct Rails {
    pub a: Polyline,
    pub b: Polyline,
    /// Rung positions as (arc length on a, arc length on b), increasing.
    pub sync: Vec<(f64, f64)>,
}

#[derive(Clone, Debug)]
pub struct SatinParams {
    /// Distance between zigzag peaks along the column, units.
    pub spacing: f64,
    /// Extra width per side, units.
    pub pull: f64,
    /// Underlay passes: 1 centre, 2 contour, 4 zigzag.
    pub underlay: u8,
    /// Underlay stitch length, units.
    pub run_len: f64,
    /// Shorten alternate stitches where needle points on a rail crowd together.
    pub short_stitches: bool,
    /// Split top stitches longer than this, units.
    pub split: Option<f64>,
    /// How the top stitches cross the column.
    pub style: SatinStyle,
}

/// The pattern a satin column's top stitches make.
#[derive(Clone, Copy, Debug, Default, PartialEq, Eq, Hash)]
pub enum SatinStyle {
    #[default]
    Plain,
    SStitch,
    Zigzag,
}

impl SatinStyle {
    fn number(self) -> u64 {
        match self {
            SatinStyle::Plain => 0,
            SatinStyle::SStitch => 1,
            SatinStyle::Zigzag => 2,
        }
    }
}

/// Rails in the flat form.
struct Flat {
    a: Vec<f64>,
    b: Vec<f64>,
    sync: Vec<f64>,
}

impl Flat {
    fn of(r: &Rails) -> Flat {
        let sync = r.sync.iter().flat_map(|&(a, b)| [a, b]).collect();
        Flat {
            a: flat(&r.a),
            b: flat(&r.b),
            sync,
        }
    }
}

/// Matched points on both rails, about `step` apart.
pub fn pairs(r: &Rails, step: f64) -> Result<Vec<(P, P)>, Refusal> {
    let f = Flat::of(r);
    let room = Room::said(|floats| unsafe {
        call!(beahcerot_pairs_room(in f.a, in f.b, in f.sync, step, floats))
    })?;
    let both = sewn(room, |work, out, count| unsafe {
        call!(beahcerot_pairs(in f.a, in f.b, in f.sync, step, mut work, mut out, count))
    })?;
    Ok(both.chunks_exact(2).map(|c| (c[0], c[1])).collect())
}

/// The number that the library is told for a split: 0 is none, so a given 0 is a setting outside its range.
fn split_number(p: &SatinParams) -> Result<f64, Refusal> {
    match p.split {
        None => Ok(0.0),
        Some(0.0) => Err(Refusal::Setting),
        Some(max) => Ok(max),
    }
}

/// Room that is enough for a whole column, and so for either half of it.
fn column_room(f: &Flat, p: &SatinParams, split: f64) -> Result<Room, Refusal> {
    Room::said(|floats| unsafe {
        call!(beahcerot_column_room(
            in f.a, in f.b, in f.sync, p.spacing, p.pull, p.underlay.into(), p.run_len,
            p.short_stitches, split, p.style.number(), floats
        ))
    })
}

/// Room for a half to begin with: where a whole column is refused, one half may still be sewn.
fn half_room(f: &Flat, p: &SatinParams, split: f64) -> Room {
    column_room(f, p, split).unwrap_or(Room::output(0))
}

/// A satin column: underlay, then the top.
pub fn column(r: &Rails, p: &SatinParams) -> Result<Polyline, Refusal> {
    let split = split_number(p)?;
    let f = Flat::of(r);
    sewn(column_room(&f, p, split)?, |work, out, count| unsafe {
        call!(beahcerot_column(
            in f.a, in f.b, in f.sync, p.spacing, p.pull, p.underlay.into(), p.run_len,
            p.short_stitches, split, p.style.number(), mut work, mut out, count
        ))
    })
}

/// The underlay of a satin column, and whether the thread ends at the far end, which [`top`] is told.
pub fn underlay(r: &Rails, p: &SatinParams) -> Result<(Polyline, bool), Refusal> {
    let split = split_number(p)?;
    let f = Flat::of(r);
    let mut far = false;
    let under = sewn(half_room(&f, p, split), |work, out, count| unsafe {
        call!(beahcerot_underlay(
            in f.a, in f.b, in f.sync, p.spacing, p.pull, p.underlay.into(), p.run_len,
            p.short_stitches, split, p.style.number(), mut work, mut out, count, &mut far
        ))
    })?;
    Ok((under, far))
}

/// The top of a satin column, turned round where the thread is at the far end.
pub fn top(r: &Rails, p: &SatinParams, far: bool) -> Result<Polyline, Refusal> {
    let split = split_number(p)?;
    let f = Flat::of(r);
    sewn(half_room(&f, p, split), |work, out, count| unsafe {
        call!(beahcerot_top(
            in f.a, in f.b, in f.sync, p.spacing, p.pull, p.underlay.into(), p.run_len,
            p.short_stitches, split, p.style.number(), far, mut work, mut out, count
        ))
    })
}

/// A path with its long stitches split, the splits of neighbours staggered.
pub fn split_long(pts: &[P], max: f64) -> Result<Polyline, Refusal> {
    sewn_along(pts, |line, out, count| unsafe {
        call!(beahcerot_split_long(in line, max, mut out, count))
    })
}

/// A path with its stitches bent to an s.
pub fn s_stitch(pts: &[P]) -> Result<Polyline, Refusal> {
    sewn_along(pts, |line, out, count| unsafe {
        call!(beahcerot_s_stitch(in line, mut out, count))
    })
}
