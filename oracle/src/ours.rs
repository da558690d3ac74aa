//! The proved library: its exported C functions, and a safe wrapper for each.
//! The declarations are those of the Rust crate, which `tools/header` makes from
//! the library's own text and the gate holds to it.

#[macro_use]
#[path = "../../rust/src/call.rs"]
mod call;
#[path = "../../rust/src/raw.rs"]
mod raw;

/// Whole numbers as the library has them: a `usize` has 64 bits here.
fn whole(s: &[u64]) -> &[usize] {
    unsafe { std::slice::from_raw_parts(s.as_ptr().cast(), s.len()) }
}

fn whole_mut(s: &mut [u64]) -> &mut [usize] {
    unsafe { std::slice::from_raw_parts_mut(s.as_mut_ptr().cast(), s.len()) }
}

pub fn root(x: f64) -> f64 {
    unsafe { raw::beahcerot_root(x) }
}

pub fn floor(x: f64) -> f64 {
    unsafe { raw::beahcerot_floor(x) }
}

pub fn ceil(x: f64) -> f64 {
    unsafe { raw::beahcerot_ceil(x) }
}

pub fn smaller(a: f64, b: f64) -> f64 {
    unsafe { raw::beahcerot_smaller(a, b) }
}

pub fn larger(a: f64, b: f64) -> f64 {
    unsafe { raw::beahcerot_larger(a, b) }
}

pub fn magnitude(x: f64) -> f64 {
    unsafe { raw::beahcerot_magnitude(x) }
}

pub fn to_i64(x: f64) -> i64 {
    unsafe { raw::beahcerot_to_i64(x) }
}

pub fn to_u64(x: f64) -> u64 {
    unsafe { raw::beahcerot_to_u64(x) }
}

pub fn of_i64(n: i64) -> f64 {
    unsafe { raw::beahcerot_of_i64(n) }
}

pub fn of_u64(n: u64) -> f64 {
    unsafe { raw::beahcerot_of_u64(n) }
}

pub fn before(a: f64, b: f64) -> bool {
    match unsafe { raw::beahcerot_before(a, b) } {
        0 => false,
        1 => true,
        byte => panic!("beahcerot_before answered the byte {byte}, which is no bool"),
    }
}

// A `&mut` is a pointer to one whole value for as long as the call lasts, which
// is all that these functions ask for.

pub fn leaf_root(x: f64, value: &mut f64) -> u64 {
    unsafe { raw::beahcerot_leaf_root(x, value) }
}

pub fn leaf_floor(x: f64, value: &mut f64) -> u64 {
    unsafe { raw::beahcerot_leaf_floor(x, value) }
}

pub fn leaf_ceil(x: f64, value: &mut f64) -> u64 {
    unsafe { raw::beahcerot_leaf_ceil(x, value) }
}

pub fn leaf_magnitude(x: f64, value: &mut f64) -> u64 {
    unsafe { raw::beahcerot_leaf_magnitude(x, value) }
}

pub fn leaf_smaller(a: f64, b: f64, value: &mut f64) -> u64 {
    unsafe { raw::beahcerot_leaf_smaller(a, b, value) }
}

pub fn leaf_larger(a: f64, b: f64, value: &mut f64) -> u64 {
    unsafe { raw::beahcerot_leaf_larger(a, b, value) }
}

pub fn leaf_order(a: f64, b: f64, place: &mut u64) -> u64 {
    unsafe { raw::beahcerot_leaf_order(a, b, place) }
}

/// The geometry.
/// A slice passes as a pointer and a length; a point as x and y.
pub mod geom {
    use super::raw::{
        beahcerot_cross, beahcerot_dist, beahcerot_dot, beahcerot_inside, beahcerot_len,
        beahcerot_lerp, beahcerot_norm, beahcerot_perp, beahcerot_point_inside,
        beahcerot_polyline_length, beahcerot_resample_keep_corners, beahcerot_rotate,
        beahcerot_segment_inside, beahcerot_winding,
    };
    use super::whole;
    use crate::inputs::outlines::Outline;
    use zigzag::geom::{FillRule, P};

    // Slices and `&mut`s are whole and unshared for as long as the call lasts.

    pub fn dot(a: P, b: P, value: &mut f64) -> u64 {
        unsafe { beahcerot_dot(a.x, a.y, b.x, b.y, value) }
    }

    pub fn len(a: P, value: &mut f64) -> u64 {
        unsafe { beahcerot_len(a.x, a.y, value) }
    }

    pub fn dist(a: P, b: P, value: &mut f64) -> u64 {
        unsafe { beahcerot_dist(a.x, a.y, b.x, b.y, value) }
    }

    pub fn cross(a: P, b: P, value: &mut f64) -> u64 {
        unsafe { beahcerot_cross(a.x, a.y, b.x, b.y, value) }
    }

    pub fn norm(a: P, p: &mut [f64; 2]) -> u64 {
        let [x, y] = p;
        unsafe { beahcerot_norm(a.x, a.y, x, y) }
    }

    pub fn perp(a: P, p: &mut [f64; 2]) -> u64 {
        let [x, y] = p;
        unsafe { beahcerot_perp(a.x, a.y, x, y) }
    }

    pub fn rotate(a: P, c: f64, s: f64, p: &mut [f64; 2]) -> u64 {
        let [x, y] = p;
        unsafe { beahcerot_rotate(a.x, a.y, c, s, x, y) }
    }

    pub fn lerp(a: P, b: P, t: f64, p: &mut [f64; 2]) -> u64 {
        let [x, y] = p;
        unsafe { beahcerot_lerp(a.x, a.y, b.x, b.y, t, x, y) }
    }

    pub fn inside(rule: FillRule, winding: i64) -> u64 {
        unsafe { beahcerot_inside(rule as u64, winding) }
    }

    pub fn winding(o: &Outline, p: P, value: &mut i64) -> u64 {
        let (c, e) = (&o.corners, &o.ends);
        unsafe { call!(beahcerot_winding(in c, in whole(e), p.x, p.y, value)) }
    }

    pub fn point_inside(o: &Outline, rule: FillRule, p: P, value: &mut u64) -> u64 {
        let (c, e, rule) = (&o.corners, &o.ends, rule as u64);
        unsafe { call!(beahcerot_point_inside(in c, in whole(e), rule, p.x, p.y, value)) }
    }

    pub fn segment_inside(
        o: &Outline,
        rule: FillRule,
        a: P,
        b: P,
        step: f64,
        value: &mut u64,
    ) -> u64 {
        let (c, e, rule) = (&o.corners, &o.ends, rule as u64);
        unsafe {
            call!(beahcerot_segment_inside(
                in c, in whole(e), rule, a.x, a.y, b.x, b.y, step, value
            ))
        }
    }

    pub fn polyline_length(line: &[f64], value: &mut f64) -> u64 {
        unsafe { call!(beahcerot_polyline_length(in line, value)) }
    }

    pub fn resample_keep_corners(line: &[f64], len: f64, out: &mut [f64], count: &mut u64) -> u64 {
        unsafe {
            call!(beahcerot_resample_keep_corners(
                in line, len, mut out, count
            ))
        }
    }
}

/// Running stitch.
pub mod stroke {
    use super::raw::beahcerot_running;

    pub fn running(
        line: &[f64],
        closed: bool,
        len: f64,
        passes: u64,
        out: &mut [f64],
        count: &mut u64,
    ) -> u64 {
        unsafe {
            call!(beahcerot_running(
                in line, closed, len, passes, mut out, count
            ))
        }
    }
}

/// The fill.
pub mod fill {
    use super::raw::{
        beahcerot_fill_job, beahcerot_fill_job2, beahcerot_plain_row_list, beahcerot_plain_tatami,
        beahcerot_row_list, beahcerot_tatami, beahcerot_tatami_twice,
    };
    use super::{whole, whole_mut};
    use crate::inputs::fills::Fill;

    /// What a fill is lent to work in.
    pub struct Work<'a> {
        pub floats: &'a mut [f64],
        pub wholes: &'a mut [u64],
    }

    /// Where `tatami` puts its answer: x and y of each point, and how many
    /// points there are up to the end of each section.
    pub struct Sewn<'a> {
        pub points: &'a mut [f64],
        pub section_ends: &'a mut [u64],
        pub sections: &'a mut u64,
        pub count: &'a mut u64,
    }

    /// Where `row_list` puts its answer: y, xa and xb of each piece, its row and
    /// its section.
    pub struct Listed<'a> {
        pub ys: &'a mut [f64],
        pub rows: &'a mut [i64],
        pub section_numbers: &'a mut [u64],
        pub pieces: &'a mut u64,
    }

    pub fn tatami(f: &Fill, work: Work, out: Sewn) -> u64 {
        let (c, e) = (&f.outline.corners, &f.outline.ends);
        unsafe {
            call!(beahcerot_tatami(
                in c, in whole(e), f.rule, f.spacing, f.len, f.inset, f.pull, f.cosine, f.sine,
                f.stagger, f.bottom_up, mut work.floats, mut whole_mut(work.wholes),
                mut out.points, mut whole_mut(out.section_ends), out.sections, out.count
            ))
        }
    }

    /// The same by the plain engine.
    pub fn plain_tatami(f: &Fill, work: Work, out: Sewn) -> u64 {
        let (c, e) = (&f.outline.corners, &f.outline.ends);
        unsafe {
            call!(beahcerot_plain_tatami(
                in c, in whole(e), f.rule, f.spacing, f.len, f.inset, f.pull, f.cosine, f.sine,
                f.stagger, f.bottom_up, mut work.floats, mut whole_mut(work.wholes),
                mut out.points, mut whole_mut(out.section_ends), out.sections, out.count
            ))
        }
    }

    /// Two fills over one table, each with work and outputs of its own: what the
    /// first answers, and what the second does.
    pub fn tatami_twice(
        f: &Fill,
        second: &Fill,
        table: Work,
        work: [Work; 2],
        out: [Sewn; 2],
    ) -> [u64; 2] {
        let (c, e) = (&f.outline.corners, &f.outline.ends);
        let ([a, b], [x, y]) = (work, out);
        let mut answer = 0;
        let first = unsafe {
            call!(beahcerot_tatami_twice(
                in c, in whole(e), f.rule, f.cosine, f.sine, f.spacing, f.len, f.inset, f.pull,
                f.stagger, f.bottom_up, second.spacing, second.len, second.inset, second.pull,
                second.stagger, second.bottom_up, mut table.floats, mut whole_mut(table.wholes),
                mut a.floats, mut whole_mut(a.wholes), mut x.points,
                mut whole_mut(x.section_ends), mut b.floats, mut whole_mut(b.wholes),
                mut y.points, mut whole_mut(y.section_ends), x.sections, x.count, &mut answer,
                y.sections, y.count
            ))
        };
        [first, answer]
    }

    /// A job by its bytes, with room for every job's outline.
    pub fn fill_job(bytes: &[u8], work: Work, out: Sewn) -> u64 {
        let (mut corners, mut ends) = ([0.0; 2048], [0usize; 255]);
        unsafe {
            call!(beahcerot_fill_job(
                in bytes, mut corners, mut ends, mut work.floats, mut whole_mut(work.wholes),
                mut out.points, mut whole_mut(out.section_ends), out.sections, out.count
            ))
        }
    }

    /// A version 2 job by its bytes, as `tatami_twice`.
    pub fn fill_job2(bytes: &[u8], table: Work, work: [Work; 2], out: [Sewn; 2]) -> [u64; 2] {
        let (mut corners, mut ends) = ([0.0; 2048], [0usize; 255]);
        let ([a, b], [x, y]) = (work, out);
        let mut answer = 0;
        let first = unsafe {
            call!(beahcerot_fill_job2(
                in bytes, mut corners, mut ends, mut table.floats, mut whole_mut(table.wholes),
                mut a.floats, mut whole_mut(a.wholes), mut x.points,
                mut whole_mut(x.section_ends), mut b.floats, mut whole_mut(b.wholes),
                mut y.points, mut whole_mut(y.section_ends), x.sections, x.count, &mut answer,
                y.sections, y.count
            ))
        };
        [first, answer]
    }

    pub fn row_list(f: &Fill, work: Work, out: Listed) -> u64 {
        let (c, e) = (&f.outline.corners, &f.outline.ends);
        unsafe {
            call!(beahcerot_row_list(
                in c, in whole(e), f.rule, f.spacing, f.len, f.inset, f.pull, f.cosine, f.sine,
                f.stagger, f.bottom_up, mut work.floats, mut whole_mut(work.wholes), mut out.ys,
                mut out.rows, mut whole_mut(out.section_numbers), out.pieces
            ))
        }
    }

    /// The same by the plain engine.
    pub fn plain_row_list(f: &Fill, work: Work, out: Listed) -> u64 {
        let (c, e) = (&f.outline.corners, &f.outline.ends);
        unsafe {
            call!(beahcerot_plain_row_list(
                in c, in whole(e), f.rule, f.spacing, f.len, f.inset, f.pull, f.cosine, f.sine,
                f.stagger, f.bottom_up, mut work.floats, mut whole_mut(work.wholes), mut out.ys,
                mut out.rows, mut whole_mut(out.section_numbers), out.pieces
            ))
        }
    }
}

/// Bounds, clipping and cross stitch.
pub mod patterns {
    use super::raw::{
        beahcerot_bounds, beahcerot_clip_inside, beahcerot_cross_stitch, beahcerot_meander,
    };
    use super::{whole, whole_mut};
    use crate::inputs::outlines::Outline;
    use zigzag::geom::FillRule;

    /// The lent slices and counts of a call that writes lines.
    pub struct Lent<'a> {
        pub out: &'a mut [f64],
        pub stops: &'a mut [u64],
        pub lines: &'a mut u64,
        pub points: &'a mut u64,
    }

    pub fn bounds(o: &Outline, value: &mut [f64; 4]) -> u64 {
        let (c, e) = (&o.corners, &o.ends);
        let [left, top, right, bottom] = value;
        unsafe { call!(beahcerot_bounds(in c, in whole(e), left, top, right, bottom)) }
    }

    pub fn clip_inside(line: &[f64], o: &Outline, rule: FillRule, lent: Lent) -> u64 {
        let (c, e, rule) = (&o.corners, &o.ends, rule as u64);
        unsafe {
            call!(beahcerot_clip_inside(
                in line, in c, in whole(e), rule, mut lent.out, mut whole_mut(lent.stops),
                lent.lines, lent.points
            ))
        }
    }

    pub fn cross_stitch(o: &Outline, rule: FillRule, cell: f64, lent: Lent) -> u64 {
        let (c, e, rule) = (&o.corners, &o.ends, rule as u64);
        unsafe {
            call!(beahcerot_cross_stitch(
                in c, in whole(e), rule, cell, mut lent.out, mut whole_mut(lent.stops),
                lent.lines, lent.points
            ))
        }
    }

    pub fn meander(
        o: &Outline,
        rule: FillRule,
        spacing: f64,
        len: f64,
        seed: u64,
        lent: Lent,
        wholes: &mut [u64],
    ) -> u64 {
        let (c, e, rule) = (&o.corners, &o.ends, rule as u64);
        unsafe {
            call!(beahcerot_meander(
                in c, in whole(e), rule, spacing, len, seed, mut lent.out,
                mut whole_mut(lent.stops), mut whole_mut(wholes), lent.lines, lent.points
            ))
        }
    }
}

/// Satin columns.
pub mod satin {
    use super::raw::{
        beahcerot_column, beahcerot_column_room, beahcerot_pairs, beahcerot_pairs_room,
        beahcerot_s_stitch, beahcerot_split_long, beahcerot_top, beahcerot_underlay,
    };
    use crate::inputs::rails::{Column, Matched, Path, Rails, Top};

    pub fn split_long(p: &Path, out: &mut [f64], count: &mut u64) -> u64 {
        unsafe { call!(beahcerot_split_long(in p.line, p.max, mut out, count)) }
    }

    pub fn s_stitch(line: &[f64], out: &mut [f64], count: &mut u64) -> u64 {
        unsafe { call!(beahcerot_s_stitch(in line, mut out, count)) }
    }

    pub fn pairs(m: &Matched, work: &mut [f64], out: &mut [f64], count: &mut u64) -> u64 {
        let Rails { a, b, sync } = &m.rails;
        unsafe { call!(beahcerot_pairs(in a, in b, in sync, m.step, mut work, mut out, count)) }
    }

    pub fn pairs_room(m: &Matched, floats: &mut u64) -> u64 {
        let Rails { a, b, sync } = &m.rails;
        unsafe { call!(beahcerot_pairs_room(in a, in b, in sync, m.step, floats)) }
    }

    pub fn column_room(c: &Column, floats: &mut u64) -> u64 {
        let Rails { a, b, sync } = &c.rails;
        unsafe {
            call!(beahcerot_column_room(
                in a, in b, in sync, c.spacing, c.pull, c.underlay, c.run_len, c.short_stitches,
                c.split, c.style, floats
            ))
        }
    }

    pub fn column(c: &Column, work: &mut [f64], out: &mut [f64], count: &mut u64) -> u64 {
        let Rails { a, b, sync } = &c.rails;
        unsafe {
            call!(beahcerot_column(
                in a, in b, in sync, c.spacing, c.pull, c.underlay, c.run_len, c.short_stitches,
                c.split, c.style, mut work, mut out, count
            ))
        }
    }

    /// `far` is looked at as the byte that it is, so that one which is neither 0 nor 1 is seen.
    pub fn underlay(
        c: &Column,
        work: &mut [f64],
        out: &mut [f64],
        count: &mut u64,
        far: &mut u64,
    ) -> u64 {
        let Rails { a, b, sync } = &c.rails;
        let mut byte = 0x5au8;
        let answer = unsafe {
            call!(beahcerot_underlay(
                in a, in b, in sync, c.spacing, c.pull, c.underlay, c.run_len, c.short_stitches,
                c.split, c.style, mut work, mut out, count, (&raw mut byte).cast()
            ))
        };
        *far = byte.into();
        answer
    }

    pub fn top(t: &Top, work: &mut [f64], out: &mut [f64], count: &mut u64) -> u64 {
        let c = &t.column;
        let Rails { a, b, sync } = &c.rails;
        unsafe {
            call!(beahcerot_top(
                in a, in b, in sync, c.spacing, c.pull, c.underlay, c.run_len, c.short_stitches,
                c.split, c.style, t.far, mut work, mut out, count
            ))
        }
    }
}

/// Machine files.
pub mod machine {
    use super::raw::{beahcerot_dst, beahcerot_dst_read};

    pub fn dst(points: &[f64], out: &mut [u8], count: &mut u64) -> u64 {
        unsafe { call!(beahcerot_dst(in points, mut out, count)) }
    }
    pub fn dst_read(
        bytes: &[u8],
        points: &mut [f64],
        marks: &mut [u64],
        count: &mut u64,
        number: &mut u64,
    ) -> u64 {
        unsafe { call!(beahcerot_dst_read(in bytes, mut points, mut marks, count, number)) }
    }
}

/// Broken outlines.
pub mod salvage {
    use super::raw::beahcerot_salvage;
    use super::{whole, whole_mut};
    use crate::inputs::outlines::Outline;

    pub struct Lent<'a> {
        pub corners: &'a mut [f64],
        pub ends: &'a mut [u64],
        pub places: &'a mut [u64],
        pub reasons: &'a mut [u64],
        pub kept: &'a mut u64,
        pub dropped: &'a mut u64,
    }

    pub fn salvage(o: &Outline, lent: Lent) -> u64 {
        let (c, e) = (&o.corners, &o.ends);
        unsafe {
            call!(beahcerot_salvage(
                in c, in whole(e), mut lent.corners, mut whole_mut(lent.ends),
                mut whole_mut(lent.places), mut whole_mut(lent.reasons), lent.kept, lent.dropped
            ))
        }
    }
}

/// The sheet book: `floats` are spacing, len, inset and pull.
pub mod book {
    use super::raw::{beahcerot_book_fetch, beahcerot_book_remove, beahcerot_book_store};

    pub fn store(list: &mut [u8], number: u16, floats: [f64; 4], stagger: u64) -> u64 {
        let [spacing, len, inset, pull] = floats;
        unsafe { call!(beahcerot_book_store(mut list, number, spacing, len, inset, pull, stagger)) }
    }

    pub fn fetch(list: &[u8], number: u16, floats: &mut [f64; 4], stagger: &mut u64) -> u64 {
        let [spacing, len, inset, pull] = floats;
        unsafe { call!(beahcerot_book_fetch(in list, number, spacing, len, inset, pull, stagger)) }
    }

    pub fn remove(list: &mut [u8], number: u16) -> u64 {
        unsafe { call!(beahcerot_book_remove(mut list, number)) }
    }
}
