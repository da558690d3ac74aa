//! Findings of docs/FINDINGS.md through the proved library's entries, beside
//! the original: what each does with the input; and the sheet's K7 to K12. It
//! needs the archive.

// The driver's modules are read here as a test's own; it doesn't use all of them.
#![allow(dead_code)]
mod common;
#[path = "../src/expect.rs"]
mod expect;
#[path = "../src/inputs/mod.rs"]
mod inputs;
#[path = "../src/ours.rs"]
mod ours;
#[path = "../src/owed/mod.rs"]
mod owed;
#[path = "../src/rng.rs"]
mod rng;

use common::{block, line};
use inputs::boundaries::bare_strip;
use inputs::fills::Fill;
use inputs::outlines::Outline;
use inputs::rails::{Matched, Rails};
use zigzag::fill::{Piece, row_list, row_list_merged, tatami, tatami_merged};
use zigzag::geom::{FillRule, P, Polyline};

/// cos(π/2) as f64 has it.
const QUARTER: f64 = f64::from_bits(0x3c91a62633145c07);

fn port_row_list(f: &Fill) -> Vec<Piece> {
    let need = owed::fill::row_list_need(f).unwrap();
    let (mut floats, mut wholes) = (vec![0.0; need[0]], vec![0; need[1]]);
    let mut ys = vec![0.0; need[2]];
    let (mut rows, mut section_numbers) = (vec![0; need[3]], vec![0; need[4]]);
    let mut pieces = 0;
    let answer = ours::fill::row_list(
        f,
        ours::fill::Work {
            floats: &mut floats,
            wholes: &mut wholes,
        },
        ours::fill::Listed {
            ys: &mut ys,
            rows: &mut rows,
            section_numbers: &mut section_numbers,
            pieces: &mut pieces,
        },
    );
    assert_eq!(answer, expect::DONE);
    let piece = |i: usize| Piece {
        k: rows[i],
        y: ys[3 * i],
        xa: ys[3 * i + 1],
        xb: ys[3 * i + 2],
        section: section_numbers[i] as usize,
    };
    (0..pieces as usize).map(piece).collect()
}

fn port_tatami(f: &Fill) -> Vec<Polyline> {
    let need = owed::fill::tatami_need(f).unwrap();
    let (mut floats, mut wholes) = (vec![0.0; need[0]], vec![0; need[1]]);
    let (mut points, mut ends) = (vec![0.0; need[2]], vec![0; need[3]]);
    let (mut sections, mut count) = (0, 0);
    let answer = ours::fill::tatami(
        f,
        ours::fill::Work {
            floats: &mut floats,
            wholes: &mut wholes,
        },
        ours::fill::Sewn {
            points: &mut points,
            section_ends: &mut ends,
            sections: &mut sections,
            count: &mut count,
        },
    );
    assert_eq!(answer, expect::DONE);
    assert_eq!(
        count,
        ends[..sections as usize].last().copied().unwrap_or(0)
    );
    let mut from = 0;
    let mut section = |&end: &u64| {
        let part = inputs::outlines::points(&points[2 * from..2 * end as usize]);
        from = end as usize;
        part
    };
    ends[..sections as usize].iter().map(&mut section).collect()
}

/// The row numbers that both sides give; pieces and points are equal too.
fn rows(f: &Fill) -> Vec<i64> {
    let (rings, rule, params) = (f.outline.rings(), f.rule(), f.params());
    let list = row_list(&rings, rule, &params);
    assert_eq!(port_row_list(f), list);
    assert_eq!(port_tatami(f), tatami(&rings, rule, &params));
    list.iter().map(|p| p.k).collect()
}

#[test]
fn f1_the_smallest_bare_row() {
    assert_eq!(rows(&bare_strip(0.0)), [-3, -2, -1]);
    assert_eq!(rows(&bare_strip(QUARTER)), [-3, -2]);
}

/// As the desk meets it: an L of 2 by 4 mm, sewn up and down. Its inner side
/// stands where a row falls, x = 10, and that row is left out: between the rows
/// at 14 and at 6 the cloth shows, and the field is sewn in two parts.
#[test]
fn f1_the_bare_strip_in_a_field() {
    let ring = line(&[
        (0.0, -20.0),
        (20.0, -20.0),
        (20.0, 0.0),
        (10.0, 0.0),
        (10.0, 20.0),
        (0.0, 20.0),
    ]);
    let turned = |cosine: f64, x: f64| {
        let moved: Polyline = ring.iter().map(|p| *p + P::new(x, 0.0)).collect();
        Fill {
            cosine,
            sine: 1.0,
            ..Fill::new(&[moved])
        }
    };
    let sewn = |f: &Fill| (rows(f), port_tatami(f).len());
    assert_eq!(sewn(&turned(QUARTER, 0.0)), (vec![-5, -4, -2, -1], 2));
    // Mended by an exact cosine, or by moving the drawing by a hair.
    assert_eq!(sewn(&turned(0.0, 0.0)), (vec![-5, -4, -3, -2, -1], 1));
    assert_eq!(sewn(&turned(QUARTER, 0.01)), (vec![-5, -4, -3, -2, -1], 1));
}

#[test]
fn f2_touching_fields_are_one() {
    let (left, right) = (block(0.0, 0.0, 10.0, 10.0), block(10.0, 0.0, 10.0, 10.0));
    for rings in [[left.clone(), right.clone()], [right, left]] {
        let f = Fill {
            inset: 2.0,
            ..Fill::new(&rings)
        };
        let list = row_list_merged(&rings, f.rule(), &f.params());
        assert_eq!(list.len(), 2);
        assert_eq!(port_row_list(&f), list);
        let sewn = tatami_merged(&rings, f.rule(), &f.params());
        assert_eq!(port_tatami(&f), sewn);
    }
}

#[test]
fn f3_a_narrow_piece_is_dropped() {
    let count = |width: f64| rows(&Fill::new(&[block(0.0, 0.0, width, 10.0)])).len();
    assert_eq!((count(2.9), count(3.0)), (0, 2));
}

#[test]
fn f4_pull_past_inset_by_one_breaks_every_link() {
    let sections = |pull: f64| {
        let f = Fill {
            pull,
            ..Fill::new(&[block(0.0, 0.0, 40.0, 40.0)])
        };
        assert_eq!(rows(&f).len(), 10);
        port_tatami(&f).len()
    };
    assert_eq!((sections(0.99), sections(1.0)), (1, 10));
}

#[test]
fn f5_a_step_an_ulp_over_len_is_cut_in_two() {
    let f = Fill {
        len: 1.2,
        ..Fill::new(&[block(0.0, 0.0, 5.5, 4.0)])
    };
    assert_eq!(rows(&f), [0]);
    assert_eq!(port_tatami(&f)[0].len(), 7);
}

#[test]
fn f6_a_crossing_at_minus_zero() {
    let tiny = f64::from_bits(1);
    let side = [(-0.0, -6.0), (-tiny, 2.0), (-20.0, 2.0), (-20.0, -6.0)];
    let f = Fill::new(&[line(&side)]);
    assert_eq!(rows(&f).len(), 2);
    let zeros: Vec<u64> = port_row_list(&f).iter().map(|p| p.xb.to_bits()).collect();
    assert_eq!(zeros, [1 << 63; 2]);
}

/// The sheet's square Q.
fn q() -> Outline {
    Outline::new(&[block(0.0, 0.0, 10.0, 10.0)])
}

#[test]
fn k7_and_k8_through_the_archive() {
    for (x, inside) in [(0.0, 1), (10.0, 0)] {
        let mut value = 7;
        let p = P::new(x, 5.0);
        let answer = ours::geom::point_inside(&q(), FillRule::NonZero, p, &mut value);
        assert_eq!((answer, value), (expect::DONE, inside));
    }
}

#[test]
fn f13_a_corner_is_the_corner() {
    let drawn = [1.0, 0.0, 0.1, 0.0];
    let (mut out, mut count) = (vec![0.0; 6], 0);
    let answer = ours::stroke::running(&drawn, false, 25.0, 2, &mut out, &mut count);
    assert_eq!((answer, count), (expect::DONE, 3));
    assert_eq!(out, [1.0, 0.0, 0.1, 0.0, 1.0, 0.0]);
}

#[test]
fn k9_through_the_archive() {
    // A point and a line more than are needed, which stay as they were.
    let (mut out, mut stops) = (vec![7.0; 10], vec![9; 2]);
    let (mut lines, mut points) = (0, 0);
    let lent = ours::patterns::Lent {
        out: &mut out,
        stops: &mut stops,
        lines: &mut lines,
        points: &mut points,
    };
    let answer = ours::patterns::cross_stitch(&q(), FillRule::NonZero, 10.0, lent);
    assert_eq!((answer, lines, points), (expect::DONE, 1, 4));
    assert_eq!(out, [0.0, 10.0, 10.0, 0.0, 10.0, 10.0, 0.0, 0.0, 7.0, 7.0]);
    assert_eq!(stops, [4, 9]);
}

#[test]
fn k12_through_the_archive() {
    let (mut out, mut count) = (vec![7.0; 12], 0);
    let ten = [0.0, 0.0, 10.0, 0.0];
    let answer = ours::stroke::running(&ten, false, 5.0, 2, &mut out, &mut count);
    assert_eq!((answer, count), (expect::DONE, 5));
    let at = |x: f64| [x, 0.0];
    let sewn = [0.0, 5.0, 10.0, 5.0, 0.0].map(at).concat();
    assert_eq!(out, [sewn, vec![7.0; 2]].concat());
}

#[test]
fn k10_and_k11_through_the_archive() {
    let k10 = Matched {
        rails: Rails::bar(10.0, 10.0, 4.0),
        step: 5.0,
    };
    let need = owed::satin::pairs_need(&k10).unwrap();
    // Two rails of two corners, no sync points, three pairs.
    assert_eq!(need, [2 + 2 + 4 + 8 * 3, 12]);
    let (mut work, mut out) = (vec![1.0; need[0]], vec![0.0; need[1]]);
    let mut count = 0;
    let answer = ours::satin::pairs(&k10, &mut work, &mut out, &mut count);
    assert_eq!((answer, count), (expect::DONE, 6));
    let at = |x: f64| [x, 0.0, x, 4.0];
    assert_eq!(out, [0.0, 5.0, 10.0].map(at).concat());
    assert_eq!(work, vec![0.0; need[0]]);
    let six = [0.0, 0.0, 6.0, 0.0];
    let mut out = vec![0.0; 4];
    let answer = ours::satin::s_stitch(&six, &mut out, &mut count);
    assert_eq!((answer, count, out), (expect::DONE, 2, six.to_vec()));
}
