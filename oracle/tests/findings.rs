//! docs/FINDINGS.md, run on the completed original: each finding with its
//! smallest input. It needs no archive.

mod common;

use common::{block, line, settings};
use zigzag::fill::{FillParams, Piece, row_list, row_list_merged, tatami, ties};
use zigzag::geom::{FillRule, P, Polyline};
use zigzag::stroke::{running, running_to_corners};

fn spans(pieces: &[Piece]) -> Vec<(i64, f64, f64)> {
    pieces.iter().map(|p| (p.k, p.xa, p.xb)).collect()
}

#[test]
fn f1_a_row_inside_a_dropped_edge_goes_bare() {
    let shape = [line(&[
        (0.0, -10.0),
        (10.0, -10.0),
        (10.0, 0.0),
        (2.0, 0.0),
        (2.0, 10.0),
        (0.0, 10.0),
    ])];
    let rows = |c: f64| {
        let turned = FillParams {
            c,
            s: 1.0,
            ..settings()
        };
        row_list(&shape, FillRule::NonZero, &turned)
            .iter()
            .map(|p| p.k)
            .collect::<Vec<_>>()
    };
    assert_eq!(rows(0.0), [-3, -2, -1]);
    let quarter = f64::from_bits(0x3c91a62633145c07);
    assert_eq!(std::f64::consts::FRAC_PI_2.cos(), quarter);
    assert_eq!(rows(quarter), [-3, -2]);
}

// The original's sort leaves the order of equal crossings open; request [2] takes them as one.
#[test]
fn f2_touching_fields_are_one() {
    let inset = FillParams {
        inset: 2.0,
        ..settings()
    };
    let left = block(0.0, 0.0, 10.0, 10.0);
    let right = block(10.0, 0.0, 10.0, 10.0);
    let list = |rings: &[Polyline]| {
        assert_eq!(ties(rings, &inset), 2);
        spans(&row_list_merged(rings, FillRule::NonZero, &inset))
    };
    let whole = [(0, 2.0, 18.0), (1, 2.0, 18.0)];
    assert_eq!(list(&[left.clone(), right.clone()]), whole);
    assert_eq!(list(&[right, left]), whole);
}

#[test]
fn f3_a_narrow_piece_is_dropped() {
    let count = |width: f64| {
        row_list(
            &[block(0.0, 0.0, width, 10.0)],
            FillRule::NonZero,
            &settings(),
        )
        .len()
    };
    assert_eq!((count(2.9), count(3.0)), (0, 2));
}

#[test]
fn f4_pull_past_inset_by_one_breaks_every_link() {
    let sections = |pull: f64| {
        let pulled = FillParams { pull, ..settings() };
        tatami(&[block(0.0, 0.0, 40.0, 40.0)], FillRule::NonZero, &pulled).len()
    };
    assert_eq!((sections(0.99), sections(1.0)), (1, 10));
}

#[test]
fn f5_a_step_an_ulp_over_len_is_cut_in_two() {
    let short = FillParams {
        len: 1.2,
        ..settings()
    };
    let section = &tatami(&[block(0.0, 0.0, 5.5, 4.0)], FillRule::NonZero, &short)[0];
    let xs: Vec<f64> = section.iter().map(|p| p.x).collect();
    let step = 1.2 * 4.0 - 1.2 * 3.0;
    assert_eq!(f64::to_bits(step), f64::to_bits(1.2) + 1);
    assert_eq!(xs.len(), 7);
    assert!(1.2 * 3.0 < xs[4] && xs[4] < 1.2 * 4.0);
}

#[test]
fn f6_a_crossing_at_minus_zero() {
    // The side goes from -0 to the smallest number below zero over 8 units, so its slope underflows to -0.
    let tiny = f64::from_bits(1);
    let shape = [line(&[
        (-0.0, -6.0),
        (-tiny, 2.0),
        (-20.0, 2.0),
        (-20.0, -6.0),
    ])];
    let list = row_list(&shape, FillRule::NonZero, &settings());
    let zeros: Vec<u64> = list.iter().map(|p| p.xb.to_bits()).collect();
    assert_eq!(zeros, [1 << 63; 2]);
}

#[test]
fn f7_hypot_is_not_the_root_of_the_sum() {
    let v = P::new(0.1, 0.1);
    assert_eq!(v.len().to_bits(), 0x3fc21a1851ff630b);
    // The C library's hypot is another on each kind of processor.
    #[cfg(target_arch = "x86_64")]
    assert_eq!(v.x.hypot(v.y).to_bits(), 0x3fc21a1851ff630a);
    let grid =
        (1..=60).flat_map(|x| (1..=60).map(move |y| (0.1 * f64::from(x), 0.1 * f64::from(y))));
    let unlike = grid.filter(|&(x, y)| x.hypot(y) != P::new(x, y).len());
    assert!(unlike.count() > 0);
}

// Request [7] sets the point at the end of a piece to the corner itself.
#[test]
fn f13_a_corner_comes_back_a_hair_beside_itself() {
    let drawn = line(&[(1.0, 0.0), (0.1, 0.0)]);
    let beside = running(&drawn, false, 25.0, 1);
    assert_eq!(beside[1].x.to_bits(), 0x3fb9999999999998);
    assert_eq!(running_to_corners(&drawn, false, 25.0, 1), drawn);
    // From tenth to tenth of the first ten, 15 ways of 100 end beside themselves.
    let tenths = || (1..=10).map(|n| f64::from(n) / 10.0);
    let moved = tenths().flat_map(|a| tenths().map(move |b| (a, b)));
    assert_eq!(moved.filter(|(a, b)| a + (b - a) != *b).count(), 15);
}
