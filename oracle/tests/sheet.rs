//! Document 01's sheet of checks, run on the completed original: it says that
//! what the comparison takes for right is what the sheet takes for right.

mod common;

use common::{block, line, settings};
use zigzag::fill::{FillParams, Piece, row_list, row_list_merged, tatami, tatami_merged, ties};
use zigzag::geom::{FillRule, P, Polyline, point_inside};
use zigzag::patterns::{bounds, cross_stitch};
use zigzag::satin::{Rails, SatinParams, SatinStyle, column, pairs, s_stitch};
use zigzag::stroke::running;

fn q() -> Vec<Polyline> {
    vec![block(0.0, 0.0, 10.0, 10.0)]
}

fn fill(p: FillParams) -> Vec<Polyline> {
    tatami(&q(), FillRule::NonZero, &p)
}

#[test]
fn k1_to_k6() {
    let all = |points: &[(f64, f64)]| vec![line(points)];
    let k1 = all(&[(0.0, 2.0), (10.0, 2.0), (10.0, 6.0), (0.0, 6.0)]);
    assert_eq!(fill(settings()), k1);
    let k2 = FillParams {
        bottom_up: true,
        ..settings()
    };
    let up = [(0.0, 6.0), (10.0, 6.0), (10.0, 2.0), (0.0, 2.0)];
    assert_eq!(fill(k2), all(&up));
    let k3 = FillParams {
        len: 5.0,
        ..settings()
    };
    let cut = [
        (0.0, 2.0),
        (5.0, 2.0),
        (10.0, 2.0),
        (10.0, 6.0),
        (5.0, 6.0),
        (0.0, 6.0),
    ];
    assert_eq!(fill(k3), all(&cut));
    let k4 = FillParams {
        stagger: 2,
        ..settings()
    };
    let staggered = [(0.0, 2.0), (10.0, 2.0), (10.0, 6.0), (5.0, 6.0), (0.0, 6.0)];
    assert_eq!(fill(k4), all(&staggered));
    let k5 = FillParams {
        inset: 3.5,
        ..settings()
    };
    let list = row_list(&q(), FillRule::NonZero, &k5);
    assert!(list.iter().all(|r| (r.xa, r.xb) == (3.5, 6.5)));
    assert_eq!(list.len(), 2);
    let k6 = FillParams {
        inset: 4.0,
        ..settings()
    };
    assert_eq!(fill(k6), Vec::<Polyline>::new());
}

#[test]
fn k7_to_k12() {
    let inside = |x, y| point_inside(&q(), FillRule::NonZero, P::new(x, y));
    assert!(inside(0.0, 5.0));
    assert!(!inside(10.0, 5.0));
    let k9 = line(&[(0.0, 10.0), (10.0, 0.0), (10.0, 10.0), (0.0, 0.0)]);
    assert_eq!(cross_stitch(&q(), FillRule::NonZero, 10.0), vec![k9]);
    let rails = Rails {
        a: line(&[(0.0, 0.0), (10.0, 0.0)]),
        b: line(&[(0.0, 4.0), (10.0, 4.0)]),
        sync: Vec::new(),
    };
    let at = |x| (P::new(x, 0.0), P::new(x, 4.0));
    assert_eq!(pairs(&rails, 5.0), [0.0, 5.0, 10.0].map(at));
    let six = line(&[(0.0, 0.0), (6.0, 0.0)]);
    assert_eq!(s_stitch(&six), six);
    let ten = line(&[(0.0, 0.0), (10.0, 0.0)]);
    let xs: Vec<f64> = running(&ten, false, 5.0, 2).iter().map(|q| q.x).collect();
    assert_eq!(xs, [0.0, 5.0, 10.0, 5.0, 0.0]);
}

// What satinrules/specs/Ks shows of the definitions: K10's rails with every
// underlay, and a top split at 2.
#[test]
fn a_column_over_k10() {
    let rails = Rails {
        a: line(&[(0.0, 0.0), (10.0, 0.0)]),
        b: line(&[(0.0, 4.0), (10.0, 4.0)]),
        sync: Vec::new(),
    };
    let settings = SatinParams {
        spacing: 5.0,
        pull: 1.0,
        underlay: 7,
        run_len: 5.0,
        short_stitches: true,
        split: Some(2.0),
        style: SatinStyle::Plain,
    };
    let sewn = column(&rails, &settings);
    let centre = line(&[(0.0, 2.0), (5.0, 2.0), (10.0, 2.0)]);
    // From the end: back along a, and out along b.
    let contour = [
        (10.0, 1.0),
        (5.0, 1.0),
        (0.0, 1.0),
        (0.0, 3.0),
        (5.0, 3.0),
        (10.0, 3.0),
    ];
    let zigzag = line(&[(10.0, 3.0), (0.0, 1.0)]);
    assert_eq!(sewn.len(), 29);
    assert_eq!(sewn[..11], [centre, line(&contour), zigzag].concat());
    assert_eq!((sewn[11], sewn[28]), (P::new(0.0, -1.0), P::new(10.0, 5.0)));
}

#[test]
fn nothing_in_nothing_out() {
    let none: Vec<Polyline> = Vec::new();
    assert_eq!(tatami(&none, FillRule::NonZero, &settings()), none);
    let (lo, hi) = bounds(&none);
    assert_eq!((lo.x, hi.y), (f64::INFINITY, f64::NEG_INFINITY));
}

#[test]
fn row_list_is_in_the_order_met() {
    let p = FillParams {
        bottom_up: true,
        ..settings()
    };
    let at = |k, y| Piece {
        k,
        y,
        xa: 0.0,
        xb: 10.0,
        section: 0,
    };
    let list = row_list(&q(), FillRule::NonZero, &p);
    assert_eq!(list, [at(1, 6.0), at(0, 2.0)]);
}

// Request [2]: which of two touching squares is drawn first doesn't matter.
#[test]
fn touching_squares_are_one_in_either_order() {
    let p = FillParams {
        inset: 2.0,
        ..settings()
    };
    let left = block(0.0, 0.0, 10.0, 10.0);
    let right = block(10.0, 0.0, 10.0, 10.0);
    for rule in [FillRule::NonZero, FillRule::EvenOdd] {
        for rings in [[&left, &right], [&right, &left]] {
            let list = row_list_merged(&rings.map(Clone::clone), rule, &p);
            let ends: Vec<_> = list.iter().map(|r| (r.k, r.xa, r.xb)).collect();
            assert_eq!(ends, [(0, 2.0, 18.0), (1, 2.0, 18.0)]);
        }
    }
    assert_eq!(ties(&[left, right], &p), 2);
    assert_eq!(ties(&q(), &p), 0);
    let merged = tatami_merged(&q(), FillRule::NonZero, &p);
    assert_eq!(merged, tatami(&q(), FillRule::NonZero, &p));
}

// The original works out cos(-angle) and sin(-angle) for the corners, and
// cos(angle) and sin(angle) for the way back; one cosine and one sine serve for
// both because the cosine is even and the sine odd, to the last bit.
#[test]
fn one_cosine_and_sine_serve_both_ways() {
    let mut angles = vec![0.0, -0.0, 1e-300, 5e-324];
    angles.extend((-2000..=2000).map(|k| k as f64 * 0.01));
    angles.extend((-720..=720).map(|k| (k as f64 * 0.5).to_radians()));
    for a in angles {
        assert_eq!((-a).cos().to_bits(), a.cos().to_bits(), "cosine of {a}");
        assert_eq!((-a).sin().to_bits(), (-a.sin()).to_bits(), "sine of {a}");
    }
}
