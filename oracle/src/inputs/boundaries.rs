//! Fills at the boundaries of each refusal, and those that are easily got wrong.

use super::fills::Fill;
use super::numbers::beside;
use super::outlines::{block, line};
use crate::expect::{CORNERS, LEN, RINGS, SHRINK, SIZE_LIMIT, SPACING};
use std::ops::RangeInclusive;
use std::sync::OnceLock;
use zigzag::geom::{P, Polyline};

/// Each boundary of each refusal from both sides, and the shapes that are
/// easily got wrong, each top down and bottom up.
pub fn boundaries() -> &'static [Fill] {
    static LIST: OnceLock<Vec<Fill>> = OnceLock::new();
    LIST.get_or_init(|| {
        let mut list = vec![Fill::k1(), letter_h()];
        list.extend(settings());
        list.extend(turns());
        list.extend(layouts());
        list.extend(coordinates());
        list.extend(sizes());
        list.extend(shapes());
        list.extend(links());
        list.extend(two_faults());
        let up: Vec<Fill> = list
            .iter()
            .map(|f| Fill {
                bottom_up: true,
                ..f.clone()
            })
            .collect();
        list.extend(up);
        list
    })
}

/// Wide enough for an inset of 100 to leave something of it.
fn letter_h() -> Fill {
    let grid = [
        (0, 0),
        (3, 0),
        (3, 2),
        (6, 2),
        (6, 0),
        (9, 0),
        (9, 5),
        (6, 5),
        (6, 3),
        (3, 3),
        (3, 5),
        (0, 5),
    ];
    let ring = grid.map(|(x, y)| P::new(f64::from(x) * 75.0, f64::from(y) * 30.0));
    Fill::new(&[ring.to_vec()])
}

/// Each setting at its ends, beside them, and where no range has it.
fn settings() -> Vec<Fill> {
    type Place = fn(&mut Fill) -> &mut f64;
    let places: [(Place, RangeInclusive<f64>); 4] = [
        (|f| &mut f.spacing, SPACING),
        (|f| &mut f.len, LEN),
        (|f| &mut f.inset, SHRINK),
        (|f| &mut f.pull, SHRINK),
    ];
    let mut list = Vec::new();
    for base in [Fill::k1(), letter_h()] {
        for (place, range) in &places {
            let mut values = vec![0.0, -0.0, 1.0, 3.5, 4.0, f64::NAN];
            values.extend([f64::INFINITY, f64::NEG_INFINITY]);
            for end in [*range.start(), *range.end()] {
                values.extend([end, beside(end, 1), beside(end, -1)]);
            }
            for value in values {
                let mut fill = base.clone();
                *place(&mut fill) = value;
                list.push(fill);
            }
        }
        for stagger in [0, 2, 7, 1000, 1001, 1 << 32, (1 << 32) + 1, u64::MAX] {
            list.push(Fill {
                stagger,
                ..base.clone()
            });
        }
    }
    // A field drawn twice over in its middle, which the rules tell apart.
    let twice = [block(0.0, 0.0, 40.0, 40.0), block(10.0, 10.0, 20.0, 20.0)];
    for rule in [0, 1, 2, 1 << 32, u64::MAX] {
        list.push(Fill {
            rule,
            ..Fill::new(&twice)
        });
    }
    list
}

/// A cosine and a sine whose squares' sum is exactly this.
fn squares(sum: f64) -> (f64, f64) {
    let tries = (1..10_000).flat_map(|k| {
        let c = f64::from(k) / 10_000.0;
        let s = (sum - c * c).max(0.0).sqrt();
        (-3..=3).map(move |ulps| (c, beside(s, ulps)))
    });
    let mut right = tries.filter(|(c, s)| c * c + s * s == sum);
    right.next().expect("no cosine and sine for this sum")
}

fn turns() -> Vec<Fill> {
    let quarter = f64::from_bits(0x3c91a62633145c07); // cos(π/2) in f64
    let mut pairs = vec![(1.0, -0.0), (0.0, 1.0), (-1.0, 0.0), (-0.0, -1.0)];
    pairs.extend([(quarter, 1.0), (-1.0, 2.0 * quarter), (0.6, 0.8)]);
    for limit in [0.999999, 1.000001] {
        pairs.extend((-1..=1).map(|ulps| squares(beside(limit, ulps))));
    }
    pairs.extend([(0.0, 0.0), (2.0, 0.0), (0.5, 0.5)]);
    for odd in [f64::NAN, f64::INFINITY, f64::NEG_INFINITY, f64::MAX] {
        pairs.extend([(odd, 0.0), (0.0, odd), (odd, odd)]);
    }
    let mut list = Vec::new();
    for (cosine, sine) in pairs {
        for base in [Fill::k1(), letter_h()] {
            list.push(Fill {
                cosine,
                sine,
                ..base
            });
        }
    }
    list
}

fn blocks(count: usize) -> Vec<Polyline> {
    let at = |k: usize| block((k % 16) as f64 * 9.0, (k / 16) as f64 * 9.0, 7.0, 7.0);
    (0..count).map(at).collect()
}

/// A ring of so many corners.
fn round(corners: usize) -> Polyline {
    let at = |k: usize| {
        let angle = k as f64 * std::f64::consts::TAU / corners as f64;
        P::new(angle.cos() * 80.0, angle.sin() * 60.0)
    };
    (0..corners).map(at).collect()
}

fn layouts() -> Vec<Fill> {
    let q = Fill::k1().outline.corners;
    let mut list = Vec::new();
    let mut add = |corners: &[f64], ends: &[u64]| {
        let mut fill = Fill::k1();
        fill.outline.corners = corners.to_vec();
        fill.outline.ends = ends.to_vec();
        list.push(fill);
    };
    let right: [&[u64]; 5] = [&[4], &[0, 4], &[4, 4], &[0, 0, 4, 4], &[2, 4]];
    let wrong: [&[u64]; 11] = [
        &[],
        &[3],
        &[5],
        &[8],
        &[4, 3],
        &[5, 4],
        &[3, 2, 4],
        &[4, 0],
        &[u64::MAX],
        &[u64::MAX, 4],
        &[(1 << 63) + 4],
    ];
    for ends in right.iter().chain(&wrong) {
        add(&q, ends);
    }
    add(&[], &[]);
    add(&[], &[0]);
    add(&[], &[1]);
    add(&q[..7], &[3]);
    add(&q[..7], &[4]);
    add(&q[..1], &[]);
    add(&[&q[..], &[1.0]].concat(), &[4]);
    for rings in [RINGS, RINGS + 1] {
        add(&[], &vec![0; rings]);
        let mut ends = vec![4; rings];
        ends[0] = 0;
        add(&q, &ends);
    }
    let mut whole = vec![Fill::new(&blocks(RINGS)), Fill::new(&blocks(RINGS + 1))];
    for corners in [CORNERS - 1, CORNERS, CORNERS + 1] {
        whole.push(Fill::new(&[round(corners)]));
        // Rings of two corners count too.
        let mut rings = vec![round(corners - 20)];
        rings.extend(vec![line(&[(1.0, 1.0), (2.0, 3.0)]); 10]);
        whole.push(Fill::new(&rings));
    }
    list.extend(whole);
    list
}

fn coordinates() -> Vec<Fill> {
    let over = beside(SIZE_LIMIT, 1);
    let size = [SIZE_LIMIT, beside(SIZE_LIMIT, -1), over, f64::MAX];
    let mut values: Vec<f64> = size.iter().flat_map(|&x| [x, -x]).collect();
    values.extend([f64::NAN, f64::INFINITY, f64::NEG_INFINITY, -0.0, 5e-324]);
    let mut list = Vec::new();
    for value in values {
        for at in [0, 5, 7] {
            let mut fill = Fill::k1();
            (fill.spacing, fill.len) = (500.0, 1000.0);
            fill.outline.corners[at] = value;
            list.push(fill);
        }
        // A ring that the fill ignores.
        let mut fill = Fill::k1();
        fill.outline.corners.extend([3.0, value]);
        fill.outline.ends.push(5);
        list.push(fill);
    }
    list
}

/// 4,096 rows and 4,097, by every way to reach them.
fn sizes() -> Vec<Fill> {
    let mut list = Vec::new();
    for (spacing, full) in [(0.5, 2048.25), (1.0, 4096.5), (20.0, 81930.0)] {
        for height in [full, beside(full, -1), full - spacing / 2.0] {
            for ring in [
                block(0.0, 0.0, 10.0, height),
                block(3.0, -height, 10.0, height),
            ] {
                list.push(Fill {
                    spacing,
                    len: 1000.0,
                    ..Fill::new(&[ring])
                });
            }
        }
    }
    // Away from zero, where the first and the last row are rounded.
    for (top, bottom) in [
        (3.1, 2050.75),
        (3.1, 2051.25),
        (-2050.75, -3.1),
        (-2051.25, -3.1),
    ] {
        list.push(Fill {
            spacing: 0.5,
            ..Fill::new(&[block(0.0, top, 10.0, bottom - top)])
        });
    }
    // Turned by a right angle the width counts.
    for width in [2048.0, 2048.25] {
        list.push(Fill {
            spacing: 0.5,
            cosine: 0.0,
            sine: 1.0,
            ..Fill::new(&[block(0.0, 0.0, width, 10.0)])
        });
    }
    // Neither a ring of two corners nor a dropped edge makes rows.
    let far = line(&[(0.0, 0.0), (0.0, SIZE_LIMIT)]);
    let flat = line(&[(0.0, 0.0), (9.0, 0.0), (SIZE_LIMIT, 0.5e-9)]);
    for rings in [vec![far.clone()], vec![flat], vec![far, round(5)]] {
        list.push(Fill {
            spacing: 0.5,
            ..Fill::new(&rings)
        });
    }
    list
}

/// Heights about 1e-9, tied crossings, a crossing at -0, a row in a dropped edge.
pub fn shapes() -> Vec<Fill> {
    let mut list = Vec::new();
    for ulps in -2..=2 {
        let h = beside(1e-9, ulps);
        let tilted = line(&[(0.0, 0.0), (40.0, h), (40.0, 30.0), (0.0, 30.0)]);
        list.push(Fill::new(&[tilted]));
        let thin = line(&[(0.0, 2.0), (40.0, 2.0 + h), (20.0, 2.0 - h)]);
        list.push(Fill::new(&[thin]));
    }
    let (left, right) = (block(0.0, 0.0, 10.0, 10.0), block(10.0, 0.0, 10.0, 10.0));
    for rings in [
        [left.clone(), right.clone()],
        [right, left.clone()],
        [left.clone(), left],
    ] {
        list.push(Fill {
            inset: 2.0,
            ..Fill::new(&rings)
        });
    }
    let tiny = f64::from_bits(1);
    let minus_zero = line(&[(-0.0, -6.0), (-tiny, 2.0), (-20.0, 2.0), (-20.0, -6.0)]);
    list.push(Fill::new(&[minus_zero.clone()]));
    // -0 comes before +0, whichever was drawn first.
    let plus_zero = line(&[(0.0, 2.0), (0.0, -6.0), (20.0, -6.0), (20.0, 2.0)]);
    for rings in [
        [minus_zero.clone(), plus_zero.clone()],
        [plus_zero, minus_zero],
    ] {
        list.push(Fill {
            inset: 2.0,
            ..Fill::new(&rings)
        });
    }
    list.push(bare_strip(f64::from_bits(0x3c91a62633145c07)));
    list.push(bare_strip(0.0));
    list
}

/// Links one or two stitches long, give or take an ulp.
fn links() -> Vec<Fill> {
    // The second has a root and a `hypot` that differ; with the others behind
    // it, the root's square is less than the sum that it is the root of.
    let root = |lean: f64| P::new(lean, 4.0).len();
    let short = |lean: &f64| root(*lean) * root(*lean) < lean * lean + 16.0;
    let mut leans = vec![3.0, 91.0 / 64.0];
    leans.extend((1..1000).map(|k| f64::from(k) / 64.0).filter(short).take(4));
    let mut list = Vec::new();
    for lean in leans {
        let far = 5.0 * lean;
        let ring = line(&[(0.0, 0.0), (30.0, 0.0), (30.0 + far, 20.0), (far, 20.0)]);
        for stitches in [1.0, 2.0] {
            for ulps in -1..=1 {
                list.push(Fill {
                    len: beside(root(lean) / stitches, ulps),
                    ..Fill::new(std::slice::from_ref(&ring))
                });
            }
        }
    }
    list
}

/// Finding F1: with cos(π/2) as f64 has it, row -1 lies inside a dropped edge.
pub fn bare_strip(cosine: f64) -> Fill {
    let ring = [
        (0.0, -10.0),
        (10.0, -10.0),
        (10.0, 0.0),
        (2.0, 0.0),
        (2.0, 10.0),
        (0.0, 10.0),
    ];
    Fill {
        cosine,
        sine: 1.0,
        ..Fill::new(&[line(&ring)])
    }
}

/// Every two of the faults 1 to 5 in one fill: the first in the table answers.
fn two_faults() -> Vec<Fill> {
    let faults: [fn(&mut Fill); 5] = [
        |f| f.outline.ends.push(3),
        |f| f.outline.corners[1] = f64::NAN,
        |f| f.len = 0.5,
        |f| f.cosine = 0.5,
        |f| {
            f.outline.corners[5] = 3000.0;
            f.spacing = 0.5;
        },
    ];
    let mut list = Vec::new();
    for (i, one) in faults.iter().enumerate() {
        for two in &faults[i..] {
            let mut fill = Fill::k1();
            one(&mut fill);
            two(&mut fill);
            list.push(fill);
        }
    }
    list
}
