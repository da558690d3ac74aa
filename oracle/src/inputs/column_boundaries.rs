//! Calls of a column at the boundaries of each refusal, and those that are
//! easily got wrong. The large ones take long and stand in lists of their own.

use super::numbers::beside;
use super::rails::{Column, Matched, Path, Rails, Top, flat};
use crate::expect::{CORNERS, LEN, PAIRS, SHRINK, SIZE_LIMIT, SPACING, SPLIT, STEP, SYNCS};
use std::f64::consts::TAU;
use std::ops::RangeInclusive;
use zigzag::geom::{P, Polyline};

/// A number at the ends of a range, beside them, and where no range has it.
fn around(range: &RangeInclusive<f64>) -> Vec<f64> {
    let mut values = vec![0.0, -0.0, 1.0, 3.5, f64::NAN];
    values.extend([f64::INFINITY, f64::NEG_INFINITY]);
    for end in [*range.start(), *range.end()] {
        values.extend([end, beside(end, 1), beside(end, -1)]);
    }
    values
}

/// Coordinates on both sides of what is accepted.
fn coordinates() -> Vec<f64> {
    let over = beside(SIZE_LIMIT, 1);
    let size = [SIZE_LIMIT, beside(SIZE_LIMIT, -1), over, f64::MAX];
    let mut values: Vec<f64> = size.iter().flat_map(|&x| [x, -x]).collect();
    values.extend([f64::NAN, f64::INFINITY, f64::NEG_INFINITY, -0.0, 5e-324]);
    values
}

/// A line of so many corners, its pieces 3 units long.
fn stairs(corners: usize, y: f64) -> Polyline {
    let at = |k: usize| P::new((k / 2) as f64 * 3.0, y + (k.div_ceil(2)) as f64 * 3.0);
    (0..corners).map(at).collect()
}

/// A ring whose inner rail crowds.
fn ring() -> Rails {
    let round = |radius: f64| -> Polyline {
        let at = |k: usize| {
            let angle = TAU * (k % 16) as f64 / 16.0;
            P::new(angle.cos(), angle.sin()) * radius
        };
        (0..=16).map(at).collect()
    };
    Rails::new(&round(30.0), &round(10.0))
}

/// Rails at each limit of their layout and of their numbers.
fn faulty_rails() -> Vec<Rails> {
    let k10 = Rails::bar(10.0, 10.0, 4.0);
    let mut list = Vec::new();
    for count in [0, 1, 2, 3, CORNERS - 1, CORNERS, CORNERS + 1] {
        list.push(Rails::new(&stairs(count, 0.0), &stairs(3, 20.0)));
        list.push(Rails::new(&stairs(3, 0.0), &stairs(count, 20.0)));
        list.push(Rails::new(&stairs(count, 0.0), &stairs(count, 20.0)));
    }
    type Place = fn(&mut Rails) -> &mut Vec<f64>;
    let places: [Place; 3] = [|r| &mut r.a, |r| &mut r.b, |r| &mut r.sync];
    for place in places {
        for odd in [1, 3, 5, 2 * CORNERS + 1] {
            let mut rails = k10.clone();
            place(&mut rails).resize(odd, 2.0);
            list.push(rails);
        }
        for value in coordinates() {
            for at in [0, 3] {
                let mut rails = k10.clone();
                let list_of = place(&mut rails);
                list_of.resize(4, 2.0);
                list_of[at] = value;
                list.push(rails);
            }
        }
    }
    for count in [1, SYNCS - 1, SYNCS, SYNCS + 1] {
        let mut rails = Rails::bar(300.0, 300.0, 4.0);
        rails.sync = (1..=count).flat_map(|k| [k as f64; 2]).collect();
        list.push(rails);
    }
    list
}

/// Sync points that are kept and that aren't, on rails of length 10 and 20.
fn synced() -> Vec<Rails> {
    let (under, over) = (beside(10.0, -1), beside(10.0, 1));
    let lists: Vec<Vec<f64>> = vec![
        vec![5.0, 5.0],
        vec![5.0, 5.0, 5.0, 6.0],
        vec![5.0, 5.0, 6.0, 5.0],
        vec![5.0, 5.0, 5.0, 5.0, 6.0, 6.0],
        vec![7.0, 7.0, 3.0, 3.0, 8.0, 8.0],
        vec![3.0, 9.0, 4.0, 8.0, 5.0, 10.0],
        vec![0.0, 5.0],
        vec![5.0, -0.0],
        vec![5e-324, 5e-324],
        vec![-1.0, 5.0],
        vec![5.0, -1.0],
        vec![10.0, 5.0],
        vec![under, 5.0],
        vec![over, 5.0],
        vec![5.0, 20.0],
        vec![5.0, beside(20.0, -1)],
        vec![5.0, beside(20.0, 1)],
        vec![under, beside(20.0, -1)],
        vec![10.0 - 1e-9, 20.0 - 1e-9],
        vec![SIZE_LIMIT, SIZE_LIMIT, 5.0, 5.0],
        vec![1.0, 19.0, 9.0, 19.5],
        vec![1.0, 1.0, 1.0 + 1e-10, 1.0 + 1e-10, 2.0, 2.0],
        vec![1.0, 1.0, 1.0 + 1e-13, 1.0 + 1e-13, 2.0, 2.0],
    ];
    let with = |sync: Vec<f64>| Rails {
        sync,
        ..Rails::bar(10.0, 20.0, 4.0)
    };
    lists.into_iter().map(with).collect()
}

/// A window that ends under 1e-9 past a whole number of steps of 1.0, and then
/// one about as short as is told from none: its only place lies before it.
fn hair_windows() -> Vec<Rails> {
    let mut list = Vec::new();
    for past in [5e-10, 1e-9 - 2e-13, 1e-9, 1e-9 + 2e-13] {
        for hair in [9e-13, beside(1e-12, 1), 1.1e-12, 6e-10, 1e-9, 1.5e-9] {
            let (one, two) = (5.0 + past, 5.0 + past + hair);
            list.push(Rails {
                sync: vec![one, one, two, two],
                ..Rails::bar(10.0, 10.0, 4.0)
            });
        }
    }
    list
}

/// Rails whose pieces, or the whole of them, have no length; a loop; a rail a
/// thousand times the other.
fn odd_rails() -> Vec<Rails> {
    let point = [3.0, 4.0];
    let same = point.repeat(3);
    let mut list = vec![
        Rails {
            a: same.clone(),
            b: same.clone(),
            sync: vec![0.0, 0.0],
        },
        Rails {
            a: same,
            ..Rails::bar(10.0, 10.0, 4.0)
        },
        Rails::bar(0.0, 40.0, 4.0),
        Rails::bar(1e-3, 40.0, 4.0),
        Rails::bar(10.0, 10.0, 0.0),
        ring(),
    ];
    // K10 with corners repeated at the start, in the middle and at the end.
    list.push(Rails {
        a: vec![0.0, 0.0, 0.0, 0.0, 5.0, 0.0, 5.0, 0.0, 10.0, 0.0],
        b: vec![0.0, 4.0, 10.0, 4.0, 10.0, 4.0],
        sync: vec![5.0, 5.0],
    });
    for hair in [1e-13, 1e-12, beside(1e-12, 1), 1e-9, 2e-9] {
        list.push(Rails::bar(hair, hair, 4.0));
        list.push(Rails {
            a: vec![0.0, 0.0, hair, 0.0, 10.0, 0.0],
            ..Rails::bar(10.0, 10.0, 4.0)
        });
    }
    list
}

/// Two or more faults of 1 to 3 at once: the first in the table answers.
fn two_faults() -> Vec<(Rails, bool)> {
    let faults: [fn(&mut Rails); 4] = [
        |r| r.b.push(1.0),
        |r| r.a[1] = f64::NAN,
        |r| r.sync = vec![f64::INFINITY, 1.0],
        |r| r.a.truncate(2),
    ];
    let mut list = Vec::new();
    for (i, one) in faults.iter().enumerate() {
        for two in &faults[i..] {
            for setting in [false, true] {
                let mut rails = Rails::bar(10.0, 10.0, 4.0);
                one(&mut rails);
                two(&mut rails);
                list.push((rails, setting));
            }
        }
    }
    list
}

pub fn matched() -> Vec<Matched> {
    let mut list = Vec::new();
    for rails in [Rails::bar(10.0, 10.0, 4.0), ring()] {
        for step in around(&STEP).into_iter().chain([5.0]) {
            let rails = rails.clone();
            list.push(Matched { rails, step });
        }
    }
    // A whole number of steps, give or take an ulp.
    for ulps in -2..=2 {
        let rails = Rails::bar(30.0, 30.0, 4.0);
        let step = beside(10.0, ulps);
        list.push(Matched { rails, step });
    }
    let plain = faulty_rails()
        .into_iter()
        .chain(synced())
        .chain(odd_rails());
    list.extend(plain.map(|rails| Matched { rails, step: 2.5 }));
    let hairs = hair_windows().into_iter();
    list.extend(hairs.map(|rails| Matched { rails, step: 1.0 }));
    list.extend(two_faults().into_iter().map(|(rails, setting)| Matched {
        rails,
        step: if setting { 0.25 } else { 5.0 },
    }));
    list
}

/// n at its limit and one past it.
pub fn large_matched() -> Vec<Matched> {
    let at = |length: f64, step: f64| Matched {
        rails: Rails::bar(length, length, 4.0),
        step,
    };
    let most = PAIRS as f64;
    vec![
        at(most, 1.0),
        at(beside(most, 1), 1.0),
        at(most * 0.5, 0.5),
        at(most + 1.0, 1.0),
        at(most * 0.5 + 0.25, 0.5),
        at(SIZE_LIMIT, 0.5),
    ]
}

pub fn paths() -> Vec<Path> {
    let side = |length: f64| vec![0.0, 0.0, length, 0.0, length, length];
    let mut list = Vec::new();
    let mut add = |line: Vec<f64>, max: f64| list.push(Path { line, max });
    for max in around(&SPLIT).into_iter().chain([4.0]) {
        for line in [vec![], vec![3.0, 4.0], side(10.0), vec![1.0; 7]] {
            add(line, max);
        }
    }
    for length in [4.0, 6.0, 8.0, 12.0, 400.0 / 9.0, 44.5] {
        for ulps in -2..=2 {
            add(side(beside(length, ulps)), 4.0);
        }
    }
    for value in coordinates() {
        let mut line = side(10.0);
        line[3] = value;
        add(line.clone(), 1000.0);
        add(line, 0.25);
    }
    // The stagger and the bend go by the side's number: a fan of sides.
    add(flat(&stairs(40, 0.0)), 1.0);
    let zigzag: Vec<f64> = (0..20)
        .flat_map(|k| [f64::from(k), f64::from(k % 2) * 13.0])
        .collect();
    add(zigzag, 3.0);
    for corners in [CORNERS - 1, CORNERS, CORNERS + 1] {
        add(flat(&stairs(corners, 0.0)), 2.0);
        let mut odd = flat(&stairs(corners, 0.0));
        odd.pop();
        add(odd, 2.0);
    }
    // More points than memory holds.
    let far = [SIZE_LIMIT, SIZE_LIMIT, -SIZE_LIMIT, -SIZE_LIMIT];
    add(far.repeat(CORNERS / 2), 0.5);
    list
}

/// Every style, underlay, split and short stitches or none, on a ring.
fn every_kind() -> Vec<Column> {
    let mut list = Vec::new();
    for kind in 0..96 {
        list.push(Column {
            underlay: kind % 8,
            style: kind / 8 % 3,
            split: if kind / 24 % 2 == 0 { 0.0 } else { 7.0 },
            short_stitches: kind / 48 == 0,
            run_len: 9.0,
            ..Column::new(ring())
        });
    }
    list
}

fn settings() -> Vec<Column> {
    type Place = fn(&mut Column) -> &mut f64;
    let places: [(Place, RangeInclusive<f64>); 4] = [
        (|c| &mut c.spacing, SPACING),
        (|c| &mut c.pull, SHRINK),
        (|c| &mut c.run_len, LEN),
        (|c| &mut c.split, SPLIT),
    ];
    let mut list = Vec::new();
    for (place, range) in &places {
        for value in around(range) {
            let mut column = Column::new(ring());
            *place(&mut column) = value;
            list.push(column);
        }
    }
    for underlay in [8, 9, 255, 256, 1 << 32, (1 << 32) + 1, u64::MAX] {
        list.push(Column {
            underlay,
            ..Column::new(ring())
        });
    }
    for style in [0, 1, 2, 3, 1 << 32, u64::MAX] {
        list.push(Column {
            style,
            ..Column::new(ring())
        });
    }
    list
}

pub fn columns() -> Vec<Column> {
    let k10 = Column {
        spacing: 5.0,
        pull: 1.0,
        run_len: 5.0,
        split: 2.0,
        ..Column::new(Rails::bar(10.0, 10.0, 4.0))
    };
    let mut list = vec![k10];
    list.extend(every_kind());
    list.extend(settings());
    let plain = faulty_rails()
        .into_iter()
        .chain(synced())
        .chain(odd_rails());
    list.extend(plain.map(Column::new));
    list.extend(hair_windows().into_iter().map(|rails| Column {
        spacing: 1.0,
        ..Column::new(rails)
    }));
    list.extend(two_faults().into_iter().map(|(rails, setting)| Column {
        run_len: if setting { 0.5 } else { 5.0 },
        ..Column::new(rails)
    }));
    // Each pass in its turn has the most pairs.
    for (spacing, run_len) in [(2.0, 50.0), (50.0, 2.0), (100.0, 100.0)] {
        for underlay in 0..8 {
            list.push(Column {
                spacing,
                run_len,
                underlay,
                style: 2,
                ..Column::new(ring())
            });
        }
    }
    list
}

/// Each column's top, from either end.
fn tops_of(columns: Vec<Column>) -> Vec<Top> {
    let both = |column: Column| {
        [false, true].map(|far| Top {
            column: column.clone(),
            far,
        })
    };
    columns.into_iter().flat_map(both).collect()
}

pub fn tops() -> Vec<Top> {
    tops_of(columns())
}

pub fn large_tops() -> Vec<Top> {
    tops_of(large_columns())
}

/// n at its limit and one past it, in each pass; and a pass past it that isn't sewn.
pub fn large_columns() -> Vec<Column> {
    let most = PAIRS as f64;
    let bar = |length: f64| Rails::bar(length, length, 4.0);
    let coarse = |length: f64, underlay: u64| Column {
        spacing: 1000.0,
        run_len: 1000.0,
        underlay,
        ..Column::new(bar(length))
    };
    let mut list = Vec::new();
    for length in [most, most + 1.0] {
        for underlay in 0..4 {
            list.push(Column {
                run_len: 1.0,
                ..coarse(length, underlay)
            });
        }
    }
    for length in [most * 0.5, most * 0.5 + 0.25] {
        for style in [0, 1] {
            list.push(Column {
                spacing: 0.5,
                style,
                ..coarse(length, 0)
            });
        }
    }
    for length in [most * 1.5, most * 1.5 + 0.25] {
        list.push(Column {
            spacing: 0.5,
            style: 2,
            ..coarse(length, 0)
        });
    }
    // To and fro for 1,966,080 units: 30.0 apart that is the limit.
    for (turns, rest) in [(12, 166_080.0), (12, 166_081.0)] {
        let mut line = Vec::new();
        for k in 0..=turns {
            let x = if k % 2 == 0 { 0.0 } else { 150_000.0 };
            line.extend([x - 75_000.0, 0.0]);
        }
        line.extend([rest - 75_000.0, 0.0]);
        for underlay in [0, 4] {
            let rails = Rails {
                a: line.clone(),
                b: line.clone(),
                sync: Vec::new(),
            };
            list.push(Column {
                rails,
                ..coarse(0.0, underlay)
            });
        }
    }
    list
}
