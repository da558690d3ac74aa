//! Salvaging in plain Rust, from request [11]'s words alone, so that it can disagree with ours.

use std::collections::BTreeMap;
use zigzag::geom::{P, Polyline};

/// What is left, in as many rings, and why each dropped corner went, by its place over all rings.
pub struct Salvaged {
    pub rings: Vec<Polyline>,
    pub dropped: BTreeMap<u64, u64>,
}

pub fn salvage(rings: &[Polyline]) -> Salvaged {
    let mut dropped = BTreeMap::new();
    let mut place = 0;
    let mut mend = |ring: &Polyline| -> Polyline {
        let mut left: Vec<(u64, P)> = Vec::new();
        for &p in ring {
            match stray(left.last().map(|(_, q)| *q), p) {
                Some(reason) => {
                    dropped.insert(place, reason);
                }
                None => left.push((place, p)),
            }
            place += 1;
        }
        if let [(_, first), .., (at, last)] = left[..] {
            if same(first, last) {
                dropped.insert(at, 4);
                left.pop();
            }
        }
        if left.len() < 3 {
            dropped.extend(left.drain(..).map(|(at, _)| (at, 5)));
        }
        left.into_iter().map(|(_, p)| p).collect()
    };
    let rings = rings.iter().map(&mut mend).collect();
    Salvaged { rings, dropped }
}

fn stray(last: Option<P>, p: P) -> Option<u64> {
    if !p.x.is_finite() || !p.y.is_finite() {
        return Some(1);
    }
    if p.x.abs() > 100_000.0 || p.y.abs() > 100_000.0 {
        return Some(2);
    }
    last.is_some_and(|q| same(q, p)).then_some(3)
}

/// In bits: -0 and +0 are two.
fn same(p: P, q: P) -> bool {
    (p.x.to_bits(), p.y.to_bits()) == (q.x.to_bits(), q.y.to_bits())
}
