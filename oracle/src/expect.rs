//! Document 01's numbers and limits, in Rust: what a call owes before its
//! answer. Written from the table alone, so that it can disagree with ours.

pub const DONE: u64 = 0;
pub const NUMBER: u64 = 2;

pub use limits::*;

mod limits {
    use super::*;
    use std::ops::RangeInclusive;
    use zigzag::geom::P;
    use zigzag::satin::Rails;

    pub const LAYOUT: u64 = 1;
    pub const SETTING: u64 = 3;
    pub const TURN: u64 = 4;
    pub const SIZE: u64 = 5;
    pub const WORK: u64 = 6;
    pub const ROOM: u64 = 7;

    pub const RINGS: usize = 255;
    pub const CORNERS: usize = 1024;
    pub const SIZE_LIMIT: f64 = 100_000.0;
    pub const STEP: RangeInclusive<f64> = 0.5..=1000.0;
    pub const LEN: RangeInclusive<f64> = 1.0..=1000.0;
    pub const PASSES: RangeInclusive<u64> = 0..=64;
    pub const SPACING: RangeInclusive<f64> = 0.5..=1000.0;
    pub const SHRINK: RangeInclusive<f64> = -100.0..=100.0; // inset and pull
    pub const STAGGER: RangeInclusive<u64> = 0..=1000;
    pub const ROWS: i64 = 4096;
    pub const CELL: RangeInclusive<f64> = 1.0..=1000.0;
    pub const CELLS: f64 = 4096.0;
    pub const SYNCS: usize = 256;
    pub const SPLIT: RangeInclusive<f64> = 0.5..=1000.0; // or 0, where a split may be absent
    pub const UNDERLAY: RangeInclusive<u64> = 0..=7;
    pub const PAIRS: u64 = 65_536;

    /// The number of the first check that doesn't hold, in the table's order.
    pub fn first(checks: &[(u64, bool)]) -> u64 {
        checks
            .iter()
            .find(|(_, holds)| !holds)
            .map_or(DONE, |(no, _)| *no)
    }

    pub fn outline(corners: &[f64], ends: &[u64]) -> bool {
        corners.len() % 2 == 0
            && corners.len() / 2 <= CORNERS
            && ends.len() <= RINGS
            && ends.is_sorted()
            && ends.last().copied().unwrap_or(0) == corners.len() as u64 / 2
    }

    pub fn line(corners: &[f64]) -> bool {
        corners.len() % 2 == 0 && corners.len() / 2 <= CORNERS
    }

    pub fn sync(list: &[f64]) -> bool {
        list.len() % 2 == 0 && list.len() / 2 <= SYNCS
    }

    pub fn numbers(list: &[f64]) -> bool {
        list.iter().all(|x| x.is_finite() && x.abs() <= SIZE_LIMIT)
    }

    pub fn turn(c: f64, s: f64) -> bool {
        let square = c * c + s * s;
        c.is_finite() && s.is_finite() && (0.999999..=1.000001).contains(&square)
    }

    /// Cells run from floor to ceiling, the upper end excluded: at most 4,096
    /// either way. Asked of accepted corners only, whose cells are small whole numbers.
    pub fn cells(corners: &[f64], cell: f64) -> bool {
        let across = |from: usize| {
            let list = || corners.iter().skip(from).step_by(2).copied();
            let lo = list().fold(f64::INFINITY, f64::min);
            let hi = list().fold(f64::NEG_INFINITY, f64::max);
            (hi / cell).ceil() - (lo / cell).floor()
        };
        across(0) <= CELLS && across(1) <= CELLS
    }

    /// How many points `resample_keep_corners` gives, without making them: a
    /// line of the greatest size has more than memory holds. Saturating, because
    /// it is also asked of settings that are then refused.
    pub fn resample_points(pts: &[P], len: f64) -> u64 {
        let pieces: u64 = pts
            .windows(2)
            .map(|w| w[0].dist(w[1]))
            .filter(|d| *d >= 1e-9)
            .map(|d| (d / len).ceil().max(1.0) as u64)
            .fold(0, u64::saturating_add);
        pieces.saturating_add(u64::from(!pts.is_empty()))
    }

    pub fn running_points(pts: &[P], closed: bool, len: f64, passes: u64) -> u64 {
        let mut base = pts.to_vec();
        if closed && base.len() > 2 {
            base.push(base[0]);
        }
        let one = resample_points(&base, len);
        let more = (passes.max(1) - 1).saturating_mul(one.saturating_sub(1));
        one.saturating_add(more)
    }

    /// The n of `pairs`, without making them: each rail's length, the sync
    /// points that are kept, and the centre length of all windows together.
    pub fn steps(r: &Rails, step: f64) -> u64 {
        let ends = (arc_length(&r.a), arc_length(&r.b));
        let mut from = (0.0, 0.0);
        let mut total = 0.0;
        let mut window = |to: (f64, f64)| {
            total += ((to.0 - from.0) + (to.1 - from.1)) * 0.5;
            from = to;
        };
        let mut last = (0.0, 0.0);
        for &(a, b) in &r.sync {
            if a > last.0 && b > last.1 && a < ends.0 && b < ends.1 {
                last = (a, b);
                window(last);
            }
        }
        window(ends);
        (total / step).ceil().max(1.0) as u64
    }

    pub fn arc_length(pts: &[P]) -> f64 {
        pts.windows(2).fold(0.0, |s, w| s + w[0].dist(w[1]))
    }

    /// How many points `split_long` gives, without making them.
    pub fn split_points(pts: &[P], max: f64) -> u64 {
        let parts = |w: &[P]| ((w[0].dist(w[1]) / max).ceil() as u64).max(1);
        let all = pts.windows(2).map(parts).fold(0, u64::saturating_add);
        all.saturating_add(u64::from(!pts.is_empty()))
    }
}
