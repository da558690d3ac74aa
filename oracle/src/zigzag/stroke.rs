// From simpsoka/zigzag at 81825c4812, src/stitch/stroke.rs, Apache-2.0, see NOTICE.
// Only the parts that Beahcerot ports; the text is the original's but where a
// comment says "completed", "added" or "left out" (document 01).

//! Running stitch along a line (satin columns live in `satin.rs`).

use crate::geom::{P, Polyline, resample_keep_corners, resample_to_corners};

/// Running stitch along `line`, `passes` times back and forth (odd = ends at the far end).
pub fn running(line: &[P], closed: bool, len: f64, passes: u32) -> Polyline {
    running_by(line, closed, passes, |base| {
        resample_keep_corners(base, len)
    })
}

// added (request [7]): the same over `resample_to_corners`.
pub fn running_to_corners(line: &[P], closed: bool, len: f64, passes: u32) -> Polyline {
    running_by(line, closed, passes, |base| resample_to_corners(base, len))
}

// added (request [7]): the original `running`, which is told how a line is resampled.
fn running_by(
    line: &[P],
    closed: bool,
    passes: u32,
    resample: impl Fn(&[P]) -> Polyline,
) -> Polyline {
    let mut base: Polyline = line.to_vec();
    if closed && base.len() > 2 {
        base.push(base[0]);
    }
    let one = resample(&base);
    let mut out = one.clone();
    for pass in 1..passes.max(1) {
        if pass % 2 == 1 {
            out.extend(one.iter().rev().skip(1));
        } else {
            out.extend(one.iter().skip(1));
        }
    }
    out
}
