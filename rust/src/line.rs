//! Running stitch.

use crate::raw::beahcerot_running;
use crate::room::sewn_along;
use crate::{P, Polyline, Refusal};

/// Running stitch along `line`, `passes` times back and forth (odd = ends at the far end).
/// Each pass goes through the drawn corners, bit for bit; zigzag may miss one by a hair.
/// A corner less than 1e-9 from the one before it is passed over.
pub fn running(line: &[P], closed: bool, len: f64, passes: u32) -> Result<Polyline, Refusal> {
    sewn_along(line, |line, out, count| unsafe {
        call!(beahcerot_running(in line, closed, len, passes.into(), mut out, count))
    })
}
