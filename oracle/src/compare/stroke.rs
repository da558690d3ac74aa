//! Running stitch.

use super::geom::{Cut, EACH, gave, lent, line_call, plain_line, written};
use super::records::{self, Call, List};
use super::{Function, Operands, Written, no_tie};
use crate::expect::{self, LEN, PASSES, SETTING};
use crate::inputs::{lines, numbers::setting, outlines::points};
use crate::ours::stroke as ours;
use crate::rng::Rng;
use zigzag::stroke;

pub fn functions() -> Vec<Function> {
    vec![running()]
}

struct Run {
    cut: Cut,
    closed: bool,
    passes: u64,
}

impl Operands for Run {
    fn size(&self) -> (usize, u64) {
        let (corners, numbers) = self.cut.size();
        (corners, numbers + self.passes.min(100))
    }
    fn show(&self) -> String {
        let (cut, closed, passes) = (self.cut.show(), self.closed, self.passes);
        format!("{cut} closed {closed} passes {passes:x}")
    }
}

fn make(rng: &mut Rng, _: u64) -> Run {
    let len = setting(rng, LEN);
    let line = lines::any(rng, len);
    let closed = rng.one_in(2);
    let passes = match rng.below(12) {
        0 => 64,
        1 => 65,
        2 => rng.pick(&[1 << 32, (1 << 32) + 1, u64::MAX]), // small in 32 bits
        3 => rng.below(65),
        _ => rng.below(5),
    };
    let count = expect::running_points(&points(&line), closed, len, passes);
    let room = lines::room(rng, count);
    Run {
        cut: Cut { line, len, room },
        closed,
        passes,
    }
}

fn running_owed(r: &Run) -> Written {
    let pts = points(&r.cut.line);
    let (closed, len, passes) = (r.closed, r.cut.len, r.passes);
    let [layout, number, setting] = r.cut.checks();
    let passed = (SETTING, PASSES.contains(&passes));
    written(
        expect::first(&[layout, number, setting, passed]),
        || expect::running_points(&pts, closed, len, passes),
        r.cut.room,
        || stroke::running_to_corners(&pts, closed, len, passes as u32),
    )
}

fn running() -> Function {
    Function::new(
        "running",
        make,
        running_owed,
        |r| {
            gave(r.cut.room, |out, count| {
                ours::running(&r.cut.line, r.closed, r.cut.len, r.passes, out, count)
            })
        },
        no_tie,
    )
    .timed(
        plain_line,
        |(_, pts)| stroke::running(pts, true, 25.0, 3),
        lent(|(line, _), out, count| ours::running(line, true, 25.0, 3, out, count)),
    )
}

/// The replay list of running stitch.
pub fn replay(list: &mut List) {
    let any = |rng: &mut Rng| make(rng, 0);
    list.sample("running", EACH, vec![], any, |r| {
        let call = Call {
            wholes: vec![r.closed.into(), r.passes],
            ..line_call(0x42, &r.cut)?
        };
        Some((call, records::written(&running_owed(r))?))
    });
}
