//! Room lent until there is enough. The library says WORK or ROOM exactly when
//! what it was lent is too short, and touches no output then, so that asking
//! again with more is all there is to do. How much a satin call needs to work
//! in the library says itself.

use crate::{P, Polyline, Refusal, flat, points};

pub const DONE: u64 = 0;
pub const WORK: u64 = 6;
pub const ROOM: u64 = 7;

/// How much is lent: elements of each working slice, and of each output.
#[derive(Clone, Copy)]
pub struct Room {
    pub work: usize,
    pub out: usize,
}

impl Room {
    /// For a call that has no working slice.
    pub fn output(out: usize) -> Room {
        Room { work: 0, out }
    }

    /// Enough to work in, by a room call of the library; and twice as much for
    /// the output, which is enough for a column that is neither split nor bent.
    pub fn said(call: impl FnOnce(&mut u64) -> u64) -> Result<Room, Refusal> {
        let mut floats = 0;
        match call(&mut floats) {
            DONE => Ok(Room {
                work: floats as usize,
                out: 2 * floats as usize,
            }),
            number => Err(Refusal::of(number)),
        }
    }
}

/// Calls until neither WORK nor ROOM is said.
pub fn lend<T>(mut room: Room, mut call: impl FnMut(Room) -> (u64, T)) -> Result<T, Refusal> {
    loop {
        match call(room) {
            (DONE, sewn) => return Ok(sewn),
            (WORK, _) => room.work = 2 * room.work + 64,
            (ROOM, _) => room.out = 2 * room.out + 64,
            (number, _) => return Err(Refusal::of(number)),
        }
    }
}

/// The points of a call that sews one line: it is lent a working slice and an output, and stores how many points it wrote.
pub fn sewn(
    room: Room,
    mut call: impl FnMut(&mut [f64], &mut [f64], &mut u64) -> u64,
) -> Result<Polyline, Refusal> {
    lend(room, |room| {
        let (mut work, mut out) = (vec![0.0; room.work], vec![0.0; room.out]);
        let mut count = 0;
        let answer = call(&mut work, &mut out, &mut count);
        (answer, points(&out[..2 * count as usize]))
    })
}

/// The same of a call along a line that has no working slice.
pub fn sewn_along(
    pts: &[P],
    mut call: impl FnMut(&[f64], &mut [f64], &mut u64) -> u64,
) -> Result<Polyline, Refusal> {
    let line = flat(pts);
    sewn(Room::output(4 * line.len()), |_, out, count| {
        call(&line, out, count)
    })
}
