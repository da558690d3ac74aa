//! Machine files.

use crate::raw::{beahcerot_dst, beahcerot_dst_read};
use crate::room::{Room, lend};
use crate::{P, Refusal, flat, points};

/// The DST records of these points, from (0, 0) on, with the end record; without the label block.
pub fn dst(points: &[P]) -> Result<Vec<u8>, Refusal> {
    let points = flat(points);
    lend(Room::output(3 * (points.len() / 2 + 1)), |room| {
        let mut out = vec![0; room.out];
        let mut count = 0;
        let answer = unsafe { call!(beahcerot_dst(in points, mut out, &mut count)) };
        out.truncate(count as usize);
        (answer, out)
    })
}

/// How the needle comes to a point of a file.
#[derive(Clone, Copy, Debug, PartialEq, Eq)]
pub enum Mark {
    Stitch,
    Jump,
    Stop,
}

/// A point of a file, and its mark.
#[derive(Clone, Copy, Debug, PartialEq)]
pub struct Marked {
    pub to: P,
    pub mark: Mark,
}

/// The points of these DST records, the end record and what follows it not among them.
pub fn dst_read(bytes: &[u8]) -> Result<Vec<Marked>, Refusal> {
    // A record is three bytes, so this is always room enough.
    let most = bytes.len() / 3;
    let (mut coordinates, mut marks) = (vec![0.0; 2 * most], vec![0; most]);
    let (mut count, mut number) = (0, 0);
    let answer = unsafe {
        call!(beahcerot_dst_read(in bytes, mut coordinates, mut marks, &mut count, &mut number))
    };
    match answer {
        0 => Ok(marked(&coordinates, &marks[..count as usize])),
        8 => Err(Refusal::Record(number)),
        n => Err(Refusal::of(n)),
    }
}

fn marked(coordinates: &[f64], marks: &[u64]) -> Vec<Marked> {
    let mark = |m: &u64| match m {
        0 => Mark::Stitch,
        1 => Mark::Jump,
        _ => Mark::Stop,
    };
    let all = points(coordinates).into_iter().zip(marks);
    all.map(|(to, m)| Marked { to, mark: mark(m) }).collect()
}
