//! A job's bytes through the archive, told as the program tells it.

use crate::job::{LENT, listing};
use crate::ours::fill::{Sewn, Work, fill_job, fill_job2};

/// What the program lends to a fill.
struct Lent {
    floats: Vec<f64>,
    wholes: Vec<u64>,
    points: Vec<f64>,
    section_ends: Vec<u64>,
    sections: u64,
    count: u64,
}

impl Lent {
    fn new() -> Self {
        let [floats, wholes, points, ends] = LENT;
        Lent {
            floats: vec![0.0; floats],
            wholes: vec![0; wholes],
            points: vec![0.0; points],
            section_ends: vec![0; ends],
            sections: 0,
            count: 0,
        }
    }

    fn parts(&mut self) -> (Work<'_>, Sewn<'_>) {
        let work = Work {
            floats: &mut self.floats,
            wholes: &mut self.wholes,
        };
        let out = Sewn {
            points: &mut self.points,
            section_ends: &mut self.section_ends,
            sections: &mut self.sections,
            count: &mut self.count,
        };
        (work, out)
    }

    fn listing(self, answer: u64) -> String {
        let points: Vec<u64> = self.points.into_iter().map(f64::to_bits).collect();
        let ends = &self.section_ends[..self.sections as usize];
        listing(answer, self.count, &points, ends)
    }
}

/// What the archive makes of a version 1 job, lent what the program lends.
pub fn filled1(bytes: &[u8]) -> String {
    let mut lent = Lent::new();
    let (work, out) = lent.parts();
    let answer = fill_job(bytes, work, out);
    lent.listing(answer)
}

/// What it makes of a version 2 job: both listings.
pub fn filled2(bytes: &[u8]) -> String {
    let [mut table, mut first, mut second] = [(); 3].map(|()| Lent::new());
    let (work, out) = first.parts();
    let (work2, out2) = second.parts();
    let [answer, answer2] = fill_job2(bytes, table.parts().0, [work, work2], [out, out2]);
    first.listing(answer) + &second.listing(answer2)
}
