//! What a call owes: document 01's checks in the table's order, then the
//! original's answer at the front of the lent slices.

pub mod fill;
pub mod satin;

use crate::expect::{LAYOUT, SIZE};

/// Stands in every lent word before a call, its place added, so that a word
/// that was moved is told from one that was left alone.
pub const MARK: u64 = 0x1234_5678_9abc_def0;

/// So many words in front of each lent slice and behind it are looked at too.
pub const MARGIN: usize = 4;

/// What a call leaves behind.
#[derive(PartialEq)]
pub struct Left {
    pub answer: u64,
    pub counts: Vec<u64>,
    /// The lent slices in bits, each with its margin: working slices, outputs.
    pub slices: Vec<Vec<u64>>,
}

/// A lent slice of so many words as it is before the call, with its margin.
pub fn fresh(words: usize) -> Vec<u64> {
    (0..words + 2 * MARGIN).map(|i| MARK + i as u64).collect()
}

/// The first `working` slices are all zero after 0, 6 and 7; the others have
/// the outputs in front.
fn left(
    answer: u64,
    lent: &[usize],
    working: usize,
    counts: Vec<u64>,
    outputs: &[Vec<u64>],
) -> Left {
    let mut slices: Vec<Vec<u64>> = lent.iter().map(|&n| fresh(n)).collect();
    if !(LAYOUT..=SIZE).contains(&answer) {
        for (slice, &words) in slices.iter_mut().zip(&lent[..working]) {
            slice[MARGIN..MARGIN + words].fill(0);
        }
    }
    for (slice, output) in slices[working..].iter_mut().zip(outputs) {
        slice[MARGIN..MARGIN + output.len()].copy_from_slice(output);
    }
    Left {
        answer,
        counts,
        slices,
    }
}

fn fits(need: &[usize], lent: &[usize]) -> bool {
    need.iter().zip(lent).all(|(need, lent)| need <= lent)
}
