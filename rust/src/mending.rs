//! Outlines that arrive broken.

use crate::raw::beahcerot_salvage;
use crate::room::{Room, lend};
use crate::{Polyline, Refusal, lines, outline};

/// Why a corner was dropped.
#[derive(Clone, Copy, Debug, PartialEq, Eq)]
pub enum Reason {
    NotFinite,
    /// Over 100,000 in size.
    Beyond,
    /// Equal to the last kept corner of its ring.
    Repeated,
    /// The last of its ring, and equal to the first.
    Closing,
    /// Its ring was left with under 3.
    Few,
}

impl Reason {
    fn of(number: usize) -> Reason {
        match number {
            1 => Reason::NotFinite,
            2 => Reason::Beyond,
            3 => Reason::Repeated,
            4 => Reason::Closing,
            _ => Reason::Few,
        }
    }
}

/// A dropped corner: its place among the corners of all rings, from 0, and why.
#[derive(Clone, Copy, Debug, PartialEq, Eq)]
pub struct Dropped {
    pub place: usize,
    pub reason: Reason,
}

/// The rings without their stray corners, as many as were given, and the corners that were dropped, in place order.
pub fn salvage(rings: &[Polyline]) -> Result<(Vec<Polyline>, Vec<Dropped>), Refusal> {
    let (corners, ends) = outline(rings);
    // No list of an answer is longer than the two that are given.
    lend(Room::output(corners.len() + ends.len()), |room| {
        let (mut keep, mut stops) = (vec![0.0; room.out], vec![0; room.out]);
        let (mut places, mut reasons) = (vec![0; room.out], vec![0; room.out]);
        let (mut count, mut dropped) = (0, 0);
        let answer = unsafe {
            call!(beahcerot_salvage(
                in corners, in ends, mut keep, mut stops, mut places, mut reasons, &mut count,
                &mut dropped
            ))
        };
        if answer != 0 {
            return (answer, (Vec::new(), Vec::new()));
        }
        let told = places.iter().zip(&reasons).take(dropped as usize);
        let told = told.map(|(&place, &reason)| Dropped {
            place,
            reason: Reason::of(reason),
        });
        (answer, (lines(&keep, &stops[..ends.len()]), told.collect()))
    })
}
