//! Document 01's refusals, and those of requests [5] and [13], by name.

use std::fmt;

/// Why nothing was sewn or changed. WORK is not here, and ROOM only of a sheet
/// book, whose list is the caller's: other calls lend room until there is enough.
#[derive(Clone, Copy, Debug, PartialEq, Eq)]
pub enum Refusal {
    /// Too many rings, corners or sync points; or a sheet book's bad framing.
    Layout,
    /// A coordinate or sync value that is not finite, or over 100,000 in size.
    Number,
    /// A setting outside its range.
    Setting,
    /// A cosine and sine of no turn.
    Turn,
    /// Over 4,096 rows or cells, over 65,536 pairs in a pass, or over 1,000,000 records.
    Size,
    /// A sheet book whose list is too short for one more sheet.
    Room,
    /// A record of a DST file, by its number from 0, that is turned away.
    Record(u64),
    /// A DST file whose bytes run out before an end record.
    Cut,
    /// No sheet of that number stands.
    Absent,
    /// The sheet of that number is of a later version.
    Version,
}

impl Refusal {
    /// Its number in the table.
    pub fn number(self) -> u64 {
        match self {
            Refusal::Layout => 1,
            Refusal::Number => 2,
            Refusal::Setting => 3,
            Refusal::Turn => 4,
            Refusal::Size => 5,
            Refusal::Room => 7,
            Refusal::Record(_) => 8,
            Refusal::Cut => 9,
            Refusal::Absent => 10,
            Refusal::Version => 11,
        }
    }

    /// The refusal of a number that says all: not of 8, whose record is told beside it.
    pub(crate) fn of(number: u64) -> Refusal {
        match number {
            1 => Refusal::Layout,
            2 => Refusal::Number,
            3 => Refusal::Setting,
            4 => Refusal::Turn,
            5 => Refusal::Size,
            7 => Refusal::Room,
            9 => Refusal::Cut,
            10 => Refusal::Absent,
            11 => Refusal::Version,
            n => unreachable!("{n} is no refusal of a call with room enough"),
        }
    }
}

impl fmt::Display for Refusal {
    fn fmt(&self, f: &mut fmt::Formatter) -> fmt::Result {
        f.write_str(match self {
            Refusal::Layout => "too many rings, corners or sync points, or a bad framing",
            Refusal::Number => "a number that is not finite, or over 100,000",
            Refusal::Setting => "a setting outside its range",
            Refusal::Turn => "a cosine and sine of no turn",
            Refusal::Size => "too many rows, cells, pairs or records",
            Refusal::Room => "no room for one more sheet",
            Refusal::Record(n) => return write!(f, "record {n} is turned away"),
            Refusal::Cut => "no end record",
            Refusal::Absent => "no sheet of that number",
            Refusal::Version => "a sheet of a later version",
        })
    }
}

impl std::error::Error for Refusal {}
