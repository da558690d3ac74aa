//! The plain engine: `tatami` and the row list with no edge table (request [8]),
//! over the fill's inputs and boundaries, held to what the Rust owes with the plain
//! engine's own need.

use super::Function;
use super::fill::{function, listed_left, named, sample, sewn_left, timed_listing, timed_sewing};
use super::records::List;
use crate::ours::fill as ours;
use crate::owed::fill as owed;

pub fn functions() -> Vec<Function> {
    let sew = function(
        "plain_tatami",
        owed::plain_tatami_need,
        4,
        owed::plain_tatami,
        |f, words| sewn_left(f, words, ours::plain_tatami),
    );
    let list = function(
        "plain_row_list",
        owed::plain_row_list_need,
        5,
        owed::plain_row_list,
        |f, words| listed_left(f, words, ours::plain_row_list),
    );
    vec![
        timed_sewing(sew, named(), owed::plain_tatami_need, ours::plain_tatami),
        timed_listing(
            list,
            named(),
            owed::plain_row_list_need,
            ours::plain_row_list,
        ),
    ]
}

/// The replay list of the plain engine.
pub fn replay(list: &mut List) {
    let (sew, rows) = (owed::plain_tatami_need, owed::plain_row_list_need);
    sample(list, 0x53, "plain_tatami", sew, 4, owed::plain_tatami);
    sample(list, 0x54, "plain_row_list", rows, 5, owed::plain_row_list);
}
