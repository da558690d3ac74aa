//! The machines' sheet book: each cloth's settings by number, kept as bytes in one list. The list is the caller's, and so is
//! its size: a book of zeros is empty, 41 bytes are room for a sheet. A refusal changes no byte.

use crate::Refusal;
use crate::raw::{beahcerot_book_fetch, beahcerot_book_remove, beahcerot_book_store};

/// A cloth's settings.
#[derive(Clone, Copy, Debug, Default, PartialEq)]
pub struct Sheet {
    pub spacing: f64,
    pub len: f64,
    pub inset: f64,
    pub pull: f64,
    pub stagger: u64,
}

/// Puts a sheet in the place of the one with that number, or behind the last.
pub fn store(book: &mut [u8], number: u16, sheet: &Sheet) -> Result<(), Refusal> {
    done(unsafe {
        call!(beahcerot_book_store(
            mut book, number, sheet.spacing, sheet.len, sheet.inset, sheet.pull, sheet.stagger
        ))
    })
}

/// The sheet with that number.
pub fn fetch(book: &[u8], number: u16) -> Result<Sheet, Refusal> {
    let mut sheet = Sheet::default();
    done(unsafe {
        call!(beahcerot_book_fetch(
            in book, number, &mut sheet.spacing, &mut sheet.len, &mut sheet.inset,
            &mut sheet.pull, &mut sheet.stagger
        ))
    })?;
    Ok(sheet)
}

/// Takes the sheet with that number out; those behind it move forward.
pub fn remove(book: &mut [u8], number: u16) -> Result<(), Refusal> {
    done(unsafe { call!(beahcerot_book_remove(mut book, number)) })
}

fn done(answer: u64) -> Result<(), Refusal> {
    match answer {
        0 => Ok(()),
        n => Err(Refusal::of(n)),
    }
}
