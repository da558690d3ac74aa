//! The sheet book in plain Rust, from request [13]'s words alone, so that it can disagree with ours.

use crate::expect::{LAYOUT, LEN, ROOM, SETTING, SHRINK, SPACING, STAGGER};
use std::collections::BTreeSet;

pub const ABSENT: u64 = 10;
pub const VERSION: u64 = 11;

#[derive(Clone, Copy)]
pub struct Values {
    pub spacing: f64,
    pub len: f64,
    pub inset: f64,
    pub pull: f64,
    pub stagger: u64,
}

impl Values {
    fn good(&self) -> bool {
        SPACING.contains(&self.spacing)
            && LEN.contains(&self.len)
            && SHRINK.contains(&self.inset)
            && SHRINK.contains(&self.pull)
            && STAGGER.contains(&self.stagger)
    }

    /// Of a version 1 sheet, whose values have 36 bytes.
    fn read(bytes: &[u8]) -> Values {
        let float = |at: usize| f64::from_be_bytes(bytes[at..at + 8].try_into().unwrap());
        Values {
            spacing: float(0),
            len: float(8),
            inset: float(16),
            pull: float(24),
            stagger: u32::from_be_bytes(bytes[32..].try_into().unwrap()).into(),
        }
    }

    pub fn bytes(&self) -> Vec<u8> {
        let floats = [self.spacing, self.len, self.inset, self.pull];
        let mut bytes: Vec<u8> = floats.iter().flat_map(|x| x.to_be_bytes()).collect();
        bytes.extend((self.stagger as u32).to_be_bytes());
        bytes
    }
}

#[derive(Clone)]
pub struct Sheet {
    pub version: u8,
    pub number: u16,
    /// What follows the number: the values of a version 1 sheet, anything of a later one.
    pub rest: Vec<u8>,
}

/// The sheets' bytes, one behind the other.
pub fn bytes(sheets: &[Sheet]) -> Vec<u8> {
    let one = |s: &Sheet| {
        let [high, low] = s.number.to_be_bytes();
        let length = (3 + s.rest.len() as u16).to_be_bytes();
        [&length, &[s.version, high, low][..], &s.rest].concat()
    };
    sheets.iter().flat_map(one).collect()
}

/// The sheets of a list, or LAYOUT.
pub fn sheets(list: &[u8]) -> Result<Vec<Sheet>, u64> {
    let mut sheets = Vec::new();
    let mut numbers = BTreeSet::new();
    let mut rest = list;
    while let [a, b, after @ ..] = rest {
        let length = usize::from(u16::from_be_bytes([*a, *b]));
        if length == 0 {
            break;
        }
        if length > after.len() {
            return Err(LAYOUT);
        }
        let (sheet, behind) = after.split_at(length);
        let [version, high, low, values @ ..] = sheet else {
            return Err(LAYOUT);
        };
        let number = u16::from_be_bytes([*high, *low]);
        let wrong = match version {
            0 => true,
            1 => values.len() != 36,
            _ => false,
        };
        if wrong || !numbers.insert(number) {
            return Err(LAYOUT);
        }
        sheets.push(Sheet {
            version: *version,
            number,
            rest: values.to_vec(),
        });
        rest = behind;
    }
    Ok(sheets)
}

pub fn fetch(list: &[u8], number: u16) -> Result<Values, u64> {
    let sheets = sheets(list)?;
    let sheet = sheets.iter().find(|s| s.number == number).ok_or(ABSENT)?;
    if sheet.version > 1 {
        return Err(VERSION);
    }
    let values = Values::read(&sheet.rest);
    if values.good() {
        Ok(values)
    } else {
        Err(SETTING)
    }
}

/// What the list holds after a change: these sheets, and zeros.
fn changed(list: &[u8], sheets: &[Sheet]) -> Result<Vec<u8>, u64> {
    let mut after = bytes(sheets);
    if after.len() > list.len() {
        return Err(ROOM);
    }
    after.resize(list.len(), 0);
    Ok(after)
}

pub fn store(list: &[u8], number: u16, values: &Values) -> Result<Vec<u8>, u64> {
    let mut sheets = sheets(list)?;
    if !values.good() {
        return Err(SETTING);
    }
    let new = Sheet {
        version: 1,
        number,
        rest: values.bytes(),
    };
    match sheets.iter_mut().find(|s| s.number == number) {
        Some(old) if old.version > 1 => return Err(VERSION),
        Some(old) => *old = new,
        None => sheets.push(new),
    }
    changed(list, &sheets)
}

pub fn remove(list: &[u8], number: u16) -> Result<Vec<u8>, u64> {
    let mut sheets = sheets(list)?;
    let at = sheets.iter().position(|s| s.number == number);
    let at = at.ok_or(ABSENT)?;
    if sheets[at].version > 1 {
        return Err(VERSION);
    }
    sheets.remove(at);
    changed(list, &sheets)
}
