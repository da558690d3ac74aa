//! The sheet book, by request [13]'s words.

use beahcerot::Refusal;
use beahcerot::book::{Sheet, fetch, remove, store};

const CANVAS: Sheet = Sheet {
    spacing: 4.0,
    len: 25.0,
    inset: -1.5,
    pull: 0.25,
    stagger: 4,
};

fn felt(spacing: f64) -> Sheet {
    Sheet { spacing, ..CANVAS }
}

/// The bytes that request [13] orders: length of what follows, version, number, values.
fn bytes(number: u16, sheet: &Sheet) -> Vec<u8> {
    let mut bytes = vec![0, 39, 1];
    bytes.extend(number.to_be_bytes());
    for x in [sheet.spacing, sheet.len, sheet.inset, sheet.pull] {
        bytes.extend(x.to_be_bytes());
    }
    bytes.extend((sheet.stagger as u32).to_be_bytes());
    bytes
}

#[test]
fn a_sheet_is_its_bytes() {
    let mut book = [0; 50];
    store(&mut book, 0x0102, &CANVAS).unwrap();
    assert_eq!(book[..41], bytes(0x0102, &CANVAS));
    assert_eq!(book[41..], [0; 9]);
    assert_eq!(fetch(&book, 0x0102), Ok(CANVAS));
}

#[test]
fn sheets_keep_their_order_and_a_removed_one_leaves_its_room() {
    let mut book = vec![0; 3 * 41];
    for number in [3, 1, 2] {
        store(&mut book, number, &CANVAS).unwrap();
    }
    assert_eq!(store(&mut book, 4, &CANVAS), Err(Refusal::Room));
    store(&mut book, 1, &felt(7.0)).unwrap();
    let [three, one, two] = [(3, CANVAS), (1, felt(7.0)), (2, CANVAS)].map(|(n, s)| bytes(n, &s));
    assert_eq!(book, [&three[..], &one, &two].concat());
    remove(&mut book, 3).unwrap();
    assert_eq!(book, [&one[..], &two, &[0; 41]].concat());
    store(&mut book, 4, &felt(9.0)).unwrap();
    assert_eq!(book, [&one[..], &two, &bytes(4, &felt(9.0))].concat());
}

#[test]
fn a_change_zeroes_what_is_behind_the_last() {
    let mut book = [bytes(1, &CANVAS), vec![0, 0, 9, 9, 9]].concat();
    store(&mut book, 1, &CANVAS).unwrap();
    assert_eq!(book, [bytes(1, &CANVAS), vec![0; 5]].concat());
}

/// Each refusal, and that it changes nothing.
#[test]
fn refusals_in_their_order() {
    let bad = felt(0.25);
    let later = vec![0, 4, 2, 0, 9, 77];
    let book = [later.clone(), bytes(1, &CANVAS), bytes(2, &bad)].concat();
    let stored = |list: &[u8], number, sheet| {
        let mut after = list.to_vec();
        let said = store(&mut after, number, sheet);
        assert!(said.is_ok() || after == list);
        said
    };
    let removed = |list: &[u8], number| {
        let mut after = list.to_vec();
        let said = remove(&mut after, number);
        assert!(said.is_ok() || after == list);
        said
    };
    // LAYOUT first
    for broken in [&book[..book.len() - 1], &[0, 2, 1, 0][..], &[0, 3, 0, 0, 1]] {
        assert_eq!(stored(broken, 1, &bad), Err(Refusal::Layout));
        assert_eq!(fetch(broken, 1), Err(Refusal::Layout));
        assert_eq!(removed(broken, 1), Err(Refusal::Layout));
    }
    // SETTING, stored or fetched
    assert_eq!(stored(&book, 9, &bad), Err(Refusal::Setting));
    assert_eq!(fetch(&book, 2), Err(Refusal::Setting));
    // ABSENT and VERSION
    assert_eq!(fetch(&book, 5), Err(Refusal::Absent));
    assert_eq!(removed(&book, 5), Err(Refusal::Absent));
    assert_eq!(fetch(&book, 9), Err(Refusal::Version));
    assert_eq!(removed(&book, 9), Err(Refusal::Version));
    assert_eq!(stored(&book, 9, &CANVAS), Err(Refusal::Version));
    // ROOM: the list is full, but a sheet that stands can be replaced
    assert_eq!(stored(&book, 5, &CANVAS), Err(Refusal::Room));
    assert_eq!(stored(&book, 2, &CANVAS), Ok(()));
    assert_eq!(removed(&book, 2), Ok(()));
}

/// Thousands of changes, beside a plain list of numbers and sheets.
#[test]
fn a_long_day() {
    let mut book = vec![0; 41 * 5 + 7];
    let mut kept: Vec<(u16, Sheet)> = Vec::new();
    let mut random = 1u64;
    for turn in 0..20_000 {
        random = random.wrapping_mul(6364136223846793005).wrapping_add(1);
        let number = (random >> 40) as u16 % 8;
        let at = kept.iter().position(|(n, _)| *n == number);
        if random >> 62 == 0 {
            let said = remove(&mut book, number);
            match at {
                Some(at) => drop((said.unwrap(), kept.remove(at))),
                None => assert_eq!(said, Err(Refusal::Absent)),
            }
        } else {
            let sheet = felt(1.0 + f64::from(turn % 900));
            let said = store(&mut book, number, &sheet);
            match at {
                Some(at) => drop((said.unwrap(), kept[at] = (number, sheet))),
                None if kept.len() == 5 => assert_eq!(said, Err(Refusal::Room)),
                None => drop((said.unwrap(), kept.push((number, sheet)))),
            }
        }
        for number in 0..8 {
            let found = kept.iter().find(|(n, _)| *n == number);
            let wanted = found.map(|(_, sheet)| *sheet).ok_or(Refusal::Absent);
            assert_eq!(fetch(&book, number), wanted);
        }
    }
}
