//! DST records in plain Rust, from the words of requests [1] and [5] alone, so that it can disagree with ours.

const END: [u8; 3] = [0x00, 0x00, 0xf3];
const LONGEST: i64 = 121;

/// What bits 0 to 7 of the first byte stand for, and of the second.
const FIRST: [&str; 8] = ["x+1", "x-1", "x+9", "x-9", "y-9", "y+9", "y-1", "y+1"];
const SECOND: [&str; 8] = ["x+3", "x-3", "x+27", "x-27", "y-27", "y+27", "y-3", "y+3"];
/// Of the third; the two fixed bits are always there, a stop is never written.
const THIRD: [&str; 8] = ["1", "1", "x+81", "x-81", "y-81", "y+81", "stop", "jump"];

/// The file of these coordinates, x before y.
pub fn file(coordinates: &[f64]) -> Vec<u8> {
    let mut bytes = Vec::new();
    let mut needle = (0, 0);
    for point in coordinates.chunks_exact(2) {
        // `round` takes halves away from zero.
        let next = (point[0].round() as i64, point[1].round() as i64);
        let (dx, dy) = (next.0 - needle.0, next.1 - needle.1);
        let n = (1..).find(|n| fits(dx, *n) && fits(dy, *n)).unwrap();
        let mut from = needle;
        for i in 1..=n {
            // Rust's `/` rounds toward zero.
            let to = (needle.0 + i * dx / n, needle.1 + i * dy / n);
            bytes.extend(record(to.0 - from.0, to.1 - from.1, i < n));
            from = to;
        }
        needle = next;
    }
    bytes.extend(END);
    bytes
}

/// Whether each of n equal parts is at most 121 either way.
fn fits(move_by: i64, n: i64) -> bool {
    move_by.abs() <= LONGEST * n
}

fn record(dx: i64, dy: i64, jump: bool) -> [u8; 3] {
    let mut named = vec!["1".to_string()];
    named.extend(weights('x', dx));
    named.extend(weights('y', dy));
    if jump {
        named.push("jump".to_string());
    }
    [FIRST, SECOND, THIRD].map(|bits| {
        let set = |(at, bit): (usize, &&str)| u8::from(named.iter().any(|n| n == bit)) << at;
        bits.iter().enumerate().map(set).sum()
    })
}

/// The signed weights that make up a move, largest first: each is taken where
/// those below it cannot reach.
fn weights(axis: char, move_by: i64) -> Vec<String> {
    let mut rest = move_by;
    let mut named = Vec::new();
    for weight in [81, 27, 9, 3, 1] {
        if rest.abs() > (weight - 1) / 2 {
            named.push(format!("{axis}{:+}", weight * rest.signum()));
            rest -= weight * rest.signum();
        }
    }
    assert_eq!(rest, 0, "a move beyond {LONGEST}");
    named
}

const SIZE: u64 = 5;
const RECORD: u64 = 8;
const CUT: u64 = 9;
const MOST: usize = 1_000_000;

pub struct Refused {
    pub answer: u64,
    /// Of RECORD, the record's.
    pub number: u64,
}

/// The points of a file's records: where each is, and 0 for a stitch, 1 for a jump, 2 for a stop.
pub fn read(bytes: &[u8]) -> Result<Vec<(i64, i64, u64)>, Refused> {
    let refused = |answer, number| Err(Refused { answer, number });
    let mut points = Vec::new();
    let mut needle = (0, 0);
    for record in bytes.chunks_exact(3) {
        if record == END {
            return Ok(points);
        }
        if points.len() == MOST {
            return refused(SIZE, 0);
        }
        let Some((dx, dy, mark)) = said(record) else {
            return refused(RECORD, points.len() as u64);
        };
        needle = (needle.0 + dx, needle.1 + dy);
        points.push((needle.0, needle.1, mark));
    }
    refused(CUT, 0)
}

/// What a record says, or nothing where it is turned away.
fn said(record: &[u8]) -> Option<(i64, i64, u64)> {
    let (mut fixed, mut stop, mut jump) = (0, false, false);
    let (mut xs, mut ys) = (Vec::new(), Vec::new());
    for (byte, names) in record.iter().zip([FIRST, SECOND, THIRD]) {
        for (_, name) in names
            .iter()
            .enumerate()
            .filter(|(at, _)| byte >> at & 1 == 1)
        {
            match name.split_at(1) {
                ("1", _) => fixed += 1,
                ("x", weight) => xs.push(weight.parse::<i64>().unwrap()),
                ("y", weight) => ys.push(weight.parse().unwrap()),
                ("s", _) => stop = true,
                _ => jump = true,
            }
        }
    }
    let both_signs = |list: &[i64]| list.iter().any(|w| list.contains(&-w));
    if both_signs(&xs) || both_signs(&ys) || fixed < 2 || stop && !jump {
        return None;
    }
    let mark = u64::from(jump) + u64::from(stop);
    Some((xs.iter().sum(), ys.iter().sum(), mark))
}
