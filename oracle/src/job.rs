//! A job's bytes, and what is owed for them by document 01 and the original.

use crate::inputs::fills::Fill;
use crate::inputs::outlines::Outline;
use crate::owed::fill::Equal;
use crate::owed::{self, MARGIN};

pub const LAYOUT: &str = "1 0 0\n";

/// What the program lends: floats, wholes, two floats for a point, sections.
pub const LENT: [usize; 4] = [8192, 8192, 2 * 4096, 512];

/// A version 1 job's bytes before its rings; a version 2 job has the second fill's there.
const HEAD: usize = 60;

/// The job of a fill, where document 01's framing can say it.
pub fn job(f: &Fill) -> Option<Vec<u8>> {
    let (corners, ends) = (&f.outline.corners, &f.outline.ends);
    let framed = f.rule <= 1
        && corners.len() % 2 == 0
        && ends.is_sorted()
        && ends.last().copied().unwrap_or(0) == corners.len() as u64 / 2;
    if !framed {
        return None;
    }
    let mut body = vec![1, f.rule as u8, f.bottom_up.into()];
    body.push(u8::try_from(ends.len()).ok()?);
    body.extend(u32::try_from(f.stagger).ok()?.to_be_bytes());
    for x in [f.cosine, f.sine, f.spacing, f.len, f.inset, f.pull] {
        body.extend(x.to_be_bytes());
    }
    for ring in f.outline.rings() {
        body.extend(u16::try_from(ring.len()).ok()?.to_be_bytes());
        body.extend(
            ring.iter()
                .flat_map(|p| [p.x, p.y])
                .flat_map(f64::to_be_bytes),
        );
    }
    Some([&(body.len() as u32).to_be_bytes(), &body[..]].concat())
}

/// The version 2 job of two fills (request [6]): the first's outline, rule and angle
/// are both fills'.
pub fn job2(f: &Fill, second: &Fill) -> Option<Vec<u8>> {
    let mut bytes = job(f)?;
    let mut own = vec![second.bottom_up.into()];
    own.extend(u32::try_from(second.stagger).ok()?.to_be_bytes());
    for x in [second.spacing, second.len, second.inset, second.pull] {
        own.extend(x.to_be_bytes());
    }
    bytes[4] = 2;
    bytes.splice(HEAD..HEAD, own);
    Some(relength(bytes))
}

/// The next so many bytes.
fn take<const N: usize>(bytes: &mut &[u8]) -> Option<[u8; N]> {
    let (front, rest) = bytes.split_first_chunk()?;
    *bytes = rest;
    Some(*front)
}

fn float(bytes: &mut &[u8]) -> Option<f64> {
    take(bytes).map(f64::from_be_bytes)
}

/// Spacing, len, inset and pull.
fn settings(bytes: &mut &[u8], f: &mut Fill) -> Option<()> {
    for place in [&mut f.spacing, &mut f.len, &mut f.inset, &mut f.pull] {
        *place = float(bytes)?;
    }
    Some(())
}

/// The fill that some bytes ask for; nothing where they are badly framed.
pub fn decode(bytes: &[u8]) -> Option<Fill> {
    Some(decode_as(1, bytes)?.0)
}

/// Both fills of a version 2 job.
pub fn decode2(bytes: &[u8]) -> Option<(Fill, Fill)> {
    let (f, own) = decode_as(2, bytes)?;
    let second = Fill {
        outline: f.outline.clone(),
        rule: f.rule,
        cosine: f.cosine,
        sine: f.sine,
        ..own
    };
    Some((f, second))
}

/// The first fill, and what is the second's own.
fn decode_as(wanted: u8, mut bytes: &[u8]) -> Option<(Fill, Fill)> {
    let bytes = &mut bytes;
    let length = u32::from_be_bytes(take(bytes)?);
    if length as usize != bytes.len() {
        return None;
    }
    let [version, rule, bottom_up, rings] = take(bytes)?;
    if version != wanted || rule > 1 || bottom_up > 1 {
        return None;
    }
    let mut f = Fill::new(&[]);
    f.rule = rule.into();
    f.bottom_up = bottom_up == 1;
    f.stagger = u32::from_be_bytes(take(bytes)?).into();
    for place in [&mut f.cosine, &mut f.sine] {
        *place = float(bytes)?;
    }
    settings(bytes, &mut f)?;
    let mut second = Fill::new(&[]);
    if version == 2 {
        let [bottom_up] = take(bytes)?;
        if bottom_up > 1 {
            return None;
        }
        second.bottom_up = bottom_up == 1;
        second.stagger = u32::from_be_bytes(take(bytes)?).into();
        settings(bytes, &mut second)?;
    }
    let Outline { corners, ends } = &mut f.outline;
    for _ in 0..rings {
        for _ in 0..2 * u16::from_be_bytes(take(bytes)?) as usize {
            corners.push(float(bytes)?);
        }
        ends.push(corners.len() as u64 / 2);
    }
    bytes.is_empty().then_some((f, second))
}

/// What is printed for an answer: "answer sections points", then the section and
/// both numbers' bits of each point.
pub fn listing(answer: u64, count: u64, points: &[u64], ends: &[u64]) -> String {
    let mut text = format!("{answer} {} {count}\n", ends.len());
    let mut at = 0;
    for (section, &end) in ends.iter().enumerate() {
        for p in points[2 * at..2 * end as usize].chunks(2) {
            text += &format!("{section} {:016x} {:016x}\n", p[0], p[1]);
        }
        at = end as usize;
    }
    text
}

/// The listing of a fill that left its counts, and four slices.
fn told(answer: u64, counts: &[u64], slices: &[Vec<u64>]) -> String {
    let ends = &slices[3][MARGIN..MARGIN + counts[0] as usize];
    listing(answer, counts[1], &slices[2][MARGIN..], ends)
}

fn equal(tied: bool) -> Equal {
    if tied { Equal::Merged } else { Equal::Original }
}

/// What is owed for bytes that are read as a version 1 job.
pub fn wanted1(bytes: &[u8]) -> String {
    decode(bytes).map_or(LAYOUT.to_string(), |f| {
        let left = owed::fill::tatami(&f, &LENT, equal(owed::fill::tied(&f)));
        told(left.answer, &left.counts, &left.slices)
    })
}

/// What is owed for bytes that are read as a version 2 job: both listings.
pub fn wanted2(bytes: &[u8]) -> String {
    decode2(bytes).map_or(LAYOUT.repeat(2), |(f, g)| {
        let lent = [&LENT[..2], &LENT, &LENT].concat();
        let tied = owed::fill::tied(&f) || owed::fill::tied(&g);
        let left = owed::fill::tatami_twice(&f, &g, &lent, equal(tied));
        let (counts, slices) = (&left.counts, &left.slices);
        told(left.answer, counts, &slices[2..]) + &told(counts[2], &counts[3..], &slices[6..])
    })
}

/// A job with its length made right again.
pub fn relength(mut bytes: Vec<u8>) -> Vec<u8> {
    let length = (bytes.len() - 4) as u32;
    bytes[..4].copy_from_slice(&length.to_be_bytes());
    bytes
}
