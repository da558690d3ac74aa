//! The program `fill` by its bytes: what it prints for a job on standard input,
//! against document 01's framing and checks and the original's answer. It needs
//! no archive, but `target/bin/fill` (`tools/program`); BEAHCEROT_FILL names
//! another program.
//! Without one the tests are skipped with a line, and fail where BEAHCEROT_GATE
//! is set.

// The driver's modules are read here as a test's own; it doesn't use all of them.
#![allow(dead_code)]
#[path = "../src/expect.rs"]
mod expect;
#[path = "../src/inputs/mod.rs"]
mod inputs;
#[path = "../src/job.rs"]
mod job;
#[path = "../src/owed/mod.rs"]
mod owed;
#[path = "../src/program.rs"]
mod program;
#[path = "../src/rng.rs"]
mod rng;

use inputs::boundaries::boundaries;
use inputs::fills::{self, Fill};
use inputs::outlines::{Outline, block};
use job::{LAYOUT, LENT, job, job2, relength};
use program::{check, end, program, run, run_in_pieces, start, wanted_of};
use rng::Rng;
use std::fs::File;
use std::io::{Seek, Write};
use std::process::Stdio;
use std::time::Duration;
use zigzag::geom::P;

const K1: &str = "0 1 4
0 0000000000000000 4000000000000000
0 4024000000000000 4000000000000000
0 4024000000000000 4018000000000000
0 0000000000000000 4018000000000000
";

/// Where a job's parts stand.
const VERSION: usize = 4;
const RULE: usize = 5;
const BOTTOM_UP: usize = 6;
const RINGS: usize = 7;
const STAGGER: usize = 8;
const FLOATS: usize = 12;
const HEAD: usize = 60;
/// Of a version 2 job, the second fill's.
const BOTTOM_UP2: usize = 60;

fn k1() -> Vec<u8> {
    job(&Fill::k1()).unwrap()
}

/// Document 01's K2, K1 bottom up.
fn k2() -> Fill {
    Fill {
        bottom_up: true,
        ..Fill::k1()
    }
}

/// K1, and K2 over the same square.
fn k1_and_k2() -> Vec<u8> {
    job2(&Fill::k1(), &k2()).unwrap()
}

/// A job of two rings, the second of three corners.
fn two_rings() -> Vec<u8> {
    let hole = vec![P::new(2.0, 2.0), P::new(8.0, 3.0), P::new(5.0, 8.0)];
    job(&Fill::new(&[block(0.0, 0.0, 30.0, 30.0), hole])).unwrap()
}

#[test]
fn k1_is_printed_as_document_01_has_it() {
    let bytes = k1();
    assert_eq!(bytes[..4], [0, 0, 0, 122]);
    assert_eq!(wanted_of(&bytes), K1);
    let example = concat!(env!("CARGO_MANIFEST_DIR"), "/../examples/k1.job");
    assert_eq!(std::fs::read(example).unwrap(), bytes);
    let Some(program) = program() else { return };
    assert_eq!(run(&program, &bytes), K1);
}

#[test]
fn a_version_2_job_prints_two_listings() {
    let bytes = k1_and_k2();
    let both = K1.to_string() + &wanted_of(&job(&k2()).unwrap());
    assert_eq!(wanted_of(&bytes), both);
    let Some(program) = program() else { return };
    assert_eq!(run(&program, &bytes), both);
    // Its version makes two of a badly framed one too; cut before it, there is one.
    assert_eq!(run(&program, &bytes[..5]), LAYOUT.repeat(2));
    assert_eq!(run(&program, &bytes[..4]), LAYOUT);
}

/// Runs a version 2 job and compares; gives both answers.
fn check2(program: &std::path::Path, bytes: &[u8]) -> [usize; 2] {
    check(program, bytes);
    let text = wanted_of(bytes);
    let mut lines = text.lines();
    [(); 2].map(|()| {
        let head = lines.next().expect("a head line");
        let said: Vec<usize> = head.split(' ').map(|n| n.parse().unwrap()).collect();
        for _ in 0..said[2] {
            lines.next().expect("a point's line");
        }
        said[0]
    })
}

/// Every refusal of the table, and of each fill with the other sewn or refused.
#[test]
fn each_boundary_of_each_refusal_of_two_fills() {
    let Some(program) = program() else { return };
    let mut met = [[0; 8]; 2];
    for fill in boundaries() {
        let own = Fill {
            outline: fill.outline.clone(),
            rule: fill.rule,
            cosine: fill.cosine,
            sine: fill.sine,
            ..Fill::k1()
        };
        for pair in [[fill, &own], [&own, fill]] {
            if let Some(bytes) = job2(pair[0], pair[1]) {
                let [a, b] = check2(&program, &bytes);
                met[0][a] += 1;
                met[1][b] += 1;
            }
        }
    }
    let all = met.iter().flatten().all(|&n| n > 0);
    assert!(all, "answers met: {met:?}");
}

#[test]
fn each_boundary_of_each_refusal() {
    let Some(program) = program() else { return };
    let mut met = [0; 8];
    for fill in boundaries() {
        if let Some(bytes) = job(fill) {
            met[check(&program, &bytes) as usize] += 1;
        }
    }
    assert!(met.iter().all(|&n| n > 0), "answers met: {met:?}");
}

/// A block with so many rows, each with one piece.
fn rows(count: usize) -> Fill {
    Fill {
        len: 1000.0,
        ..Fill::new(&[block(0.0, 0.0, 10.0, 4.0 * count as f64)])
    }
}

/// A ring of 1,024 sides, none of them level, so high that it has so many rows.
fn many_sides(height: f64) -> Fill {
    let side = |k: i32, x: f64| P::new(x, height * f64::from(k) / 512.0);
    let mut ring: Vec<P> = (0..512).map(|k| side(k, 40.0 + f64::from(k % 2))).collect();
    ring.extend((1..=512).rev().map(|k| side(k, f64::from(k % 2))));
    Fill {
        spacing: 1.0,
        len: 1000.0,
        ..Fill::new(&[ring])
    }
}

/// The first ring's side from a corner on, cut in two.
fn split(mut f: Fill, at: usize) -> Fill {
    let mut ring = f.outline.rings().remove(0);
    let middle = ring[at].lerp(ring[(at + 1) % ring.len()], 0.5);
    ring.insert(at + 1, middle);
    f.outline = Outline::new(&[ring]);
    f
}

/// The first ring without a corner.
fn without(mut f: Fill, at: usize) -> Fill {
    let mut ring = f.outline.rings().remove(0);
    ring.remove(at);
    f.outline = Outline::new(&[ring]);
    f
}

/// One row of so many points.
fn points(count: usize) -> Fill {
    Fill {
        len: 1.0,
        ..Fill::new(&[block(0.0, 0.0, (count - 1) as f64, 4.0)])
    }
}

/// Rows of which each is a section: the pull takes the links outside.
fn sections(count: usize) -> Fill {
    Fill {
        pull: 1.0,
        ..rows(count)
    }
}

/// What the program lends is enough to the last word, and no further.
#[test]
fn each_end_of_what_is_lent() {
    let need = |f: &Fill| owed::fill::tatami_need(f).unwrap();
    // 4E + 6I wholes: two sides, 1,364 rows.
    assert_eq!(need(&rows(1364))[1], LENT[1]);
    // 6E + 4I floats: 1,024 sides, 512 rows.
    assert_eq!(need(&many_sides(512.0))[0], LENT[0]);
    // A need is even: two more is the least that is too much.
    let wholes_over = split(split(rows(1363), 1), 4);
    assert_eq!(need(&wholes_over)[1], LENT[1] + 2);
    let floats_over = without(many_sides(514.0), 300);
    assert_eq!(need(&floats_over)[0], LENT[0] + 2);
    assert_eq!(need(&points(4096))[2], LENT[2]);
    assert_eq!(need(&sections(512))[3], LENT[3]);
    // As wide as coordinates go: 270 million points.
    let wide = Fill {
        len: 1.0,
        ..Fill::new(&[block(-100_000.0, 0.0, 200_000.0, 4.0 * 1364.0)])
    };
    let cases = [
        (rows(1364), 0),
        (rows(1365), 6),
        (many_sides(512.0), 0),
        (many_sides(513.0), 6),
        (wholes_over, 6),
        (floats_over, 6),
        (points(4096), 0),
        (points(4097), 7),
        (sections(512), 0),
        (sections(513), 7),
        (wide, 7),
        (rows(4096), 6),
        (rows(4097), 5),
    ];
    let Some(program) = program() else { return };
    for (fill, answer) in cases {
        assert_eq!(check(&program, &job(&fill).unwrap()), answer);
    }
}

/// The same of each fill of a version 2 job: 6I whole numbers are its own.
#[test]
fn each_end_of_what_each_fill_is_lent() {
    let Some(program) = program() else { return };
    let cases = [
        (rows(1365), 0),
        (rows(1366), 6),
        (points(4096), 0),
        (points(4097), 7),
        (sections(512), 0),
        (sections(513), 7),
        (rows(4097), 5),
    ];
    for (fill, answer) in cases {
        // As wide apart as it goes, so that the other is sewn.
        let wide = Fill {
            spacing: 1000.0,
            len: 1000.0,
            ..fill.clone()
        };
        let bytes = job2(&fill, &wide).unwrap();
        assert_eq!(check2(&program, &bytes), [answer, 0]);
        let bytes = job2(&wide, &fill).unwrap();
        assert_eq!(check2(&program, &bytes), [0, answer]);
    }
    // 6E floats of the table: 1,024 sides are not too many.
    let many = many_sides(512.0);
    assert_eq!(check2(&program, &job2(&many, &many).unwrap()), [0, 0]);
}

#[test]
fn a_cut_or_longer_job_is_badly_framed() {
    let Some(program) = program() else { return };
    for whole in [k1(), two_rings(), k1_and_k2()] {
        for length in 0..whole.len() {
            let cut = whole[..length].to_vec();
            assert_eq!(check(&program, &cut), 1, "cut to {length} bytes");
            if length >= 4 {
                let cut = relength(cut);
                assert_eq!(check(&program, &cut), 1, "a job of {length} bytes");
            }
        }
        let longer = [&whole[..], &[0]].concat();
        assert_eq!(check(&program, &longer), 1);
        assert_eq!(check(&program, &relength(longer)), 1);
        assert_eq!(check(&program, &[&whole[..], &whole[..]].concat()), 1);
        assert_eq!(check(&program, &whole), 0);
    }
}

#[test]
fn each_byte_of_the_head() {
    let Some(program) = program() else { return };
    for at in 0..STAGGER {
        for byte in 0..=255 {
            let mut bytes = k1();
            bytes[at] = byte;
            let right = match at {
                RULE | BOTTOM_UP => byte <= 1,
                VERSION | RINGS => byte == 1,
                _ => byte == k1()[at],
            };
            let answer = check(&program, &bytes);
            assert_eq!(answer == 1, !right, "byte {at} is {byte}");
        }
    }
}

#[test]
fn each_byte_of_a_version_2_head() {
    let Some(program) = program() else { return };
    for at in [VERSION, RULE, BOTTOM_UP, RINGS, BOTTOM_UP2] {
        for byte in 0..=255 {
            let mut bytes = k1_and_k2();
            bytes[at] = byte;
            let right = match at {
                VERSION => byte == 2,
                RINGS => byte == 1,
                _ => byte <= 1,
            };
            let answer = check(&program, &bytes);
            assert_eq!(answer == 1, !right, "byte {at} is {byte}");
        }
    }
}

/// Each setting of the head at its ends, past them, and with wild bits.
#[test]
fn settings_by_their_bits() {
    let Some(program) = program() else { return };
    let ends = [0.5, 1.0, 100.0, 1000.0, 0.0, f64::NAN, f64::INFINITY];
    for place in 0..6 {
        for x in ends.iter().flat_map(|&x| [x, -x]) {
            for ulps in [-1, 0, 1] {
                let mut bytes = k1();
                let at = FLOATS + 8 * place;
                let moved = inputs::numbers::beside(x, ulps);
                bytes[at..at + 8].copy_from_slice(&moved.to_be_bytes());
                check(&program, &bytes);
            }
        }
    }
    for stagger in [0u32, 1, 2, 7, 999, 1000, 1001, 1 << 16, u32::MAX] {
        let mut bytes = two_rings();
        bytes[STAGGER..FLOATS].copy_from_slice(&stagger.to_be_bytes());
        let answer = check(&program, &bytes);
        assert_eq!(answer, if stagger <= 1000 { 0 } else { 3 });
    }
}

/// Jobs that are larger than any that is done.
#[test]
fn large_jobs() {
    let Some(program) = program() else { return };
    let plain = Fill::new(&[]);
    for head in [job(&plain).unwrap(), job2(&plain, &plain).unwrap()] {
        large_jobs_of(&program, head);
    }
}

fn large_jobs_of(program: &std::path::Path, head: Vec<u8>) {
    let check = |bytes: &[u8]| check(program, bytes);
    assert_eq!(check(&head), 0);
    // A ring that says it has 65,535 corners, with none, and with all of them.
    let mut bytes = head.clone();
    bytes[RINGS] = 1;
    bytes.extend([255, 255]);
    assert_eq!(check(&relength(bytes.clone())), 1);
    bytes.extend(vec![0; 16 * 65_535]);
    assert_eq!(check(&relength(bytes.clone())), 1);
    bytes.extend(vec![0; 1 << 20]);
    assert_eq!(check(&relength(bytes.clone())), 1);
    assert_eq!(check(&bytes), 1);
    // 255 rings of none, of one corner, and 1,024 corners and one more in them.
    for (each, last, answer) in [(0, 0, 0), (1, 1, 0), (4, 8, 0), (4, 9, 1)] {
        let mut bytes = head.clone();
        bytes[RINGS] = 255;
        for ring in 0..255 {
            let corners: u16 = if ring == 254 { last } else { each };
            bytes.extend(corners.to_be_bytes());
            for (x, y) in [(0, 0), (7, 0), (7, 7), (0, 7)]
                .iter()
                .cycle()
                .take(corners.into())
            {
                for at in [ring % 16 * 9 + x, ring / 16 * 9 + y] {
                    bytes.extend(f64::from(at).to_be_bytes());
                }
            }
        }
        assert_eq!(check(&relength(bytes)), answer, "rings of {each}");
    }
}

#[test]
fn a_job_may_come_in_pieces() {
    let Some(program) = program() else { return };
    for bytes in [k1(), two_rings(), k1_and_k2()] {
        let wanted = wanted_of(&bytes);
        let layout = LAYOUT.repeat(bytes[VERSION].into());
        let short = Duration::from_millis(1);
        assert_eq!(run_in_pieces(&program, bytes.chunks(1), short), wanted);
        for size in [3, 5, HEAD, 64, 100] {
            let pause = Duration::from_millis(20);
            assert_eq!(run_in_pieces(&program, bytes.chunks(size), pause), wanted);
        }
        // Cut in pieces and too short, or too long.
        let cut = &bytes[..bytes.len() - 1];
        assert_eq!(run_in_pieces(&program, cut.chunks(7), short), layout);
        let longer = [&bytes[..], &[0]].concat();
        assert_eq!(run_in_pieces(&program, longer.chunks(7), short), layout);
    }
    let large = job(&many_sides(300.0)).unwrap();
    let pause = Duration::from_millis(5);
    let given = run_in_pieces(&program, large.chunks(4096), pause);
    assert_eq!(given, wanted_of(&large));
}

/// From a file, and with nothing to read.
#[test]
fn a_job_may_stand_in_a_file() {
    let Some(program) = program() else { return };
    let path = std::env::temp_dir().join(format!("beahcerot-{}.job", std::process::id()));
    let mut file = File::options()
        .read(true)
        .write(true)
        .create(true)
        .truncate(true)
        .open(&path)
        .unwrap();
    file.write_all(&k1()).unwrap();
    file.rewind().unwrap();
    std::fs::remove_file(&path).unwrap();
    assert_eq!(end(start(&program, file.into())), K1);
    assert_eq!(end(start(&program, Stdio::null())), LAYOUT);
}

/// Random bytes, and jobs with some bytes changed: the answer is as the bytes say.
#[test]
fn random_bytes() {
    let Some(program) = program() else { return };
    let mut rng = Rng::new(1, "random bytes");
    let mut met = [0; 8];
    for n in 0..1500 {
        let mut bytes = match n % 4 {
            0 => (0..rng.below(200)).map(|_| rng.next() as u8).collect(),
            1 => {
                // Well framed, with wild numbers.
                let mut bytes = k1();
                let from = rng.pick(&[STAGGER, FLOATS, HEAD + 2]);
                bytes[from..].fill_with(|| rng.next() as u8);
                bytes[HEAD..HEAD + 2].copy_from_slice(&[0, 4]);
                bytes
            }
            _ => generated(&mut rng, 1).remove(0),
        };
        if n % 4 >= 2 {
            for _ in 0..1 + rng.below(3) {
                let at = rng.index(bytes.len());
                bytes[at] ^= 1 << rng.below(8);
            }
        }
        met[check(&program, &bytes) as usize] += 1;
    }
    assert!(met[0] > 150 && met[1] > 150, "answers met: {met:?}");
}

fn generated(rng: &mut Rng, n: usize) -> Vec<Vec<u8>> {
    // One in three of two fills.
    let jobs = std::iter::from_fn(|| {
        let f = fills::any(rng);
        let two = rng.one_in(3);
        Some(if two {
            job2(&f, &fills::beneath(rng, &f))
        } else {
            job(&f)
        })
    });
    jobs.flatten().take(n).collect()
}

#[test]
fn generated_fills() {
    let Some(program) = program() else { return };
    let mut rng = Rng::new(1, "program");
    let mut met = [0; 8];
    for bytes in generated(&mut rng, 600) {
        met[check(&program, &bytes) as usize] += 1;
    }
    assert!(met[0] > 200, "answers met: {met:?}");
}

/// The examples: the listing that is kept beside each job is what is owed, and what
/// the program prints.
#[test]
fn the_examples() {
    let folder = concat!(env!("CARGO_MANIFEST_DIR"), "/../examples");
    for entry in std::fs::read_dir(folder).unwrap() {
        let path = entry.unwrap().path();
        if path.extension().is_some_and(|e| e == "job") {
            let bytes = std::fs::read(&path).unwrap();
            let kept = std::fs::read_to_string(path.with_extension("out")).unwrap();
            assert_eq!(wanted_of(&bytes), kept, "{}", path.display());
            let Some(program) = program() else { return };
            check(&program, &bytes);
        }
    }
}
