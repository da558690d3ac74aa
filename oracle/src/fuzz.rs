//! A fuzzer's target: a job's bytes on standard input, filled by the archive and, with
//! the word `program`, by the program `fill` too, beside what they owe. It panics where
//! two differ, or where the program doesn't end as it should. Nearly every change a
//! fuzzer makes leaves a job's first length wrong, so the same bytes are tried with the
//! length made right too. `fuzz seeds DIR` writes jobs to begin with. `oracle/fuzz`
//! builds and runs all of it.

// The driver's modules are read here as this program's own; it doesn't use all of them.
#![allow(dead_code)]
mod expect;
mod filled;
mod inputs;
mod job;
mod ours;
mod owed;
mod program;
mod rng;

use filled::{filled1, filled2};
use inputs::{boundaries::boundaries, fills};
use job::{job, job2, relength};
use program::{check, compare, is_second, program};
use rng::Rng;
use std::io::Read;
use std::path::Path;

/// A longer seed only makes the fuzzer slow.
const LONGEST: usize = 400;

fn seeds(folder: &Path) -> std::io::Result<()> {
    let mut rng = Rng::new(1, "fuzz");
    let generated = std::iter::from_fn(|| Some(fills::any(&mut rng))).take(400);
    let jobs = boundaries().iter().cloned().chain(generated);
    let mut own = Rng::new(2, "fuzz");
    let short = jobs
        .flat_map(|f| [job(&f), job2(&f, &fills::beneath(&mut own, &f))])
        .flatten()
        .filter(|bytes| bytes.len() <= LONGEST);
    for (n, bytes) in short.enumerate() {
        std::fs::write(folder.join(format!("{n:04}.job")), bytes)?;
    }
    Ok(())
}

fn look(bytes: &[u8], with_program: bool) {
    let given = if is_second(bytes) {
        filled2(bytes)
    } else {
        filled1(bytes)
    };
    compare(bytes, &given);
    if with_program {
        check(&program().expect("the program fill"), bytes);
    }
}

fn main() {
    let words: Vec<String> = std::env::args().skip(1).collect();
    if let [word, folder] = &words[..]
        && word == "seeds"
    {
        return seeds(Path::new(folder)).expect("a folder to write to");
    }
    let with_program = words.iter().any(|w| w == "program");
    let mut bytes = Vec::new();
    std::io::stdin()
        .read_to_end(&mut bytes)
        .expect("bytes to read");
    look(&bytes, with_program);
    if bytes.len() >= 4 {
        let right = relength(bytes.clone());
        if right != bytes {
            look(&right, with_program);
        }
    }
}
