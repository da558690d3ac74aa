//! The oracle: the proved library beside the Rust it was ported from.

mod book;
mod compare;
mod dst;
mod expect;
mod filled;
mod inputs;
mod job;
mod ours;
mod owed;
mod rng;
mod salvage;

use compare::{Function, Group, Job, groups};
use std::path::Path;
use std::process::ExitCode;

const USAGE: &str = "usage: oracle compare NAME [--seed S] [--count N]
       oracle bench [NAME] [--seed S]
       oracle labels [NAME]
       oracle once LABEL [--seed S]
       oracle replay FOLDER
NAME is a function, a group or `all`.";

fn main() -> ExitCode {
    let words: Vec<String> = std::env::args().skip(1).collect();
    match run(&words) {
        Ok(true) => ExitCode::SUCCESS,
        Ok(false) => ExitCode::from(1),
        Err(why) => {
            eprintln!("{why}\n{USAGE}");
            ExitCode::from(2)
        }
    }
}

/// Whether all was equal, or what was wrong with the command.
fn run(words: &[String]) -> Result<bool, String> {
    let seed = option(words, "--seed")?.unwrap_or(1);
    let count = option(words, "--count")?;
    let name = words.get(1).filter(|w| !w.starts_with("--"));
    match (words.first().map(String::as_str), name) {
        (Some("compare"), Some(name)) => {
            let mut equal = true;
            for function in named(name)? {
                let count = count.unwrap_or(function.usual);
                equal &= function.compare(&Job { seed, count });
            }
            Ok(equal)
        }
        (Some("bench"), name) => {
            for function in named(name.map_or("all", String::as_str))? {
                function.bench(seed);
            }
            Ok(true)
        }
        (Some("labels"), name) => {
            for function in named(name.map_or("all", String::as_str))? {
                function.labels().for_each(|label| println!("{label}"));
            }
            Ok(true)
        }
        (Some("once"), Some(label)) => {
            named("all")?.iter().for_each(|f| f.once(label, seed));
            Ok(true)
        }
        (Some("replay"), Some(folder)) => {
            let list = compare::replay();
            for (name, text) in [("calls", list.calls), ("answers", list.answers)] {
                let path = Path::new(folder).join(name);
                std::fs::write(&path, text).map_err(|e| format!("{}: {e}", path.display()))?;
            }
            Ok(true)
        }
        _ => Err("no such command".into()),
    }
}

/// The functions that a name stands for: never none.
fn named(name: &str) -> Result<Vec<Function>, String> {
    let wanted = |g: &Group, f: &Function| name == "all" || name == g.name || name == f.name;
    let mut list = Vec::new();
    for mut group in groups() {
        let functions = std::mem::take(&mut group.functions);
        list.extend(functions.into_iter().filter(|f| wanted(&group, f)));
    }
    if list.is_empty() {
        return Err(format!("no function or group called {name} in this build"));
    }
    Ok(list)
}

fn option(words: &[String], name: &str) -> Result<Option<u64>, String> {
    let Some(at) = words.iter().position(|w| w == name) else {
        return Ok(None);
    };
    let value = words.get(at + 1).and_then(|w| w.parse().ok());
    value
        .map(Some)
        .ok_or(format!("{name} needs a whole number"))
}
