//! The program `fill` run on a job's bytes. BEAHCEROT_FILL names another program than
//! `target/bin/fill` (`tools/program`).

use crate::job::{wanted1, wanted2};
use std::io::{Read, Write, stderr};
use std::path::{Path, PathBuf};
use std::process::{Child, Command, Stdio};
use std::thread::JoinHandle;
use std::time::{Duration, Instant};

/// No job takes the program as long as this.
const PATIENCE: Duration = Duration::from_secs(60);

/// The program, or nothing where it isn't there yet.
pub fn program() -> Option<PathBuf> {
    let here = PathBuf::from(env!("CARGO_MANIFEST_DIR"));
    let path =
        std::env::var("BEAHCEROT_FILL").map_or(here.join("../target/bin/fill"), PathBuf::from);
    if path.exists() {
        return Some(path);
    }
    let gate = std::env::var_os("BEAHCEROT_GATE").is_some();
    assert!(!gate, "no program {}", path.display());
    // Past the test harness, which keeps a passing test's words to itself.
    let _ = writeln!(stderr(), "skipped: no program {}", path.display());
    None
}

pub fn start(program: &Path, stdin: Stdio) -> Child {
    Command::new(program)
        .stdin(stdin)
        .stdout(Stdio::piped())
        .stderr(Stdio::piped())
        .spawn()
        .expect("the program doesn't start")
}

/// All that comes out of a stream, read beside other work.
fn read_all(mut stream: impl Read + Send + 'static) -> JoinHandle<Vec<u8>> {
    std::thread::spawn(move || {
        let mut all = Vec::new();
        stream.read_to_end(&mut all).expect("a stream that is read");
        all
    })
}

/// What the program printed; it may say nothing on the other stream, no signal
/// may end it, and it may not take forever.
pub fn end(mut child: Child) -> String {
    let out = read_all(child.stdout.take().unwrap());
    let other = read_all(child.stderr.take().unwrap());
    let start = Instant::now();
    let status = loop {
        if let Some(status) = child.try_wait().expect("a program to wait for") {
            break status;
        }
        if start.elapsed() > PATIENCE {
            let _ = child.kill();
            panic!("the program doesn't end");
        }
        std::thread::sleep(Duration::from_micros(200));
    };
    assert!(status.code().is_some(), "{status}");
    assert_eq!(other.join().unwrap(), []);
    String::from_utf8(out.join().unwrap()).expect("text")
}

/// Runs the program on some bytes, given in pieces with a pause behind each.
pub fn run_in_pieces<'a>(
    program: &Path,
    pieces: impl Iterator<Item = &'a [u8]> + Send,
    pause: Duration,
) -> String {
    let mut child = start(program, Stdio::piped());
    let mut stdin = child.stdin.take().unwrap();
    std::thread::scope(|scope| {
        scope.spawn(move || {
            for piece in pieces {
                // A program that has read enough may end: what it printed counts.
                if stdin.write_all(piece).is_err() {
                    break;
                }
                std::thread::sleep(pause);
            }
        });
        end(child)
    })
}

pub fn run(program: &Path, bytes: &[u8]) -> String {
    run_in_pieces(program, std::iter::once(bytes), Duration::ZERO)
}

/// Whether two listings are printed.
pub fn is_second(bytes: &[u8]) -> bool {
    bytes.get(4) == Some(&2)
}

/// What the program owes.
pub fn wanted_of(bytes: &[u8]) -> String {
    if is_second(bytes) {
        wanted2(bytes)
    } else {
        wanted1(bytes)
    }
}

/// Compares a listing with what some bytes owe; gives the answer's number.
pub fn compare(bytes: &[u8], given: &str) -> u64 {
    let wanted = wanted_of(bytes);
    if given != wanted {
        let shown: String = bytes.iter().take(400).map(|b| format!("{b:02x}")).collect();
        panic!(
            "{} bytes {shown}\nwanted {wanted:.600}\ngiven  {given:.600}",
            bytes.len()
        );
    }
    given.bytes().next().map_or(9, |b| u64::from(b - b'0'))
}

/// Runs some bytes and compares all that is printed; gives the answer's number.
pub fn check(program: &Path, bytes: &[u8]) -> u64 {
    compare(bytes, &run(program, bytes))
}
