//! Where the proved library lies: the folder in BEAHCEROT_LIB that holds
//! libexports.a, by default ../target/staticlib; a relative path is read from
//! this package's folder. `src/ours.rs` asks for the archive by name, so only
//! the driver needs it; the original builds without.

use std::env;
use std::path::PathBuf;

fn main() {
    let given = env::var("BEAHCEROT_LIB").unwrap_or("../target/staticlib".into());
    let folder = PathBuf::from(env::var("CARGO_MANIFEST_DIR").unwrap()).join(given);
    let archive = folder.join("libexports.a");
    println!("cargo::rerun-if-env-changed=BEAHCEROT_LIB");
    println!("cargo::rerun-if-changed={}", archive.display());
    println!("cargo::rustc-link-search=native={}", folder.display());
    if !archive.exists() {
        println!("cargo::warning=no {} yet", archive.display());
    }
}
