//! Where the proved library lies: the folder in BEAHCEROT_LIB that holds
//! libexports.a, by default ../target/staticlib; a relative path is read from
//! this package's folder.

use std::env;
use std::path::PathBuf;

fn main() {
    let given = env::var("BEAHCEROT_LIB").unwrap_or("../target/staticlib".into());
    let folder = PathBuf::from(env::var("CARGO_MANIFEST_DIR").unwrap()).join(given);
    println!("cargo::rerun-if-env-changed=BEAHCEROT_LIB");
    println!(
        "cargo::rerun-if-changed={}",
        folder.join("libexports.a").display()
    );
    println!("cargo::rustc-link-search=native={}", folder.display());
}
