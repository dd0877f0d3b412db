//! Links the archive of `crates/measured`. `scripts/build measured` proves the crate and writes the archive;
//! it runs here on every build, and takes no time where nothing has changed.

use std::path::Path;
use std::process::{exit, Command};

fn main() {
    let root = Path::new(env!("CARGO_MANIFEST_DIR")).join("..");
    println!("cargo::rerun-if-changed={}", root.join("crates").display());
    let run = Command::new(root.join("scripts/build")).arg("measured").output();
    let problem = match run {
        Ok(said) if said.status.success() => String::new(),
        Ok(said) => String::from_utf8_lossy(&[said.stdout, said.stderr].concat()).into_owned(),
        Err(error) => format!("scripts/build: {error}"),
    };
    if !problem.is_empty() {
        eprintln!("{problem}");
        exit(1);
    }
    println!("cargo::rustc-link-search=native={}", root.join("target/staticlib").display());
    println!("cargo::rustc-link-lib=static=measured");
}
