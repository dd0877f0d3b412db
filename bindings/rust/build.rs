//! Links the archive of the proved library. `scripts/build layodegi` proves the
//! library and writes the archive; it runs here where the archive is missing or
//! older than a source that it is made from.

use std::fs;
use std::path::{Path, PathBuf};
use std::process::{exit, Command};
use std::time::SystemTime;

const ARCHIVE: &str = "target/staticlib/liblayodegi.a";

fn main() {
    let root = Path::new(env!("CARGO_MANIFEST_DIR")).join("../..");
    let sources = sources(&root);
    let archive = root.join(ARCHIVE);
    for path in sources.iter().chain([&archive]) {
        println!("cargo::rerun-if-changed={}", path.display());
    }
    let newest = sources.iter().filter_map(|path| newest_change(path)).max();
    if changed(&archive).is_none_or(|built| newest > Some(built)) {
        build(&root);
    }
    println!("cargo::rustc-link-search=native={}", root.join("target/staticlib").display());
    println!("cargo::rustc-link-lib=static=layodegi");
}

/// `crates.txt` and the folders of the crates that it names on the library's line.
fn sources(root: &Path) -> Vec<PathBuf> {
    let list = root.join("crates.txt");
    let lines = fs::read_to_string(&list).unwrap_or_default();
    let below = lines.lines().find_map(|line| line.strip_prefix("layodegi staticlib:")).unwrap_or_default();
    let names = below.split_whitespace().chain(["layodegi"]);
    let folders = names.flat_map(|name| {
        ["src", "specs", "proofs"].map(|part| root.join("crates").join(name).join(part))
    });
    folders.chain([list.clone()]).filter(|path| path.exists()).collect()
}

/// When the newest file under a path was changed.
fn newest_change(path: &Path) -> Option<SystemTime> {
    let inner = fs::read_dir(path).into_iter().flatten().flatten();
    inner.filter_map(|entry| newest_change(&entry.path())).chain(changed(path)).max()
}

fn changed(path: &Path) -> Option<SystemTime> {
    fs::metadata(path).and_then(|about| about.modified()).ok()
}

fn build(root: &Path) {
    let run = Command::new(root.join("scripts/build")).arg("layodegi").output();
    let problem = match run {
        Ok(said) if said.status.success() => return,
        Ok(said) => String::from_utf8_lossy(&[said.stdout, said.stderr].concat()).into_owned(),
        Err(error) => format!("scripts/build: {error}"),
    };
    eprintln!("{problem}");
    eprintln!("{ARCHIVE} is missing or old, and `scripts/build layodegi` could not build it");
    exit(1);
}
