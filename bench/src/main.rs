//! Measures the engine beside plain Rust in two forms, the written order by the method that the engine
//! had and by the one that it has, and what counting costs a product, and prints a report that says what
//! is measured and how.
//! With `--write` it also writes the report to `RESULTS.md` and the plot to `time-by-letters.svg`;
//! without it, measuring leaves the folder as it was.

mod calls;
mod counting;
mod inputs;
mod measured;
mod plot;
mod processor_time;
mod report;
mod sheet;
mod timing;
mod written_order;

use calls::{Call, CALLS};
use inputs::{letters_of, Inputs, Kind};
use plot::{plot, Series};
use report::{Machine, Report, Row, WRITING};
use std::hint::black_box;
use std::ops::RangeInclusive;
use std::path::{Path, PathBuf};
use std::process::Command;
use std::time::Duration;
use timing::{Effort, SIDES};

const NUMBERS_OF_LETTERS: RangeInclusive<usize> = 4..=10;
const TEN_LETTERS: Effort = Effort { rounds: 101, round: Duration::from_millis(2) };
const FEWER_LETTERS: Effort = Effort { rounds: 51, round: Duration::from_millis(1) };

/// The calls of the plot, and what their panels say.
const PLOTTED: [(&str, &str); 6] = [
    ("read_text", "reading a text"),
    ("product", "product of two tables"),
    ("boole", "Boole's answers"),
    ("lowenheim", "own Löwenheim answers"),
    ("write_entry", WRITING),
    ("audit", "audit of an entry"),
];

fn main() {
    let folder = Path::new(env!("CARGO_MANIFEST_DIR"));
    let is_to_write = match std::env::args().nth(1).as_deref() {
        None => false,
        Some("--write") => true,
        Some(other) => panic!("{other}: the one option is --write"),
    };
    let programs = programs(folder);
    let letters = letters_of(*NUMBERS_OF_LETTERS.end());
    let report = Report {
        machine: Machine::this(),
        letters,
        effort: TEN_LETTERS,
        typical: rows(&Inputs::new(letters, Kind::Typical)),
        dense: rows(&Inputs::new(letters, Kind::Dense)),
        sheet: sheet::compare_sheets(&programs),
        numbers_of_letters: NUMBERS_OF_LETTERS,
        by_letters: PLOTTED.map(|(call, words)| by_letters(call, words)).into(),
        written_order: written_order::compare_methods(FEWER_LETTERS),
        counting: counting::compare_counting(NUMBERS_OF_LETTERS, TEN_LETTERS),
    };
    let results = report.text();
    print!("{results}");
    if is_to_write {
        write(&folder.join("RESULTS.md"), &results);
        let plot = plot(NUMBERS_OF_LETTERS, &report.by_letters, &report.machine());
        write(&folder.join("time-by-letters.svg"), &plot);
    }
}

fn rows(inputs: &Inputs) -> Vec<Row> {
    let row = |&Call { name, note, measure }: &Call| Row {
        name: format!("`{name}`{note}"),
        times: measure(black_box(inputs), TEN_LETTERS),
    };
    CALLS.iter().map(row).collect()
}

fn by_letters(name: &str, words: &'static str) -> Series {
    let call = CALLS.iter().find(|call| call.name == name).expect("a call of the list");
    let time = |count| {
        let inputs = Inputs::new(letters_of(count), Kind::Typical);
        (call.measure)(black_box(&inputs), FEWER_LETTERS)
    };
    Series { name: words, points: NUMBERS_OF_LETTERS.map(time).collect() }
}

/// The engine's program and the plain ones, each built if it is not there or not new enough.
fn programs(folder: &Path) -> [PathBuf; SIDES] {
    let root = folder.join("..");
    let reference = root.join("reference");
    eprintln!("building the programs `sheet`; the engine's is proved first, if it is not yet");
    run(Command::new(root.join("scripts/build")).arg("sheet"));
    let cargo = std::env::var_os("CARGO").unwrap_or_else(|| "cargo".into());
    run(Command::new(cargo)
        .args(["build", "--quiet", "--offline", "--release"])
        .current_dir(&reference));
    let plain = reference.join("target/release");
    [root.join("target/bin/sheet"), plain.join("sheet_bytes"), plain.join("sheet_words")]
}

/// Runs a command to its end; what it prints is shown only where it fails.
fn run(command: &mut Command) {
    let said = command.output().unwrap_or_else(|error| panic!("{command:?}: {error}"));
    let text = String::from_utf8_lossy(&said.stderr);
    assert!(said.status.success(), "{command:?}: {text}");
}

fn write(path: &Path, text: &str) {
    std::fs::write(path, text).unwrap_or_else(|error| panic!("{}: {error}", path.display()));
}
