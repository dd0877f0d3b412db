//! Writes test vectors: a file of calls and a file of the expected results.
//! Arguments: the input file, the output file, the letters of the calls wanted.
//! Each call has its own seed, so its lines do not depend on the others asked for.

#[path = "vectors/entry.rs"]
mod entry;
#[path = "vectors/facts.rs"]
mod facts;
#[path = "vectors/handed.rs"]
mod handed;
#[path = "vectors/lines.rs"]
mod lines;
#[path = "vectors/operations.rs"]
mod operations;
#[path = "vectors/sessions.rs"]
mod sessions;
#[path = "vectors/shorter.rs"]
mod shorter;
#[path = "vectors/solving.rs"]
mod solving;
#[path = "vectors/text.rs"]
mod text;
#[path = "vectors/volume.rs"]
mod volume;

use lines::Lines;
use std::process::ExitCode;

/// No file of a group is longer; the test programs have room for 262,144 bytes of input.
const LONGEST_INPUT: usize = 250_000;
const LONGEST_OUTPUT: usize = 300_000;

fn main() -> ExitCode {
    let arguments: Vec<String> = std::env::args().collect();
    let [_, input, output, calls] = &arguments[..] else {
        eprintln!("usage: vectors INPUT OUTPUT CALLS");
        return ExitCode::FAILURE;
    };
    let mut lines = Lines::default();
    for call in calls.chars() {
        if !add_cases(call, &mut lines) {
            eprintln!("no such call: {call}");
            return ExitCode::FAILURE;
        }
    }
    println!("{}: {} lines", lines.report(), lines.count());
    if lines.input.len() > LONGEST_INPUT || lines.output.len() > LONGEST_OUTPUT {
        eprintln!(
            "more than {LONGEST_INPUT} bytes in or {LONGEST_OUTPUT} out: ask for fewer calls"
        );
        return ExitCode::FAILURE;
    }
    let written = std::fs::write(input, &lines.input).and(std::fs::write(output, &lines.output));
    if let Err(error) = written {
        eprintln!("{error}");
        return ExitCode::FAILURE;
    }
    ExitCode::SUCCESS
}

fn add_cases(call: char, lines: &mut Lines) -> bool {
    match call {
        'v' => operations::add_values(lines),
        '+' | '*' => operations::add_two_tables(lines, call),
        's' => operations::add_substitutions(lines),
        'd' => operations::add_derivatives(lines),
        'm' => shorter::add_shorter(lines),
        't' => text::add_texts(lines),
        'b' | 'p' | 'l' => solving::add_solutions(lines, call),
        'h' => handed::add_handed(lines),
        'w' => entry::add_writings(lines),
        'r' => entry::add_readings(lines),
        'a' => volume::add_audits(lines),
        'k' => volume::add_walks(lines),
        'n' => sessions::add_sessions(lines),
        _ => return false,
    }
    true
}
