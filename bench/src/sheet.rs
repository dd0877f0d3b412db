//! The whole sheet: the engine's program and both plain ones, run in turns on the same 250 lines.

use crate::inputs::{route_condition, Random};
use crate::processor_time;
use crate::timing::{quietly, Compared, SIDES};
use reference::Letters;
use std::fs::File;
use std::path::{Path, PathBuf};
use std::process::{Command, Stdio};

/// Ten letters, some with more unknowns than givens and some with fewer.
const LETTERS: [Letters; 3] = [
    Letters { unknowns: 6, givens: 4 },
    Letters { unknowns: 5, givens: 5 },
    Letters { unknowns: 4, givens: 6 },
];
pub const ROUTES: usize = 250;
const ROUNDS: usize = 51;
/// A program is run so often in a round: the kernel counts a process's time in coarse steps.
const RUNS: usize = 8;

pub struct Sheet {
    /// Processor time of a run, and that less a run on no lines.
    pub whole: Compared,
    pub net: Compared,
    pub nones: usize,
    pub input_bytes: usize,
    pub output_bytes: usize,
}

/// A condition for each route.
fn sheet_input() -> String {
    let mut random = Random::new(250);
    let mut input = String::new();
    for route in 1..=ROUTES {
        let letters = LETTERS[random.below(LETTERS.len())];
        let text = String::from_utf8(route_condition(letters, &mut random)).expect("signs");
        input += &format!("{route} {} {} {text}\n", letters.unknowns, letters.givens);
    }
    input
}

/// All outputs are compared, then each program is run in turns, its output to nowhere.
pub fn compare_sheets(programs: &[PathBuf; SIDES]) -> Sheet {
    let input = sheet_input();
    let path = std::env::temp_dir().join(format!("layodegi-bench-{}", std::process::id()));
    std::fs::write(&path, &input).expect("the temporary folder takes the sheet");
    let outputs = programs.each_ref().map(|program| output_of(program, &path));
    assert!(outputs.iter().all(|output| *output == outputs[0]), "the programs print the same");
    let nowhere = Path::new("/dev/null");
    let measure = || {
        let mut runs = [const { Vec::new() }; SIDES];
        let mut starts = [const { Vec::new() }; SIDES];
        for round in 0..ROUNDS {
            for turn in 0..SIDES {
                let side = (round + turn) % SIDES;
                runs[side].push(time_of(&programs[side], &path));
                starts[side].push(time_of(&programs[side], nowhere));
            }
        }
        let net = Compared::of_rounds_without(&runs, &starts);
        (Compared::of_rounds(runs), net)
    };
    let (whole, net) = quietly(measure, |(_, net)| net);
    std::fs::remove_file(&path).expect("the sheet is there");
    let [output, ..] = outputs;
    let lines = output.split(|&byte| byte == b'\n');
    Sheet {
        whole,
        net,
        nones: lines.filter(|line| line.starts_with(b"05")).count(),
        input_bytes: input.len(),
        output_bytes: output.len(),
    }
}

fn output_of(program: &Path, input: &Path) -> Vec<u8> {
    let input = File::open(input).expect("the sheet is there");
    let run = Command::new(program).stdin(input).output().expect("the program runs");
    assert!(run.status.success());
    run.stdout
}

/// User and system time of a run, in nanoseconds.
fn time_of(program: &Path, input: &Path) -> f64 {
    let before = processor_time::of_children();
    for _ in 0..RUNS {
        let input = File::open(input).expect("the sheet is there");
        let run = Command::new(program).stdin(input).stdout(Stdio::null()).status();
        assert!(run.expect("the program runs").success());
    }
    (processor_time::of_children() - before) / RUNS as f64
}
