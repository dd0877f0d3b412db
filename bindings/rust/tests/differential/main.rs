//! Every call of the archive against the reference: what it answers, as the
//! archive's code and as the safe wrapper's answer, and every byte that it was
//! lent, with guard bytes around. The seeds are fixed. Prints the counts of cases.

mod calls;
mod entries;
mod handed;
mod lent;
mod making;
mod sessions;
mod shorter;
mod solving;
mod tables;
mod tally;
mod texts;
mod volumes;

use std::process::ExitCode;
use std::thread;
use tally::Tally;

fn main() -> ExitCode {
    let parts = [
        texts::run,
        tables::run_values,
        tables::run_sums,
        tables::run_products,
        tables::run_substitutions,
        tables::run_derivatives,
        solving::run_boole,
        solving::run_particular,
        solving::run_lowenheim,
        handed::run,
        shorter::run,
        entries::run_writing,
        entries::run_reading,
        entries::run_audits,
        volumes::run,
        sessions::run_starts,
        sessions::run_histories,
        sessions::run_handed,
    ];
    let mut tally = Tally::default();
    let mut alike = true;
    for running in parts.map(thread::spawn) {
        match running.join() {
            Ok(calls) => tally.join(calls.tally),
            Err(_) => alike = false,
        }
    }
    if tally.report() && alike {
        println!("all as the reference has it");
        ExitCode::SUCCESS
    } else {
        ExitCode::FAILURE
    }
}
