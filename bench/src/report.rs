//! `RESULTS.md`: everything in it that depends on a run is worked out here.

use crate::counting::{Counting, WITH, WITHOUT};
use crate::plot::Series;
use crate::sheet::{Sheet, ROUTES};
use crate::timing::{Compared, Effort, Times, BYTES, ENGINE, WORDS};
use crate::written_order::{AFTER, BEFORE};
use reference::Letters;
use std::ops::RangeInclusive;
use std::process::Command;

/// The series whose times stand in figures too, at these numbers of letters.
pub const WRITING: &str = "writing an entry";
const WRITING_AT: [usize; 3] = [4, 5, 10];

pub struct Row {
    pub name: String,
    pub times: Compared,
}

pub struct Machine {
    date: String,
    processor: String,
    rustc: String,
    rattle: String,
}

impl Machine {
    pub fn this() -> Machine {
        let about = std::fs::read_to_string("/proc/cpuinfo").unwrap_or_default();
        let names = || about.lines().filter(|line| line.starts_with("model name"));
        let name = names().next().and_then(|line| line.split(": ").nth(1)).unwrap_or("unknown");
        Machine {
            date: said("date", "+%Y-%m-%d"),
            processor: format!("{name}, {} cores", names().count()),
            rustc: said("rustc", "--version"),
            rattle: said("rt", "version"),
        }
    }
}

/// The one line that a program prints.
fn said(program: &str, argument: &str) -> String {
    let said = Command::new(program).arg(argument).output();
    said.map_or_else(
        |_| "unknown".to_string(),
        |said| String::from_utf8_lossy(&said.stdout).trim().to_string(),
    )
}

pub struct Report {
    pub machine: Machine,
    pub letters: Letters,
    pub effort: Effort,
    pub typical: Vec<Row>,
    pub dense: Vec<Row>,
    pub sheet: Sheet,
    pub numbers_of_letters: RangeInclusive<usize>,
    pub by_letters: Vec<Series>,
    /// At each number of letters.
    pub written_order: Vec<(usize, Compared<2>)>,
    pub counting: Counting,
}

impl Report {
    /// What the plot says of the machine.
    pub fn machine(&self) -> String {
        format!("{}; {}", self.machine.processor, self.machine.date)
    }

    pub fn text(&self) -> String {
        [
            self.head(),
            self.method(),
            self.calls(),
            self.whole_sheet(),
            self.letters(),
            self.written_order(),
            self.counting(),
        ]
        .join("\n")
    }

    fn head(&self) -> String {
        let Machine { date, processor, rustc, rattle } = &self.machine;
        let ratios = |side: usize| {
            let row = |row: &Row| format!("{} {:.2}", row.name, row.times.ratios[side]);
            self.typical.iter().map(row).collect::<Vec<_>>().join(", ")
        };
        format!(
            "# The engine beside plain Rust

Written by the program in this folder, from the repository's root:

    cargo run --offline --release --manifest-path bench/Cargo.toml -- --write

Without `--write` it only prints. {date}; processor: {processor}; {rustc}; Rattle: {rattle}. Ratios are the engine's time by that of plain Rust in the same run: below 1 the engine is ahead.

At ten letters on typical inputs:

- the whole sheet, net of start-up: {:.2} of plain Rust on bytes, {:.2} of plain Rust on words; start-up and all: {:.2} and {:.2};
- of plain Rust on bytes: {};
- of plain Rust on words: {};
- a product that counts its monomials by one that does not, both of the engine's own code: {}.
{}",
            self.sheet.net.ratios[BYTES],
            self.sheet.net.ratios[WORDS],
            self.sheet.whole.ratios[BYTES],
            self.sheet.whole.ratios[WORDS],
            ratios(BYTES),
            ratios(WORDS),
            self.counting_cost(),
            self.unrest(),
        )
    }

    /// What was measured while the machine was not quiet.
    fn unrest(&self) -> String {
        let named = |kind: &'static str, rows: &[Row]| {
            let restless = rows.iter().filter(|row| !row.times.is_quiet());
            restless.map(|row| format!("{} ({kind})", row.name)).collect::<Vec<_>>()
        };
        let mut names = [named("typical", &self.typical), named("dense", &self.dense)].concat();
        names.extend((!self.sheet.net.is_quiet()).then(|| "the whole sheet".to_string()));
        for series in &self.by_letters {
            let points = self.numbers_of_letters.clone().zip(&series.points);
            let restless = points.filter(|(_, point)| !point.is_quiet());
            names.extend(restless.map(|(count, _)| format!("{} at {count} letters", series.name)));
        }
        let restless = self.written_order.iter().filter(|(_, order)| !order.is_quiet());
        names.extend(restless.map(|(count, _)| format!("the written order at {count} letters")));
        let restless = self.counting.products().into_iter().filter(|(_, with)| !with.is_quiet());
        names.extend(restless.map(|(name, _)| format!("what counting costs {name}")));
        match names.is_empty() {
            true => String::new(),
            false => format!(
                "\nThe machine was not quiet: best and median differ by more than a fifth, after six tries, in: {}.\n",
                names.join(", ")
            ),
        }
    }

    fn method(&self) -> String {
        let Effort { rounds, round } = self.effort;
        format!(
            "## What is measured

- **Engine**: the archive of the proved library, called through the safe wrapper in `bindings/rust`, all its calls, the unknowns going as 0, 1, 2 and so on but where a row says 'in reverse order', the fact being 0 but where a row says 'under a fact'; for the whole sheet the program `target/bin/sheet`.
- **Plain Rust**: `reference/src/plain`, safe Rust from its standard library alone, which does the same job and asks the same questions, built with link-time optimisation in one unit. Two forms share all methods: on **bytes**, one byte a value, by the usual step per letter; and on **words**, 64 values to a word.
- **Techniques of all three**: values and back by the usual step per letter, with literal widths; a text decoded once, without unpredictable branches, and worked out at all points at once; question 8 as one union of all bytes, and a fact of 0 seen by such a union, after which it costs nothing more; the value of a table a block of 64 masks at a time, each mask a byte; a sum made and counted in one pass, by counters that are bytes; the monomials of a product, a substitution or an answer counted where its table is made, so that none of its bytes is looked at again; on words by `count_ones`, each as it is unpacked; a table packed and unpacked in blocks of 64 bytes of known length: in plain Rust their type says it, but for a derivative, in the engine places and counts are literals; on words, eight bytes of a table as one shifted load or store, the two halves of a word's letters exchanged meanwhile; on words, polynomials put in by choices, the two lowest letters at once by what stands for each four bits; question 21 on the values that Löwenheim's formula then takes, and not by way of coefficients; elimination that keeps the values before each unknown goes, and puts later answers in one letter at a time from the last on; records looked at in one pass for all questions, the number of letters of a mask from a table, with a loop for each of kinds 2 and 3, of which there may be many, which goes on as long as each passes question 12.
- **Of plain Rust alone**: tables whose length the compiler knows, so that it holds them in registers, as the engine does only up to six letters when it solves and lists; a letter, negated or not, multiplied in where it stands without a branch, each `!` being counted onto the sign behind it; the masks present counted by their number of letters, eight masks at a time out of a table, so that each record goes straight to its place in the output, which needs no copy, and sparse tables are quick; the digits of a mask from a table; a sheet read line by line and printed in pieces that stay in the cache; on bytes, polynomials put in by looking values up point by point; a counter for each of 32 bytes side by side, where a sum is made and where the shorter is sought, there in one pass with question 8; a table on bytes counted by adding up the numbers of eight bytes that it consists of; question 21 no further than the first 64 points that are not all 0; a derivative on coefficients, where inverting a letter adds one half of them to the other, on bytes in the result itself, on words without exchanging the halves of a word's letters; the steps of a session in place. **Of the engine alone**: the masks present are listed without a branch out of the written order, which it takes from a constant table of the masks of ten letters, as the request has it, up to six letters from one of theirs; a sum made and counted in blocks of 128 bytes with one counter, and the shorter sought by such a count of both tables, a pass of its own after question 8; a derivative goes to values, where inverting letters exchanges points, and back; a session goes by value, out of its block of bytes and back at each step. Tried in plain Rust and slower there: that listing, the masks taken out one number of letters after another, and eight masks at a time listed out of a table.
- All are optimised builds, on one thread: plain Rust for plain x86-64, the engine as its toolchain builds, for x86-64-v2, which has the instruction that counts a word's ones. Tests hold plain Rust against the paper's own definitions; here all results and lent bytes are compared on every input before it is timed.
- **Inputs** come from a fixed seed, eight for each call, over and over, so that the processor learns the way that they take; the sheet's lines come once in a process. Typical: texts of 180 to 200 bytes as a designer writes them, products of a few letters joined by `|` and `+`, and the conditions that such texts are read into. Dense: texts of 199 bytes that are letters and signs in turn, and conditions with every second monomial present. All conditions have a solution, so that solving finds answers; handed over for Löwenheim's formula are polynomials that lead, at each state and choice, to any choice that solves, so that about every second monomial is present, and where a row says 'refused' the same with one monomial changed; the shorter is sought of Boole's and Löwenheim's answers to a condition; a fact says, where inputs are typical, that each two of the givens exclude each other, and where they are dense has about every second monomial without an unknown; a derivative is taken by every second letter; a walk goes over a volume of eight entries.
- **Buffers are not cleared first**: no call needs it, and each writes over what the call before it left.
- {rounds} rounds after a warm-up; in a round each side calls for {} ms, and the side that goes first changes. 'Best' and 'median' are of the rounds, for one call, in processor time of the thread. A ratio is the median of the rounds' ratios: all sides of a round follow one another, so that a change of the processor's speed falls on all. Where best and median differ by more than a fifth the machine was not quiet, and the row is measured again, six times at most.
",
            round.as_millis()
        )
    }

    fn calls(&self) -> String {
        let Letters { unknowns, givens } = self.letters;
        let rows = |rows: &[Row]| rows.iter().map(|row| table_line(&row.name, row.times)).collect();
        let (typical, dense): (String, String) = (rows(&self.typical), rows(&self.dense));
        let head = table_head("call");
        format!(
            "## Each call at ten letters

U = {unknowns}, G = {givens}. Typical inputs:

{head}{typical}
Dense inputs:

{head}{dense}"
        )
    }

    fn whole_sheet(&self) -> String {
        let Sheet { whole, net, nones, input_bytes, output_bytes } = &self.sheet;
        let line = |side: usize| net.times[side].best / 1e3 / ROUTES as f64;
        format!(
            "## The whole sheet

{ROUTES} typical conditions over ten letters (U from 4 to 6), routes 1 to {ROUTES}, {input_bytes} bytes in, {output_bytes} bytes out, the same from all programs; {} are solved, {nones} are 'none'. Each program runs as a process of its own, in turns, its output to `/dev/null`; the time is user and system time, 'net' is less that of runs on no lines in the same round, best less best and median less median. Net, at best, a line takes the engine {:.1} µs, plain Rust on bytes {:.1} µs, on words {:.1} µs.

{}{}{}",
            ROUTES - nones,
            line(ENGINE),
            line(BYTES),
            line(WORDS),
            table_head("250 conditions"),
            table_line("net of start-up", *net),
            table_line("whole", *whole),
        )
    }

    fn letters(&self) -> String {
        let cells = |cells: Vec<String>| format!("| {} |\n", cells.join(" | "));
        let numbers = self.numbers_of_letters.clone().map(|count| count.to_string());
        let mut table = cells(["ratios at".to_string()].into_iter().chain(numbers).collect());
        table += &cells(vec!["---".to_string(); self.numbers_of_letters.clone().count() + 1]);
        for series in &self.by_letters {
            let ratios = series
                .points
                .iter()
                .map(|point| format!("{:.2}, {:.2}", point.ratios[BYTES], point.ratios[WORDS]));
            table += &cells([series.name.to_string()].into_iter().chain(ratios).collect());
        }
        format!(
            "## Time against the number of letters

![Time of six calls against the number of letters, engine and plain Rust](time-by-letters.svg)

Typical inputs; the plot has the best of the rounds, the table the ratios to bytes and to words. Half of the letters and one more are unknowns, so that ten letters are those of the tables above.

{table}
Writing an entry, the best of the same rounds:

{}",
            self.writing()
        )
    }

    fn writing(&self) -> String {
        let mut table = "| letters | engine | bytes | words | by bytes | by words |
|---|---:|---:|---:|---:|---:|\n"
            .to_string();
        for series in self.by_letters.iter().filter(|series| series.name == WRITING) {
            let points = self.numbers_of_letters.clone().zip(&series.points);
            for (count, point) in points.filter(|(count, _)| WRITING_AT.contains(count)) {
                let [engine, bytes, words] = point.times.map(|times| duration(times.best));
                let (by_bytes, by_words) = (point.ratios[BYTES], point.ratios[WORDS]);
                table += &format!(
                    "| {count} | {engine} | {bytes} | {words} | **{by_bytes:.2}** | **{by_words:.2}** |\n"
                );
            }
        }
        table
    }

    fn written_order(&self) -> String {
        let mut table = String::new();
        for (count, compared) in &self.written_order {
            let [before, after] = [BEFORE, AFTER].map(|side| duration(compared.times[side].best));
            let ratio = compared.ratios[BEFORE];
            table += &format!("| {count} | {before} | {after} | **{ratio:.3}** |\n");
        }
        format!(
            "## The written order, before and after

Filling a buffer with the masks for so many letters: before, each mask worked out from counts of letters; after, taken from a constant table, where fewer letters skip the masks that are too large: a table of the masks of ten letters, or, up to six letters, of six. Both are plain Rust ports of the engine's methods, side by side in this run, since the formula no longer stands in the engine; the port lays the table out on the stack for each call, as the engine's compiler does with a constant. The ratio is after by before.

| letters | from counts, best | from the table, best | ratio |
|---|---:|---:|---:|
{table}"
        )
    }

    fn counting(&self) -> String {
        let mut table = String::new();
        for (name, compared) in self.counting.products() {
            let [without, with] = [WITHOUT, WITH].map(|side| duration(compared.times[side].best));
            let ratio = compared.ratios[WITHOUT];
            table += &format!("| {name} | {without} | {with} | **{ratio:.3}** |\n");
        }
        format!(
            "## What counting costs

The product call always counts its monomials. So a product that counts them or not is measured, side by side in this run: its questions, and behind them the engine's own work (`crates/measured`), which is values of both tables in words, their product, the way back, the words unpacked. Both sides are one function, but for a branch at its end: where loops fall in a line of the cache moves the time of a product by up to 6 %, more than is measured here. The monomials are counted by the machine's count of ones, `count_ones`, on the words that the bytes come from. From six letters on each word is counted as it is unpacked. Plain Rust is measured both ways too, with its own counts, each side as it is compiled. The ratio is with the count by without it.

| product of two tables | without the count, best | with it, best | ratio |
|---|---:|---:|---:|
{table}
At ten letters the engine has the ratio {}.
",
            self.counting_cost(),
        )
    }

    /// The ratio of the engine's method at the most letters, and the bound.
    fn counting_cost(&self) -> String {
        let ratio = self.counting.ratio();
        let part = 100.0 * (ratio - 1.0);
        format!(
            "{ratio:.3}, so that counting is {part:.1} % of a product; the request's bound is 3 %"
        )
    }
}

fn table_head(first: &str) -> String {
    format!(
        "| {first} | engine, best | median | bytes, best | median | words, best | median | by bytes | by words |
|---|---:|---:|---:|---:|---:|---:|---:|---:|\n"
    )
}

fn table_line(name: &str, compared: Compared) -> String {
    let columns =
        |Times { best, median }: Times| format!("{} | {}", duration(best), duration(median));
    let [engine, bytes, words] = compared.times.map(columns);
    let (by_bytes, by_words) = (compared.ratios[BYTES], compared.ratios[WORDS]);
    format!("| {name} | {engine} | {bytes} | {words} | **{by_bytes:.2}** | **{by_words:.2}** |\n")
}

fn duration(nanoseconds: f64) -> String {
    match nanoseconds {
        ..1e3 => format!("{nanoseconds:.0} ns"),
        ..1e4 => format!("{:.2} µs", nanoseconds / 1e3),
        ..1e6 => format!("{:.1} µs", nanoseconds / 1e3),
        _ => format!("{:.1} ms", nanoseconds / 1e6),
    }
}
