//! The program `sheet` in plain Rust, 64 values to a word: the same output as the engine's.

use std::io;

fn main() -> io::Result<()> {
    reference::plain::print_sheet::<u64>(io::stdin().lock(), io::stdout().lock())
}
