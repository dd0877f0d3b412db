//! The program `sheet` in plain Rust, one byte a value: the same output as the engine's.

use std::io;

fn main() -> io::Result<()> {
    reference::plain::print_sheet::<reference::plain::Bytes>(
        io::stdin().lock(),
        io::stdout().lock(),
    )
}
