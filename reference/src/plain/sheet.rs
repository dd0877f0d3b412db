//! The program `sheet`.

use super::entry::Entry;
use super::fact::UnderFact;
use super::hexadecimal::Hexadecimal;
use super::text::text_values;
use super::{for_blocks, Block};
use crate::programs::{read_line, Fields};
use crate::questions::{ask, ask_letters, ask_route, ask_text_length, Letters, Order, Refusal};
use std::io::{self, BufRead, Write};

/// The output goes on its way in pieces of about this length, which stay in the cache.
const PIECE: usize = 1 << 15;

/// Prints what `sheet` prints for its standard input.
pub fn print_sheet<B: Block>(mut input: impl BufRead, mut output: impl Write) -> io::Result<()> {
    let mut last_route = 0;
    let mut line = Vec::new();
    let mut printed = Vec::new();
    while input.read_until(b'\n', &mut line)? > 0 {
        match read_line(line.strip_suffix(b"\n").unwrap_or(&line)) {
            None => printed.extend_from_slice(b"unreadable\n"),
            Some(fields) => match print_entry::<B>(&fields, last_route, &mut printed) {
                Ok(()) => last_route = fields.route,
                Err(Refusal(number)) => writeln!(printed, "refused {number}")?,
            },
        }
        line.clear();
        if printed.len() > PIECE {
            output.write_all(&printed)?;
            printed.clear();
        }
    }
    output.write_all(&printed)
}

/// The records of a line. Questions 1, 2, 3, 5, 6, 7, 15.
fn print_entry<B: Block>(
    fields: &Fields,
    last_route: u64,
    printed: &mut Vec<u8>,
) -> Result<(), Refusal> {
    let letters = ask_letters(fields.unknowns, fields.givens)?;
    ask_route(fields.route)?;
    ask_text_length(fields.text)?;
    for_blocks!(B, letters.count(), print_records(letters, fields, last_route, printed))
}

fn print_records<B: Block, const K: usize>(
    letters: Letters,
    fields: &Fields,
    last_route: u64,
    printed: &mut Vec<u8>,
) -> Result<(), Refusal> {
    let values = text_values::<B, K>(letters, fields.text)?;
    ask(15, fields.route > last_route)?;
    let order = Order::default_for(letters.unknowns);
    let asked = UnderFact { fact: None, condition: values.transformed() };
    let entry = Entry::new(fields.route as u8, letters, order, &asked, values);
    let end = printed.len();
    printed.resize(end + entry.length::<Hexadecimal>(), 0);
    entry.put::<Hexadecimal>(&mut printed[end..]);
    Ok(())
}
