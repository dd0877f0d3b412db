//! The two programs, as functions from bytes to the bytes printed.

use crate::entry::{entry_records, Count, Record, Walk};
use crate::polynomial::Polynomial;
use crate::questions::{ask, ask_letters, ask_route, ask_text_length, Letters, Refusal};
use crate::solution::UnderFact;
use crate::text::read_tree;

/// Longer lines print `unreadable`; the line feed does not count.
const LONGEST_LINE: usize = 300;
/// The volume has at most 65,536 bytes.
const LONGEST_VOLUME: usize = 65_536;

/// What `sheet` prints for its standard input.
pub fn sheet(input: &[u8]) -> Vec<u8> {
    let mut output = String::new();
    let mut last_route = 0;
    for line in lines(input) {
        match read_line(line) {
            None => output.push_str("unreadable\n"),
            Some(fields) => match entry_of(&fields, last_route) {
                Err(Refusal(number)) => output.push_str(&format!("refused {number}\n")),
                Ok(records) => {
                    last_route = fields.route;
                    records.into_iter().for_each(|record| print_record(record, &mut output));
                }
            },
        }
    }
    output.into_bytes()
}

/// The last line may lack its line feed, and no line follows a last line feed.
fn lines(input: &[u8]) -> Vec<&[u8]> {
    let mut lines: Vec<&[u8]> = input.split(|&byte| byte == b'\n').collect();
    if lines.last().is_some_and(|line| line.is_empty()) {
        lines.pop();
    }
    lines
}

pub struct Fields<'a> {
    pub route: u64,
    pub unknowns: u64,
    pub givens: u64,
    pub text: &'a [u8],
}

/// Route (1 to 3 digits), U, G (one digit each), text, single spaces between.
pub fn read_line(line: &[u8]) -> Option<Fields<'_>> {
    if line.len() > LONGEST_LINE {
        return None;
    }
    let mut parts = line.splitn(4, |&byte| byte == b' ');
    let route = read_digits(parts.next()?, 3)?;
    let unknowns = read_digits(parts.next()?, 1)?;
    let givens = read_digits(parts.next()?, 1)?;
    Some(Fields { route, unknowns, givens, text: parts.next()? })
}

/// The number of 1 to `most` digits.
fn read_digits(digits: &[u8], most: usize) -> Option<u64> {
    let right = (1..=most).contains(&digits.len()) && digits.iter().all(u8::is_ascii_digit);
    right.then(|| digits.iter().fold(0, |number, digit| 10 * number + (digit - b'0') as u64))
}

/// The records for a line. Questions 1, 2, 3, 5, 6, 7, 15.
fn entry_of(fields: &Fields, last_route: u64) -> Result<Vec<Record>, Refusal> {
    let letters: Letters = ask_letters(fields.unknowns, fields.givens)?;
    ask_route(fields.route)?;
    ask_text_length(fields.text)?;
    let tree = read_tree(letters, fields.text)?;
    ask(15, fields.route > last_route)?;
    let order: Vec<usize> = (0..letters.unknowns).collect();
    let asked = UnderFact { fact: Polynomial::zero(), condition: tree.polynomial() };
    Ok(entry_records(fields.route as u8, letters, &order, &asked))
}

/// Two lower-case hexadecimal digits a byte, one record on a line.
fn print_record(record: Record, output: &mut String) {
    for byte in record.bytes() {
        output.push_str(&format!("{byte:02x}"));
    }
    output.push('\n');
}

/// What `walk` prints for the bytes of its file, or for no readable file.
pub fn walk_output(volume: Option<&[u8]>) -> String {
    match volume {
        Some(volume) if volume.len() <= LONGEST_VOLUME => {
            match (Walk { volume, place: 0 }).count() {
                Count::Whole(count) => format!("{count}\n"),
                Count::Refused(Refusal(number), passed) => format!("refused {number} {passed}\n"),
            }
        }
        _ => "unreadable\n".to_string(),
    }
}
