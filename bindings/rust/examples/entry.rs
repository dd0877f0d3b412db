//! Reads a text, writes its entry, reads the entry back and prints it.
//!
//!     cargo run --offline --example entry -- [ROUTE U G TEXT [ORDER [FACT]]]
//!
//! Without arguments: the row (2,0) `u+v+1` of the paper's bench table, as route 7. ORDER is the
//! unknowns, first eliminated first, as `vu`; without it, or with `-`, they go as `uvwxyz`. FACT is a
//! text over the givens, as `a*b`; only states where it is 0 count, all of them without it. Prints
//! the order and the fact where the entry holds them, the condition and the answers as polynomials,
//! or 'none' and the state. Exit status: 0 if the entry is written and read back, 1 if a call
//! refuses, 2 if the arguments are not three numbers, a text, at most six letters and a text.

use layodegi::{read_entry, read_text, write_entry, Answer, Letters, Order, Reading, Refusal};
use layodegi::{LONGEST_ENTRY, LONGEST_TABLE};
use std::os::unix::ffi::OsStringExt;
use std::process::ExitCode;

const UNKNOWNS: [char; 6] = ['u', 'v', 'w', 'x', 'y', 'z'];
const GIVENS: [char; 8] = ['a', 'b', 'c', 'd', 'e', 'f', 'g', 'h'];

fn main() -> ExitCode {
    let Some(asked) = read_arguments() else {
        eprintln!("usage: entry [ROUTE U G TEXT [ORDER [FACT]]]");
        return ExitCode::from(2);
    };
    match print_read_back(&asked) {
        Ok(()) => ExitCode::SUCCESS,
        Err(refusal) => {
            println!("{refusal}");
            ExitCode::FAILURE
        }
    }
}

/// A route and what is to be solved, as texts.
struct Asked {
    route: usize,
    letters: Letters,
    order: Order,
    fact: Vec<u8>,
    condition: Vec<u8>,
}

fn read_arguments() -> Option<Asked> {
    let words: Vec<Vec<u8>> = std::env::args_os().skip(1).map(OsStringExt::into_vec).collect();
    let number = |word: &[u8]| std::str::from_utf8(word).ok()?.parse().ok();
    let usual = ["7", "2", "0", "u+v+1"].map(|word| word.as_bytes().to_vec());
    let (route, unknowns, givens, condition, others) = match &words[..] {
        [] => (&usual[0], &usual[1], &usual[2], &usual[3], &[][..]),
        [route, unknowns, givens, text, others @ ..] => (route, unknowns, givens, text, others),
        _ => return None,
    };
    let letters = Letters { unknowns: number(unknowns)?, givens: number(givens)? };
    let (order, fact) = match others {
        [] => (&b"-"[..], &b"0"[..]),
        [order] => (&order[..], &b"0"[..]),
        [order, fact] => (&order[..], &fact[..]),
        _ => return None,
    };
    let order = match order {
        b"-" => Order::default_for(letters.unknowns),
        letters => read_order(letters)?,
    };
    let (fact, condition) = (fact.to_vec(), condition.clone());
    Some(Asked { route: number(route)?, letters, order, fact, condition })
}

/// The order that letters name, first eliminated first.
fn read_order(word: &[u8]) -> Option<Order> {
    let number = |letter: &u8| letter.checked_sub(b'u').filter(|&number| number < 6);
    Order::of(&word.iter().map(number).collect::<Option<Vec<u8>>>()?)
}

fn print_read_back(asked: &Asked) -> Result<(), Refusal> {
    let Asked { route, letters, order, .. } = *asked;
    let [mut fact, mut condition] = [[0; LONGEST_TABLE]; 2];
    let mut bytes = vec![0; LONGEST_ENTRY];
    read_text(letters, &asked.fact, &mut fact)?;
    read_text(letters, &asked.condition, &mut condition)?;
    let length = write_entry(route, letters, order, &fact, &condition, &mut bytes)?;

    let mut answers = vec![0; letters.answers_length()];
    let reading = read_entry(&bytes[..length], &mut fact, &mut condition, &mut answers)?;
    print_entry(reading, &fact, &condition, &answers);
    Ok(())
}

fn print_entry(reading: Reading, fact: &[u8], condition: &[u8], answers: &[u8]) {
    let Reading { entry, order } = reading;
    let letters = entry.letters;
    let Letters { unknowns, givens } = letters;
    println!("route {}, U {unknowns}, G {givens}, {} bytes", entry.route, entry.length);
    if order != Order::default_for(unknowns) {
        let names = order.unknowns().iter().map(|&unknown| UNKNOWNS[usize::from(unknown)]);
        println!("order: {}", names.collect::<String>());
    }
    let table_length = letters.table_length();
    if fact[..table_length].contains(&1) {
        println!("fact: {}", polynomial(letters, &fact[..table_length]));
    }
    println!("condition: {}", polynomial(letters, &condition[..table_length]));
    match entry.answer {
        Answer::Solved => {
            for (unknown, table) in UNKNOWNS.iter().zip(answers.chunks(table_length)) {
                println!("{unknown} = {}", polynomial(letters, table));
            }
        }
        Answer::None(state) => {
            print!("none: {state}");
            for (i, given) in GIVENS[..letters.givens].iter().enumerate() {
                print!(", {given} = {}", state.0 >> i & 1);
            }
            println!();
        }
    }
}

/// A table as a polynomial, in the written order: fewer letters first, then the smaller mask.
fn polynomial(letters: Letters, table: &[u8]) -> String {
    let mut masks: Vec<usize> = (0..table.len()).filter(|&mask| table[mask] == 1).collect();
    masks.sort_by_key(|mask| (mask.count_ones(), *mask));
    let monomials: Vec<String> = masks.into_iter().map(|mask| monomial(letters, mask)).collect();
    if monomials.is_empty() {
        "0".to_string()
    } else {
        monomials.join(" + ")
    }
}

fn monomial(letters: Letters, mask: usize) -> String {
    let declared = UNKNOWNS[..letters.unknowns].iter().chain(&GIVENS[..letters.givens]);
    let present = declared.enumerate().filter(|(bit, _)| mask >> bit & 1 == 1);
    let names: Vec<String> = present.map(|(_, letter)| letter.to_string()).collect();
    if names.is_empty() {
        "1".to_string()
    } else {
        names.join("*")
    }
}
