//! The calls on lent tables, with the questions of `crate::calls`.

use super::counts::{ask_bits_counted, put_sum};
use super::fact;
use super::solving::{self, ask_order, Answers};
use super::table::Table;
use super::text::text_values;
use super::{for_blocks, Block};
use crate::questions::{
    ask, ask_length, ask_letters, ask_mask, ask_text_length, Choice, Letters, Order, Refusal,
    State, MOST_UNKNOWNS,
};
use crate::solution::Solved;

/// 8: one union of all bytes, with no early way out, so that it goes by vectors.
///
/// Answers whether any byte is 1.
pub fn ask_bits(table: &[u8]) -> Result<bool, Refusal> {
    let all = table.iter().fold(0, |all, byte| all | byte);
    ask(8, all <= 1)?;
    Ok(all == 1)
}

/// Reads a text into the condition buffer. Questions 1, 3, 4, 5, 6, 7.
pub fn read_text<B: Block>(
    u: u64,
    g: u64,
    text: &[u8],
    condition: &mut [u8],
) -> Result<(), Refusal> {
    let letters = ask_letters(u, g)?;
    ask_text_length(text)?;
    ask_length(condition, letters.table_length())?;
    let condition = &mut condition[..letters.table_length()];
    for_blocks!(B, letters.count(), put_text(letters, text, condition))
}

fn put_text<B: Block, const K: usize>(
    letters: Letters,
    text: &[u8],
    condition: &mut [u8],
) -> Result<(), Refusal> {
    text_values::<B, K>(letters, text)?.transformed().put(condition);
    Ok(())
}

/// The value of a table at a state and a choice. Questions 1, 4, 8, 16.
pub fn value<B: Block>(
    u: u64,
    g: u64,
    table: &[u8],
    state: State,
    choice: Choice,
) -> Result<u8, Refusal> {
    let letters = ask_letters(u, g)?;
    ask_length(table, letters.table_length())?;
    let table = &table[..letters.table_length()];
    ask_bits(table)?;
    ask(16, state.0 < letters.states() && choice.0 < letters.choices())?;
    // a block of 64 masks at a time, so that a mask is a byte and the loop one of whole vectors
    let absent = !letters.point(state, choice);
    let odd = |block: &[u8]| {
        let counted =
            block.iter().zip(0u8..).map(|(byte, mask)| byte & (mask & absent as u8 == 0) as u8);
        counted.fold(0, |odd, one| odd ^ one)
    };
    let blocks = table.chunks(64).zip((0u16..).step_by(64));
    Ok(blocks.filter(|(_, high)| high & absent == 0).fold(0, |sum, (block, _)| sum ^ odd(block)))
}

/// The sum of two tables, and the number of monomials present in it. Questions 1, 4, 8.
pub fn sum<B: Block>(
    u: u64,
    g: u64,
    a: &[u8],
    b: &[u8],
    result: &mut [u8],
) -> Result<usize, Refusal> {
    let (_, a, b, result) = ask_two(u, g, a, b, result)?;
    Ok(put_sum(a, b, result))
}

/// The product of two tables, and the number of monomials present in it. Questions 1, 4, 8.
pub fn product<B: Block>(
    u: u64,
    g: u64,
    a: &[u8],
    b: &[u8],
    result: &mut [u8],
) -> Result<usize, Refusal> {
    let (letters, a, b, result) = ask_two(u, g, a, b, result)?;
    Ok(for_blocks!(B, letters.count(), put_product(a, b, result)))
}

fn put_product<B: Block, const K: usize>(a: &[u8], b: &[u8], result: &mut [u8]) -> usize {
    product_of::<B, K>(a, b).put_counted(result)
}

/// The product alone: beside the other it shows what counting costs.
pub fn product_uncounted<B: Block>(
    u: u64,
    g: u64,
    a: &[u8],
    b: &[u8],
    result: &mut [u8],
) -> Result<(), Refusal> {
    let (letters, a, b, result) = ask_two(u, g, a, b, result)?;
    for_blocks!(B, letters.count(), put_product_uncounted(a, b, result));
    Ok(())
}

fn put_product_uncounted<B: Block, const K: usize>(a: &[u8], b: &[u8], result: &mut [u8]) {
    product_of::<B, K>(a, b).put(result);
}

/// The coefficients of a product.
#[inline(always)]
fn product_of<B: Block, const K: usize>(a: &[u8], b: &[u8]) -> Table<B, K> {
    let mut values = Table::<B, K>::from_bytes(a).transformed();
    values.multiply(&Table::from_bytes(b).transformed());
    values.transformed()
}

type Two<'a> = (Letters, &'a [u8], &'a [u8], &'a mut [u8]);

/// Questions 1, 4 and 8 of two tables and the buffer for their result, each cut to its length.
fn ask_two<'a>(
    u: u64,
    g: u64,
    a: &'a [u8],
    b: &'a [u8],
    result: &'a mut [u8],
) -> Result<Two<'a>, Refusal> {
    let letters = ask_letters(u, g)?;
    let length = letters.table_length();
    ask_length(a, length)?;
    ask_length(b, length)?;
    ask_length(result, length)?;
    let (a, b) = (&a[..length], &b[..length]);
    ask_bits(a)?;
    ask_bits(b)?;
    Ok((letters, a, b, &mut result[..length]))
}

/// Handed polynomials put into a condition, and the number of monomials present in the result.
/// Questions 1, 4, 8.
pub fn substitute<B: Block>(
    u: u64,
    g: u64,
    condition: &[u8],
    handed: &[u8],
    result: &mut [u8],
) -> Result<usize, Refusal> {
    let letters = ask_letters(u, g)?;
    let (length, answer_length) = (letters.table_length(), letters.answer_length());
    ask_length(condition, length)?;
    ask_length(handed, answer_length)?;
    ask_length(result, length)?;
    let (condition, handed) = (&condition[..length], &handed[..answer_length]);
    ask_bits(condition)?;
    ask_bits(handed)?;
    let result = &mut result[..length];
    Ok(for_blocks!(B, letters.count(), put_substituted(letters, condition, handed, result)))
}

fn put_substituted<B: Block, const K: usize>(
    letters: Letters,
    condition: &[u8],
    handed: &[u8],
    result: &mut [u8],
) -> usize {
    let f = Table::<B, K>::from_bytes(condition).transformed();
    let b = handed_values(letters, handed);
    f.put_for_lowest(&b[..letters.unknowns]).transformed().put_counted(result)
}

/// The values of handed polynomials; zeros behind the last unknown.
fn handed_values<B: Block, const K: usize>(letters: Letters, handed: &[u8]) -> Answers<B, K> {
    let mut values = [Table::ZERO; MOST_UNKNOWNS as usize];
    for (b, bytes) in values.iter_mut().zip(handed.chunks_exact(letters.table_length())) {
        *b = Table::from_bytes(bytes).transformed();
    }
    values
}

/// The vectorial derivative of a table by a set S of letters, a mask. Questions 1, 4, 8, 20.
pub fn derivative<B: Block>(
    u: u64,
    g: u64,
    table: &[u8],
    s: u64,
    result: &mut [u8],
) -> Result<(), Refusal> {
    let letters = ask_letters(u, g)?;
    let length = letters.table_length();
    ask_length(table, length)?;
    ask_length(result, length)?;
    let table = &table[..length];
    ask_bits(table)?;
    let mask = ask_mask(letters, s)? as usize;
    for_blocks!(B, letters.count(), put_derivative(table, mask, &mut result[..length]));
    Ok(())
}

fn put_derivative<B: Block, const K: usize>(table: &[u8], mask: usize, result: &mut [u8]) {
    B::derivative::<K>(table, mask, result);
}

/// Boole's answer. Questions 1, 17, 4, 8, 22, 23, 9.
pub fn boole<B: Block>(
    u: u64,
    g: u64,
    order: Order,
    fact: &[u8],
    condition: &[u8],
    answers: &mut [u8],
) -> Result<Solved, Refusal> {
    let (letters, order, lent, answers) = ask_solving(u, g, &order, fact, condition, answers)?;
    for_blocks!(B, letters.count(), put_boole(letters, order, lent, answers))
}

fn put_boole<B: Block, const K: usize>(
    letters: Letters,
    order: &[u8],
    lent: fact::Lent,
    answers: &mut [u8],
) -> Result<Solved, Refusal> {
    let f = lent.tables::<B, K>(letters)?.values();
    Ok(put_answers(letters, solving::boole(order, f), answers))
}

/// The particular solution. Questions 1, 17, 4, 8, 22, 23, 9.
pub fn particular<B: Block>(
    u: u64,
    g: u64,
    order: Order,
    fact: &[u8],
    condition: &[u8],
    answers: &mut [u8],
) -> Result<Solved, Refusal> {
    let (letters, order, lent, answers) = ask_solving(u, g, &order, fact, condition, answers)?;
    for_blocks!(B, letters.count(), put_particular(letters, order, lent, answers))
}

fn put_particular<B: Block, const K: usize>(
    letters: Letters,
    order: &[u8],
    lent: fact::Lent,
    answers: &mut [u8],
) -> Result<Solved, Refusal> {
    let f = lent.tables::<B, K>(letters)?.values();
    Ok(put_answers(letters, solving::particular(order, f), answers))
}

/// The own Löwenheim answer. Questions 1, 17, 4, 8, 22, 23, 9.
pub fn lowenheim<B: Block>(
    u: u64,
    g: u64,
    order: Order,
    fact: &[u8],
    condition: &[u8],
    answers: &mut [u8],
) -> Result<Solved, Refusal> {
    let (letters, order, lent, answers) = ask_solving(u, g, &order, fact, condition, answers)?;
    for_blocks!(B, letters.count(), put_lowenheim(letters, order, lent, answers))
}

fn put_lowenheim<B: Block, const K: usize>(
    letters: Letters,
    order: &[u8],
    lent: fact::Lent,
    answers: &mut [u8],
) -> Result<Solved, Refusal> {
    let f = lent.tables::<B, K>(letters)?.values();
    Ok(put_answers(letters, solving::lowenheim(order, f), answers))
}

type Solving<'a> = (Letters, &'a [u8], fact::Lent<'a>, &'a mut [u8]);

/// Questions 1, 17, 4 and 8 of an order, a fact, a condition and an answer buffer, each cut to its
/// length.
fn ask_solving<'a>(
    u: u64,
    g: u64,
    order: &'a Order,
    fact: &'a [u8],
    condition: &'a [u8],
    answers: &'a mut [u8],
) -> Result<Solving<'a>, Refusal> {
    let letters = ask_letters(u, g)?;
    let order = ask_order(letters, order)?;
    ask_length(fact, letters.table_length())?;
    ask_length(condition, letters.table_length())?;
    ask_length(answers, letters.answer_length())?;
    let lent = fact::Lent::ask(letters, fact, condition)?;
    Ok((letters, order, lent, &mut answers[..letters.answer_length()]))
}

fn put_answers<B: Block, const K: usize>(
    letters: Letters,
    solved: Result<Answers<B, K>, State>,
    answers: &mut [u8],
) -> Solved {
    match &solved {
        Err(state) => Solved::None(*state),
        Ok(values) => Solved::Done { monomials: put_tables(letters, values, answers) },
    }
}

/// The tables of the answers, from their values; gives the total of their monomials.
fn put_tables<B: Block, const K: usize>(
    letters: Letters,
    values: &Answers<B, K>,
    answers: &mut [u8],
) -> usize {
    let tables = values.iter().zip(answers.chunks_exact_mut(letters.table_length()));
    tables.map(|(answer, bytes)| answer.transformed().put_counted(bytes)).sum()
}

/// Löwenheim's formula with handed polynomials that make f*(1 + g) zero.
/// Questions 1, 4, 8, 22, 23, 21.
pub fn lowenheim_handed<B: Block>(
    u: u64,
    g: u64,
    fact: &[u8],
    condition: &[u8],
    handed: &[u8],
    answers: &mut [u8],
) -> Result<usize, Refusal> {
    let letters = ask_letters(u, g)?;
    let (length, answer_length) = (letters.table_length(), letters.answer_length());
    ask_length(fact, length)?;
    ask_length(condition, length)?;
    ask_length(handed, answer_length)?;
    ask_length(answers, answer_length)?;
    let lent = fact::Lent::ask(letters, fact, condition)?;
    let (handed, answers) = (&handed[..answer_length], &mut answers[..answer_length]);
    ask_bits(handed)?;
    for_blocks!(B, letters.count(), put_formula(letters, lent, handed, answers))
}

/// Question 21 on values, so that nothing goes back to coefficients before it is answered; the
/// formula takes the same values.
fn put_formula<B: Block, const K: usize>(
    letters: Letters,
    lent: fact::Lent,
    handed: &[u8],
    answers: &mut [u8],
) -> Result<usize, Refusal> {
    let f = lent.tables::<B, K>(letters)?.values();
    let mut b = handed_values(letters, handed);
    ask(21, f.is_made_zero_by(&b[..letters.unknowns]))?;
    solving::formula(&f, &mut b[..letters.unknowns]);
    Ok(put_tables(letters, &b, answers))
}

/// The shorter of Boole's and Löwenheim's answer tables, Boole's if the totals tie.
/// Questions 1, 4, 8.
pub fn shorter<'a>(
    u: u64,
    g: u64,
    boole: &'a [u8],
    lowenheim: &'a [u8],
) -> Result<&'a [u8], Refusal> {
    let letters = ask_letters(u, g)?;
    let length = letters.answer_length();
    ask_length(boole, length)?;
    ask_length(lowenheim, length)?;
    let (boole, lowenheim) = (&boole[..length], &lowenheim[..length]);
    let is_boole = ask_bits_counted(boole)? <= ask_bits_counted(lowenheim)?;
    Ok(if is_boole { boole } else { lowenheim })
}
