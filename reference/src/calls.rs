//! The calls on lent tables. Each asks its questions in the papers' order, works
//! out the whole result, and only then changes a lent byte.
//! Question 4 goes to all buffers before 8 goes to all tables to be read;
//! bytes behind the asked length are neither asked nor changed.

use crate::polynomial::Polynomial;
use crate::questions::{
    ask, ask_bytes, ask_fact, ask_length, ask_letters, ask_makes_zero, ask_mask, ask_order,
    ask_text_length, Choice, Letters, Order, Refusal, State,
};
use crate::solution::{
    formula, solve_boole, solve_lowenheim, solve_particular, Solution, Solved, UnderFact,
};
use crate::text::read_tree;

/// Reads a text into the condition buffer. Questions 1, 3, 4, 5, 6, 7.
pub fn read_text(u: u64, g: u64, text: &[u8], condition: &mut [u8]) -> Result<(), Refusal> {
    let letters = ask_letters(u, g)?;
    ask_text_length(text)?;
    ask_length(condition, letters.table_length())?;
    let tree = read_tree(letters, text)?;
    fill(condition, letters, &[tree.polynomial()]);
    Ok(())
}

/// The value of a table at a state and a choice. Questions 1, 4, 8, 16.
pub fn value(u: u64, g: u64, table: &[u8], state: State, choice: Choice) -> Result<u8, Refusal> {
    let letters = ask_letters(u, g)?;
    ask_length(table, letters.table_length())?;
    ask_bytes(table, letters.table_length())?;
    ask(16, state.0 < letters.states() && choice.0 < letters.choices())?;
    Ok(lent(table, letters).value(letters.point(state, choice)))
}

/// The sum of two tables, and the number of monomials present in it. Questions 1, 4, 8.
pub fn sum(u: u64, g: u64, a: &[u8], b: &[u8], result: &mut [u8]) -> Result<usize, Refusal> {
    let letters = ask_two_tables(u, g, a, b, result)?;
    Ok(fill_counted(result, letters, &[lent(a, letters).sum(&lent(b, letters))]))
}

/// The product of two tables, and the number of monomials present in it. Questions 1, 4, 8.
pub fn product(u: u64, g: u64, a: &[u8], b: &[u8], result: &mut [u8]) -> Result<usize, Refusal> {
    let letters = ask_two_tables(u, g, a, b, result)?;
    Ok(fill_counted(result, letters, &[lent(a, letters).product(&lent(b, letters))]))
}

/// Handed polynomials put into a condition, and the number of monomials present in the result.
/// Questions 1, 4, 8.
pub fn substitute(
    u: u64,
    g: u64,
    condition: &[u8],
    handed: &[u8],
    result: &mut [u8],
) -> Result<usize, Refusal> {
    let letters = ask_letters(u, g)?;
    ask_length(condition, letters.table_length())?;
    ask_length(handed, letters.answer_length())?;
    ask_length(result, letters.table_length())?;
    ask_bytes(condition, letters.table_length())?;
    ask_bytes(handed, letters.answer_length())?;
    let f = lent(condition, letters);
    Ok(fill_counted(result, letters, &[f.substitute(&lent_answers(handed, letters))]))
}

/// The vectorial derivative of a table by a set S of letters: f plus f with every letter of S
/// inverted. S is any number, its bits as in a monomial. Questions 1, 4, 8, 20.
pub fn derivative(u: u64, g: u64, table: &[u8], s: u64, result: &mut [u8]) -> Result<(), Refusal> {
    let letters = ask_letters(u, g)?;
    ask_length(table, letters.table_length())?;
    ask_length(result, letters.table_length())?;
    ask_bytes(table, letters.table_length())?;
    let mask = ask_mask(letters, s)?;
    let f = lent(table, letters);
    fill(result, letters, &[f.sum(&f.inverted(mask))]);
    Ok(())
}

/// Boole's answer under a fact, the unknowns going in an order, and the total of its monomials.
/// Questions 1, 17, 4, 8, 22, 23, 9.
pub fn boole(
    u: u64,
    g: u64,
    order: Order,
    fact: &[u8],
    condition: &[u8],
    answers: &mut [u8],
) -> Result<Solved, Refusal> {
    solve(u, g, order, fact, condition, answers, solve_boole)
}

/// The particular solution, and the total of its monomials. Questions 1, 17, 4, 8, 22, 23, 9.
pub fn particular(
    u: u64,
    g: u64,
    order: Order,
    fact: &[u8],
    condition: &[u8],
    answers: &mut [u8],
) -> Result<Solved, Refusal> {
    solve(u, g, order, fact, condition, answers, solve_particular)
}

/// The engine's own Löwenheim answer, and the total of its monomials.
/// Questions 1, 17, 4, 8, 22, 23, 9.
pub fn lowenheim(
    u: u64,
    g: u64,
    order: Order,
    fact: &[u8],
    condition: &[u8],
    answers: &mut [u8],
) -> Result<Solved, Refusal> {
    solve(u, g, order, fact, condition, answers, solve_lowenheim)
}

/// Löwenheim's formula with handed polynomials that make f*(1 + g) zero: a general solution, and the
/// total of its monomials over the unknowns. What is handed may mention unknowns.
/// Questions 1, 4, 8, 22, 23, 21.
pub fn lowenheim_handed(
    u: u64,
    g: u64,
    fact: &[u8],
    condition: &[u8],
    handed: &[u8],
    answers: &mut [u8],
) -> Result<usize, Refusal> {
    let letters = ask_letters(u, g)?;
    ask_length(fact, letters.table_length())?;
    ask_length(condition, letters.table_length())?;
    ask_length(handed, letters.answer_length())?;
    ask_length(answers, letters.answer_length())?;
    ask_bytes(handed, letters.answer_length())?;
    let f = ask_under_fact(letters, fact, condition)?.counted();
    let b = lent_answers(handed, letters);
    ask_makes_zero(&f, &b)?;
    Ok(fill_counted(answers, letters, &formula(letters, &f, &b)))
}

/// Of Boole's and Löwenheim's answer tables the shorter, the one with fewer monomials over all
/// unknowns: the lent table itself, cut to U times 2^n bytes. Boole's if the totals tie.
/// Questions 1, 4, 8.
pub fn shorter<'a>(
    u: u64,
    g: u64,
    boole: &'a [u8],
    lowenheim: &'a [u8],
) -> Result<&'a [u8], Refusal> {
    let letters = ask_letters(u, g)?;
    let length = letters.answer_length();
    ask_length(boole, length)?;
    ask_length(lowenheim, length)?;
    ask_bytes(boole, length)?;
    ask_bytes(lowenheim, length)?;
    let monomials = |tables: &[u8]| total(&lent_answers(tables, letters));
    let is_boole = monomials(boole) <= monomials(lowenheim);
    Ok(&(if is_boole { boole } else { lowenheim })[..length])
}

fn solve(
    u: u64,
    g: u64,
    order: Order,
    fact: &[u8],
    condition: &[u8],
    answers: &mut [u8],
    method: fn(Letters, &[usize], &UnderFact) -> Solution,
) -> Result<Solved, Refusal> {
    let letters = ask_letters(u, g)?;
    let unknowns = ask_order(letters, order)?;
    ask_length(fact, letters.table_length())?;
    ask_length(condition, letters.table_length())?;
    ask_length(answers, letters.answer_length())?;
    match method(letters, &unknowns, &ask_under_fact(letters, fact, condition)?) {
        Solution::Answers(polynomials) => {
            Ok(Solved::Done { monomials: fill_counted(answers, letters, &polynomials) })
        }
        Solution::None(state) => Ok(Solved::None(state)),
    }
}

/// Questions 8, 22 and 23 of a fact and a condition that have passed 4.
pub fn ask_under_fact(
    letters: Letters,
    fact: &[u8],
    condition: &[u8],
) -> Result<UnderFact, Refusal> {
    ask_bytes(fact, letters.table_length())?;
    ask_bytes(condition, letters.table_length())?;
    let asked = UnderFact { fact: lent(fact, letters), condition: lent(condition, letters) };
    ask_fact(letters, &asked.fact)?;
    Ok(asked)
}

/// Questions 1, 4 and 8 of two tables and the buffer for their result.
pub fn ask_two_tables(
    u: u64,
    g: u64,
    a: &[u8],
    b: &[u8],
    result: &[u8],
) -> Result<Letters, Refusal> {
    let letters = ask_letters(u, g)?;
    let length = letters.table_length();
    ask_length(a, length)?;
    ask_length(b, length)?;
    ask_length(result, length)?;
    ask_bytes(a, length)?;
    ask_bytes(b, length)?;
    Ok(letters)
}

/// The polynomial of a lent table.
pub fn lent(table: &[u8], letters: Letters) -> Polynomial {
    Polynomial::from_table(&table[..letters.table_length()])
}

/// The polynomials of a lent answer table, unknown 0 first.
pub fn lent_answers(tables: &[u8], letters: Letters) -> Vec<Polynomial> {
    let tables = &tables[..letters.answer_length()];
    tables.chunks(letters.table_length()).map(Polynomial::from_table).collect()
}

/// Puts tables one after another at the start of a buffer.
pub fn fill(buffer: &mut [u8], letters: Letters, polynomials: &[Polynomial]) {
    let length = letters.table_length();
    for (place, polynomial) in buffer.chunks_mut(length).zip(polynomials) {
        place.copy_from_slice(&polynomial.to_table(length));
    }
}

/// The same, and the total of their monomials.
fn fill_counted(buffer: &mut [u8], letters: Letters, polynomials: &[Polynomial]) -> usize {
    fill(buffer, letters, polynomials);
    total(polynomials)
}

/// The monomials present in polynomials, counted over all of them.
fn total(polynomials: &[Polynomial]) -> usize {
    polynomials.iter().map(Polynomial::count).sum()
}
