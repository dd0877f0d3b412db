//! Solving by values: the values before each unknown goes are kept, and the answers are found from
//! the last unknown that went to the first. An order is the unknowns alone, and has passed 17.

use super::table::Table;
use super::Block;
use crate::questions::{ask, Letters, Order, Refusal, State, MOST_UNKNOWNS, UNUSED};

/// 17: the unknowns, first eliminated first. So many bytes that make a set of as many unknowns hold
/// each once.
pub fn ask_order(letters: Letters, order: &Order) -> Result<&[u8], Refusal> {
    let (unknowns, unused) = order.0.split_at(letters.unknowns);
    let bit = |&unknown: &u8| 1u64.checked_shl(unknown as u32).unwrap_or(0);
    let set = unknowns.iter().fold(0, |set, unknown| set | bit(unknown));
    ask(17, set == letters.choices() - 1 && unused.iter().all(|&byte| byte == UNUSED))?;
    Ok(unknowns)
}

/// A table for each unknown.
pub type Answers<B, const K: usize> = [Table<B, K>; MOST_UNKNOWNS as usize];

/// The values of Boole's answers, or the smallest blocked state.
pub fn boole<B: Block, const K: usize>(
    order: &[u8],
    f: Table<B, K>,
) -> Result<Answers<B, K>, State> {
    let mut answers = eliminate(order, f)?;
    for_each_back(order, |unknown, later| {
        // x*(r + s + 1) + s is f + x
        let mut answer = answers[unknown];
        answer.add_letter(unknown);
        answers[unknown] = with_later(answer, later, &answers);
    });
    Ok(answers)
}

/// The values of the particular solution: s, with the later answers put in.
pub fn particular<B: Block, const K: usize>(
    order: &[u8],
    f: Table<B, K>,
) -> Result<Answers<B, K>, State> {
    let mut answers = eliminate(order, f)?;
    for_each_back(order, |unknown, later| {
        let answer = answers[unknown].put_for(unknown, &Table::ZERO);
        answers[unknown] = with_later(answer, later, &answers);
    });
    Ok(answers)
}

/// Each unknown from the last that went to the first, with those that went later.
#[inline(always)]
fn for_each_back(order: &[u8], mut see: impl FnMut(usize, &[u8])) {
    let mut rest = order;
    while let Some((&unknown, earlier)) = rest.split_last() {
        see(unknown as usize, &order[rest.len()..]);
        rest = earlier;
    }
}

/// With the later answers put in, from the last on, so that no parameter is caught.
#[inline(always)]
fn with_later<B: Block, const K: usize>(
    mut answer: Table<B, K>,
    later: &[u8],
    answers: &Answers<B, K>,
) -> Table<B, K> {
    for &unknown in later.iter().rev() {
        answer = answer.put_for(unknown as usize, &answers[unknown as usize]);
    }
    answer
}

/// The values of the own Löwenheim answers.
pub fn lowenheim<B: Block, const K: usize>(
    order: &[u8],
    f: Table<B, K>,
) -> Result<Answers<B, K>, State> {
    let mut answers = particular(order, f)?;
    formula(&f, &mut answers[..order.len()]);
    Ok(answers)
}

/// x + f*(x + b) for each unknown x, in the place of its b.
pub fn formula<B: Block, const K: usize>(f: &Table<B, K>, handed: &mut [Table<B, K>]) {
    for (j, b) in handed.iter_mut().enumerate() {
        b.add_letter(j);
        b.multiply(f);
        b.add_letter(j);
    }
}

/// The values before each unknown goes, or the smallest state in which something remains.
fn eliminate<B: Block, const K: usize>(
    order: &[u8],
    f: Table<B, K>,
) -> Result<Answers<B, K>, State> {
    let mut stages = [Table::ZERO; MOST_UNKNOWNS as usize];
    let mut remains = f;
    for unknown in order.iter().map(|&byte| byte as usize) {
        stages[unknown] = remains;
        remains = remains.both_cases(unknown);
    }
    match remains.first_one() {
        Some(point) => Err(State((point >> order.len()) as u64)),
        None => Ok(stages),
    }
}
