//! Safe calls into the proved library of the thirty-year route volume.
//!
//! A route condition is a Boolean expression over givens (`a` to `h`: track clear, points
//! detected) and unknowns (`u` to `z`: circuits that the designer may still choose). The library
//! reads it as text, brings it to polynomial normal form, solves 'condition = 0', and writes,
//! reads and audits entries of the archive. Every call is proved on every input; these functions
//! add nothing but types.
//!
//! A **table** is a polynomial over n = U + G letters as 2^n bytes: byte m is 1 if the monomial
//! with the mask m is present, else 0; bit j of a mask is unknown j, bit U + i is given i, and
//! mask 0 is the monomial 1. An **answer table** is U tables one after another, unknown 0 first.
//!
//! A **fact** is a table over the givens alone: only states where it is 0 count, and a condition f under
//! a fact g is solved as f*(1 + g). Points that are never both normal and reverse are the fact `a*b`.
//! [`NO_FACT`] is the fact 0; an empty one is not special, question 4 refuses it.
//!
//! The unknowns are eliminated in an [`Order`] that the designer picks: [`Order::default_for`] gives
//! 0, 1, 2 and so on. General solutions in any two orders are instances of each other, and of the one
//! that [`lowenheim_handed`] makes out of a solution that the designer hands over.
//!
//! A draughtsman judges a circuit by its monomials: a sum, a product and a substitution come with the
//! number of monomials present in them, and answers with the total over all unknowns. Of Boole's and
//! Löwenheim's answers [`shorter`] hands back those that are shorter.
//!
//! A [`Session`] keeps the conditions that a designer adds one by one, as one table, and states of it
//! to return to. The [`derivative`] tells a maintainer whether flipping some contacts together can
//! change a circuit.
//!
//! Each call asks its questions in the order named with it. The first no is the [`Refusal`], and
//! a call that refuses has changed no byte. Buffers may be longer than they have to be: bytes
//! behind the length that the call needs are neither read nor changed.
//!
//! ```
//! use layodegi::{audit, read_entry, read_text, walk, write_entry};
//! use layodegi::{Answer, Letters, Order, LONGEST_ENTRY};
//!
//! // Points detected normal (a) and reverse (b), never both: the fact a*b.
//! let letters = Letters { unknowns: 1, givens: 2 };
//! let [mut fact, mut condition] = [(); 2].map(|()| vec![0; letters.table_length()]);
//! read_text(letters, b"a*b", &mut fact)?;
//! read_text(letters, b"a*u+b*u+b", &mut condition)?;
//! assert_eq!(condition, [0, 0, 0, 1, 1, 1, 0, 0]); // the monomials u*a, b, u*b
//!
//! let mut volume = vec![0; LONGEST_ENTRY];
//! let order = Order::default_for(1);
//! let length = write_entry(7, letters, order, &fact, &condition, &mut volume)?;
//! volume.truncate(length);
//!
//! let mut answers = vec![0; letters.answers_length()];
//! let reading = read_entry(&volume, &mut fact, &mut condition, &mut answers)?;
//! assert_eq!((reading.entry.route, reading.entry.answer), (7, Answer::Solved));
//! assert_eq!((reading.order, fact), (order, vec![0, 0, 0, 0, 0, 0, 1, 0]));
//! assert_eq!(answers, [0, 1, 0, 1, 1, 1, 1, 0]); // u = b + u + a*b + a*u + b*u
//!
//! assert_eq!(audit(&volume), Ok(reading.entry));
//! assert_eq!(walk(&volume, 0), Ok(1));
//! # Ok::<(), layodegi::Refusal>(())
//! ```

mod answer;
mod letters;
mod question;
pub mod raw;
mod session;

pub use answer::{Answer, Entry, Reading, Solution, Stopped};
pub use letters::{Choice, Letters, Mask, Order, State, NO_FACT};
pub use letters::{LAST_ROUTE, LONGEST_ANSWERS, LONGEST_ENTRY, LONGEST_TABLE, LONGEST_TEXT};
pub use question::{Question, Refusal};
pub use session::{Name, Session, Step, SESSION_LENGTH};

use answer::Code;

// Each `unsafe` below is sound for one reason: every slice is lent for the call as its own pointer
// and its own length, every order as a pointer to its six bytes, and Rust's borrows keep a written
// one apart from all others.

/// Reads a text into the table of its polynomial, 2^n bytes. Questions 1, 3, 4, 5, 6, 7.
///
/// ```
/// # use layodegi::{read_text, Letters, Question};
/// let letters = Letters { unknowns: 1, givens: 1 };
/// let mut condition = [0; 4];
/// read_text(letters, b"u | a", &mut condition)?;
/// assert_eq!(condition, [0, 1, 1, 1]); // u + a + u*a
///
/// let undeclared = read_text(letters, b"u | b", &mut condition);
/// assert_eq!(undeclared, Err(Question::Declared.into()));
/// # Ok::<(), layodegi::Refusal>(())
/// ```
pub fn read_text(letters: Letters, text: &[u8], condition: &mut [u8]) -> Result<(), Refusal> {
    let Letters { unknowns, givens } = letters;
    let code = unsafe {
        raw::layodegi_read_text(
            unknowns,
            givens,
            text.as_ptr(),
            text.len(),
            condition.as_mut_ptr(),
            condition.len(),
        )
    };
    Code(code).done()
}

/// The value, 0 or 1, of a table at a state and a choice. Questions 1, 4, 8, 16.
///
/// ```
/// # use layodegi::{value, Choice, Letters, State};
/// let letters = Letters { unknowns: 1, givens: 1 };
/// let table = [0, 1, 1, 0]; // u + a
/// assert_eq!(value(letters, &table, State(1), Choice(0)), Ok(1));
/// assert_eq!(value(letters, &table, State(1), Choice(1)), Ok(0));
/// ```
pub fn value(letters: Letters, table: &[u8], state: State, choice: Choice) -> Result<u8, Refusal> {
    let Letters { unknowns, givens } = letters;
    let code = unsafe {
        raw::layodegi_value(unknowns, givens, table.as_ptr(), table.len(), state.0, choice.0)
    };
    Code(code).number().map(|value| value as u8)
}

/// The sum of two tables, put into `out`, and how many monomials are present in it.
/// Questions 1, 4, 8.
///
/// ```
/// # use layodegi::{sum, Letters};
/// let letters = Letters { unknowns: 2, givens: 0 };
/// let mut out = [7; 4];
/// assert_eq!(sum(letters, &[0, 1, 1, 0], &[1, 1, 0, 0], &mut out), Ok(2));
/// assert_eq!(out, [1, 0, 1, 0]); // (u + v) + (1 + u) = 1 + v
/// ```
pub fn sum(letters: Letters, a: &[u8], b: &[u8], out: &mut [u8]) -> Result<usize, Refusal> {
    let Letters { unknowns, givens } = letters;
    let code = unsafe {
        raw::layodegi_sum(
            unknowns,
            givens,
            a.as_ptr(),
            a.len(),
            b.as_ptr(),
            b.len(),
            out.as_mut_ptr(),
            out.len(),
        )
    };
    Code(code).number()
}

/// The product of two tables, put into `out`, and how many monomials are present in it.
/// Questions 1, 4, 8.
///
/// ```
/// # use layodegi::{product, Letters};
/// let letters = Letters { unknowns: 2, givens: 0 };
/// let mut out = [7; 4];
/// assert_eq!(product(letters, &[0, 1, 1, 0], &[0, 1, 0, 0], &mut out), Ok(2));
/// assert_eq!(out, [0, 1, 0, 1]); // (u + v)*u = u + u*v
/// ```
pub fn product(letters: Letters, a: &[u8], b: &[u8], out: &mut [u8]) -> Result<usize, Refusal> {
    let Letters { unknowns, givens } = letters;
    let code = unsafe {
        raw::layodegi_product(
            unknowns,
            givens,
            a.as_ptr(),
            a.len(),
            b.as_ptr(),
            b.len(),
            out.as_mut_ptr(),
            out.len(),
        )
    };
    Code(code).number()
}

/// The condition with the handed polynomials (an answer table) put for its unknowns, all at once, and
/// how many monomials are present in what comes out. Questions 1, 4, 8.
///
/// ```
/// # use layodegi::{substitute, Letters};
/// let letters = Letters { unknowns: 2, givens: 0 };
/// let mut out = [7; 4];
/// let both_v = [0, 0, 1, 0, 0, 0, 1, 0]; // u = v, v = v
/// assert_eq!(substitute(letters, &[0, 1, 1, 0], &both_v, &mut out), Ok(0));
/// assert_eq!(out, [0; 4]); // it makes u + v zero
/// assert_eq!(substitute(letters, &[0, 0, 0, 1], &both_v, &mut out), Ok(1));
/// assert_eq!(out, [0, 0, 1, 0]); // and u*v to v
/// ```
pub fn substitute(
    letters: Letters,
    condition: &[u8],
    handed: &[u8],
    out: &mut [u8],
) -> Result<usize, Refusal> {
    let Letters { unknowns, givens } = letters;
    let code = unsafe {
        raw::layodegi_substitute(
            unknowns,
            givens,
            condition.as_ptr(),
            condition.len(),
            handed.as_ptr(),
            handed.len(),
            out.as_mut_ptr(),
            out.len(),
        )
    };
    Code(code).number()
}

/// The vectorial derivative of a table by a set S of letters, put into `out`: f plus f with every
/// letter of S inverted, all at once. Questions 1, 4, 8, 20.
///
/// It is the empty table exactly when flipping these letters together changes the value nowhere; else
/// it has the value 1 where the flip changes it.
///
/// ```
/// # use layodegi::{derivative, read_text, Letters, Mask, Question};
/// // The circuit u*(a + b): unknown 0 is bit 0, givens 0 and 1 are bits 1 and 2.
/// let letters = Letters { unknowns: 1, givens: 2 };
/// let (mut circuit, mut changes) = ([7; 8], [7; 8]);
/// read_text(letters, b"u*(a+b)", &mut circuit)?;
///
/// derivative(letters, &circuit, Mask(0b010), &mut changes)?; // contact a alone
/// assert_eq!(changes, [0, 1, 0, 0, 0, 0, 0, 0]); // u: where u is 1
/// derivative(letters, &circuit, Mask(0b110), &mut changes)?; // contacts a and b together
/// assert_eq!(changes, [0; 8]); // nowhere
///
/// let undeclared = derivative(letters, &circuit, Mask(0b1000), &mut changes);
/// assert_eq!(undeclared, Err(Question::Mask.into()));
/// # Ok::<(), layodegi::Refusal>(())
/// ```
pub fn derivative(letters: Letters, table: &[u8], s: Mask, out: &mut [u8]) -> Result<(), Refusal> {
    let Letters { unknowns, givens } = letters;
    let code = unsafe {
        raw::layodegi_derivative(
            unknowns,
            givens,
            table.as_ptr(),
            table.len(),
            s.0,
            out.as_mut_ptr(),
            out.len(),
        )
    };
    Code(code).done()
}

/// Boole's answers: the general solution, each unknown itself being the parameter, in the states where
/// a fact is 0, the unknowns eliminated in an order. Gives the total of their monomials, or the state
/// in which there is none. Questions 1, 17, 4, 8, 22, 23, 9.
///
/// ```
/// # use layodegi::{boole, read_text, Letters, Order, Question, Solution, State, NO_FACT};
/// let letters = Letters { unknowns: 2, givens: 0 };
/// let u_times_v = [0, 0, 0, 1];
/// let mut answers = [7; 8];
/// let solved = boole(letters, Order::default_for(2), NO_FACT, &u_times_v, &mut answers);
/// assert_eq!(solved, Ok(Solution::Solved { monomials: 3 }));
/// assert_eq!(answers, [0, 1, 0, 1, 0, 0, 1, 0]); // u = u + u*v, v = v
///
/// let v_first = Order([1, 0, 255, 255, 255, 255]);
/// let solved = boole(letters, v_first, NO_FACT, &u_times_v, &mut answers);
/// assert_eq!(solved, Ok(Solution::Solved { monomials: 3 }));
/// assert_eq!(answers, [0, 1, 0, 0, 0, 0, 1, 1]); // u = u, v = v + u*v
///
/// let twice = Order([1, 1, 255, 255, 255, 255]);
/// let refused = boole(letters, twice, NO_FACT, &u_times_v, &mut answers);
/// assert_eq!(refused, Err(Question::Order.into()));
///
/// let (letters, order) = (Letters { unknowns: 1, givens: 2 }, Order::default_for(1));
/// let mut condition = [0; 8];
/// read_text(letters, b"a*u+b*u+b", &mut condition)?;
/// let none = boole(letters, order, NO_FACT, &condition, &mut answers);
/// assert_eq!(none, Ok(Solution::None(State(3)))); // a and b at once
///
/// let a_times_b = [0, 0, 0, 0, 0, 0, 1, 0]; // never at once
/// let solved = boole(letters, order, &a_times_b, &condition, &mut answers);
/// assert_eq!(solved, Ok(Solution::Solved { monomials: 5 }));
/// assert_eq!(answers, [0, 1, 0, 1, 1, 1, 1, 0]); // u = b + u + a*b + a*u + b*u
///
/// let one = [1, 0, 0, 0, 0, 0, 0, 0]; // no state is left
/// let refused = boole(letters, order, &one, &condition, &mut answers);
/// assert_eq!(refused, Err(Question::FactState.into()));
/// # Ok::<(), layodegi::Refusal>(())
/// ```
pub fn boole(
    letters: Letters,
    order: Order,
    fact: &[u8],
    condition: &[u8],
    answers: &mut [u8],
) -> Result<Solution, Refusal> {
    let Letters { unknowns, givens } = letters;
    let code = unsafe {
        raw::layodegi_boole(
            unknowns,
            givens,
            order.0.as_ptr(),
            fact.as_ptr(),
            fact.len(),
            condition.as_ptr(),
            condition.len(),
            answers.as_mut_ptr(),
            answers.len(),
        )
    };
    Code(code).solution()
}

/// The particular solution: Boole's answers, under a fact and in an order, with 0 put for all
/// parameters. Gives the total of their monomials, or the state in which there is none.
/// Questions 1, 17, 4, 8, 22, 23, 9.
///
/// ```
/// # use layodegi::{particular, Letters, Order, Solution, NO_FACT};
/// let letters = Letters { unknowns: 2, givens: 0 };
/// let condition = [1, 1, 1, 0]; // u + v + 1
/// let mut answers = [7; 8];
/// let solved = particular(letters, Order::default_for(2), NO_FACT, &condition, &mut answers);
/// assert_eq!(solved, Ok(Solution::Solved { monomials: 1 }));
/// assert_eq!(answers, [1, 0, 0, 0, 0, 0, 0, 0]); // u = 1, v = 0
///
/// let v_first = Order([1, 0, 255, 255, 255, 255]);
/// let solved = particular(letters, v_first, NO_FACT, &condition, &mut answers);
/// assert_eq!(solved, Ok(Solution::Solved { monomials: 1 }));
/// assert_eq!(answers, [0, 0, 0, 0, 1, 0, 0, 0]); // u = 0, v = 1
///
/// let letters = Letters { unknowns: 1, givens: 2 };
/// let (a_times_b, condition) = ([0, 0, 0, 0, 0, 0, 1, 0], [0, 0, 0, 1, 1, 1, 0, 0]); // a*u + b*u + b
/// let solved =
///     particular(letters, Order::default_for(1), &a_times_b, &condition, &mut answers);
/// assert_eq!(solved, Ok(Solution::Solved { monomials: 2 }));
/// assert_eq!(answers, [0, 0, 0, 0, 1, 0, 1, 0]); // u = b + a*b
/// ```
pub fn particular(
    letters: Letters,
    order: Order,
    fact: &[u8],
    condition: &[u8],
    answers: &mut [u8],
) -> Result<Solution, Refusal> {
    let Letters { unknowns, givens } = letters;
    let code = unsafe {
        raw::layodegi_particular(
            unknowns,
            givens,
            order.0.as_ptr(),
            fact.as_ptr(),
            fact.len(),
            condition.as_ptr(),
            condition.len(),
            answers.as_mut_ptr(),
            answers.len(),
        )
    };
    Code(code).solution()
}

/// Löwenheim's answers, from the particular solution under a fact and in an order. Gives the total of
/// their monomials, or the state in which there is none. Questions 1, 17, 4, 8, 22, 23, 9.
///
/// ```
/// # use layodegi::{lowenheim, Letters, Order, Solution, NO_FACT};
/// let letters = Letters { unknowns: 2, givens: 0 };
/// let u_plus_v = [0, 1, 1, 0];
/// let mut answers = [7; 8];
/// let solved = lowenheim(letters, Order::default_for(2), NO_FACT, &u_plus_v, &mut answers);
/// assert_eq!(solved, Ok(Solution::Solved { monomials: 2 }));
/// assert_eq!(answers, [0, 0, 0, 1, 0, 0, 0, 1]); // u = u*v, v = u*v
/// ```
pub fn lowenheim(
    letters: Letters,
    order: Order,
    fact: &[u8],
    condition: &[u8],
    answers: &mut [u8],
) -> Result<Solution, Refusal> {
    let Letters { unknowns, givens } = letters;
    let code = unsafe {
        raw::layodegi_lowenheim(
            unknowns,
            givens,
            order.0.as_ptr(),
            fact.as_ptr(),
            fact.len(),
            condition.as_ptr(),
            condition.len(),
            answers.as_mut_ptr(),
            answers.len(),
        )
    };
    Code(code).solution()
}

/// Löwenheim's formula on handed polynomials (an answer table) that make the condition zero wherever
/// the fact is 0. Gives the total of the answers' monomials. Questions 1, 4, 8, 22, 23, 21.
///
/// They may mention unknowns, as long as putting them for the unknowns, all at once, makes f*(1 + g)
/// zero; without unknowns, that itself has to be zero. An accepted one gives a general solution: it
/// and Boole's answers are instances of each other.
///
/// ```
/// # use layodegi::{lowenheim_handed, Letters, Question, NO_FACT};
/// let letters = Letters { unknowns: 2, givens: 0 };
/// let u_plus_v = [0, 1, 1, 0];
/// let mut answers = [7; 8];
/// let ones = [1, 0, 0, 0, 1, 0, 0, 0]; // u = 1, v = 1: a favourite, and one of two solutions
/// assert_eq!(lowenheim_handed(letters, NO_FACT, &u_plus_v, &ones, &mut answers), Ok(6));
/// assert_eq!(answers, [0, 1, 1, 1, 0, 1, 1, 1]); // u | v for both: every solution
///
/// let both_v = [0, 0, 1, 0, 0, 0, 1, 0]; // u = v, v = v mentions an unknown
/// assert_eq!(lowenheim_handed(letters, NO_FACT, &u_plus_v, &both_v, &mut answers), Ok(2));
/// assert_eq!(answers, both_v);
///
/// let one_and_v = [1, 0, 0, 0, 0, 0, 1, 0]; // u = 1, v = v solves where v is 1 only
/// let refused = lowenheim_handed(letters, NO_FACT, &u_plus_v, &one_and_v, &mut answers);
/// assert_eq!(refused, Err(Question::Handed.into()));
/// assert_eq!(answers, both_v); // as they were
///
/// let letters = Letters { unknowns: 1, givens: 2 };
/// let (a_times_b, condition) = ([0, 0, 0, 0, 0, 0, 1, 0], [0, 0, 0, 1, 1, 1, 0, 0]); // a*u + b*u + b
/// let b = [0, 0, 0, 0, 1, 0, 0, 0]; // u = b solves wherever a*b is 0
/// assert_eq!(lowenheim_handed(letters, &a_times_b, &condition, &b, &mut answers), Ok(5));
/// assert_eq!(answers, [0, 1, 0, 1, 1, 1, 1, 0]); // u = b + u + a*b + a*u + b*u
/// let refused = lowenheim_handed(letters, NO_FACT, &condition, &b, &mut answers);
/// assert_eq!(refused, Err(Question::Handed.into()));
/// ```
pub fn lowenheim_handed(
    letters: Letters,
    fact: &[u8],
    condition: &[u8],
    handed: &[u8],
    answers: &mut [u8],
) -> Result<usize, Refusal> {
    let Letters { unknowns, givens } = letters;
    let code = unsafe {
        raw::layodegi_lowenheim_handed(
            unknowns,
            givens,
            fact.as_ptr(),
            fact.len(),
            condition.as_ptr(),
            condition.len(),
            handed.as_ptr(),
            handed.len(),
            answers.as_mut_ptr(),
            answers.len(),
        )
    };
    Code(code).number()
}

/// The shorter of Boole's and Löwenheim's answer tables: the one with fewer monomials present, all
/// unknowns together; Boole's if the totals tie. Questions 1, 4, 8.
///
/// What is handed back is the lent table itself, cut to U times 2^n bytes, and no copy: that is what
/// the borrow says. So neither table can change as long as it is in use.
///
/// ```
/// # use layodegi::{boole, lowenheim, read_text, shorter, Letters, Order, Question, Solution, NO_FACT};
/// let (letters, order) = (Letters { unknowns: 2, givens: 0 }, Order::default_for(2));
/// let (mut condition, mut by_boole, mut by_lowenheim) = ([7; 4], [7; 8], [7; 9]);
/// read_text(letters, b"v*!u", &mut condition)?;
/// // u = u + v + u*v, v = v
/// let solved = boole(letters, order, NO_FACT, &condition, &mut by_boole);
/// assert_eq!(solved, Ok(Solution::Solved { monomials: 4 }));
/// // u = u, v = u*v
/// let solved = lowenheim(letters, order, NO_FACT, &condition, &mut by_lowenheim);
/// assert_eq!(solved, Ok(Solution::Solved { monomials: 2 }));
///
/// let found = shorter(letters, &by_boole, &by_lowenheim)?;
/// assert_eq!(found, [0, 1, 0, 0, 0, 0, 0, 1]);
/// assert_eq!(found.as_ptr(), by_lowenheim.as_ptr()); // no copy
///
/// let refused = shorter(letters, &by_boole[1..], &by_lowenheim);
/// assert_eq!(refused, Err(Question::Room.into()));
/// # Ok::<(), layodegi::Refusal>(())
/// ```
pub fn shorter<'a>(
    letters: Letters,
    boole: &'a [u8],
    lowenheim: &'a [u8],
) -> Result<&'a [u8], Refusal> {
    let Letters { unknowns, givens } = letters;
    let code = unsafe {
        raw::layodegi_which_shorter(
            unknowns,
            givens,
            boole.as_ptr(),
            boole.len(),
            lowenheim.as_ptr(),
            lowenheim.len(),
        )
    };
    Code(code).shorter(letters, boole, lowenheim)
}

/// Writes the entry of a condition under a fact, with Boole's answers in an order or 'none', and gives
/// its length, at most [`LONGEST_ENTRY`]. Questions 1, 2, 17, 4, 8, 22, 23, 14.
///
/// ```
/// # use layodegi::{write_entry, Letters, Order, NO_FACT};
/// let mut out = [0; 28];
/// let letters = Letters { unknowns: 1, givens: 1 };
/// let (order, a) = (Order::default_for(1), [0, 0, 1, 0]);
/// let length = write_entry(8, letters, order, NO_FACT, &a, &mut out)?;
/// assert_eq!(out[..length], [1, 8, 1, 1, 2, 2, 0, 5, 1, 4, 8]); // 'none' at state 1
///
/// let length = write_entry(8, letters, order, &a, &a, &mut out)?; // the fact a, and all is well
/// assert_eq!(out[..length], [1, 8, 1, 1, 7, 2, 0, 2, 2, 0, 3, 0, 1, 0, 4, 8]); // u = u
///
/// let letters = Letters { unknowns: 2, givens: 0 };
/// let (v_first, u_times_v) = (Order([1, 0, 255, 255, 255, 255]), [0, 0, 0, 1]);
/// assert_eq!(write_entry(7, letters, v_first, NO_FACT, &u_times_v, &mut out)?, 28);
/// assert_eq!(out[..11], [1, 7, 2, 0, 6, 1, 0, 255, 255, 255, 255]); // the order behind the start
/// assert_eq!(out[11..18], [2, 3, 0, 3, 0, 1, 0]); // u*v; u = u
/// assert_eq!(out[18..], [3, 1, 2, 0, 3, 1, 3, 0, 4, 7]); // v = v + u*v; end
/// # Ok::<(), layodegi::Refusal>(())
/// ```
pub fn write_entry(
    route: usize,
    letters: Letters,
    order: Order,
    fact: &[u8],
    condition: &[u8],
    out: &mut [u8],
) -> Result<usize, Refusal> {
    let Letters { unknowns, givens } = letters;
    let code = unsafe {
        raw::layodegi_write_entry(
            route,
            unknowns,
            givens,
            order.0.as_ptr(),
            fact.as_ptr(),
            fact.len(),
            condition.as_ptr(),
            condition.len(),
            out.as_mut_ptr(),
            out.len(),
        )
    };
    Code(code).number()
}

/// Reads the entry at the start of the bytes into a table for its fact, zeros where it holds none, a
/// condition table and an answer table, and gives its order, 0, 1, 2 and so on where it holds none. A
/// 'none' entry leaves the answer table as it was. Questions 10, 11, 1, 2, 12, 17, 22, 23, 4.
///
/// ```
/// # use layodegi::{read_entry, Answer, Letters, Order, Reading, State};
/// let (mut fact, mut condition, mut answers) = ([7; 4], [7; 4], [7; 8]);
/// let bytes = [1, 8, 1, 1, 2, 2, 0, 5, 1, 4, 8];
/// let Reading { entry, order } = read_entry(&bytes, &mut fact, &mut condition, &mut answers)?;
/// assert_eq!((entry.route, entry.letters), (8, Letters { unknowns: 1, givens: 1 }));
/// assert_eq!((entry.answer, entry.length), (Answer::None(State(1)), 11));
/// assert_eq!((order, fact), (Order::default_for(1), [0; 4]));
/// assert_eq!((condition, answers), ([0, 0, 1, 0], [7; 8]));
///
/// let bytes = [1, 8, 1, 1, 7, 2, 0, 2, 2, 0, 3, 0, 1, 0, 4, 8]; // the same with the fact a
/// assert_eq!(read_entry(&bytes, &mut fact, &mut condition, &mut answers)?.entry.length, 16);
/// assert_eq!((fact, condition), ([0, 0, 1, 0], [0, 0, 1, 0]));
///
/// let start = [1, 7, 2, 0, 6, 1, 0, 255, 255, 255, 255]; // v first
/// let bytes = [&start[..], &[2, 3, 0, 3, 0, 1, 0, 3, 1, 2, 0, 3, 1, 3, 0, 4, 7]].concat();
/// let Reading { entry, order } = read_entry(&bytes, &mut fact, &mut condition, &mut answers)?;
/// assert_eq!((entry.length, order.unknowns()), (28, &[1, 0][..]));
/// assert_eq!(answers, [0, 1, 0, 0, 0, 0, 1, 1]); // u = u, v = v + u*v
/// # Ok::<(), layodegi::Refusal>(())
/// ```
pub fn read_entry(
    bytes: &[u8],
    fact: &mut [u8],
    condition: &mut [u8],
    answers: &mut [u8],
) -> Result<Reading, Refusal> {
    // a call that refuses leaves these bytes, and they are not given
    let mut order = Order([Order::UNUSED; 6]);
    let code = unsafe {
        raw::layodegi_read_entry(
            bytes.as_ptr(),
            bytes.len(),
            order.0.as_mut_ptr(),
            fact.as_mut_ptr(),
            fact.len(),
            condition.as_mut_ptr(),
            condition.len(),
            answers.as_mut_ptr(),
            answers.len(),
        )
    };
    Code(code).entry().map(|entry| Reading { entry, order })
}

/// Reads the entry at the start of the bytes, solves its condition afresh under its fact and in its
/// order, and compares. Questions 10, 11, 1, 2, 12, 17, 22, 23, 13.
///
/// ```
/// # use layodegi::{audit, Question};
/// assert_eq!(audit(&[1, 8, 1, 1, 2, 2, 0, 5, 1, 4, 8])?.length, 11);
/// // 'none' at the wrong state
/// let wrong = [1, 8, 1, 1, 2, 2, 0, 5, 0, 4, 8];
/// assert_eq!(audit(&wrong), Err(Question::Afresh.into()));
/// // the order v, u of no unknown at all
/// let wrong = [1, 8, 0, 1, 6, 1, 0, 255, 255, 255, 255, 4, 8];
/// assert_eq!(audit(&wrong), Err(Question::Order.into()));
/// // the fact u
/// let wrong = [1, 8, 1, 1, 7, 1, 0, 4, 8];
/// assert_eq!(audit(&wrong), Err(Question::FactGivens.into()));
/// # Ok::<(), layodegi::Refusal>(())
/// ```
pub fn audit(bytes: &[u8]) -> Result<Entry, Refusal> {
    Code(unsafe { raw::layodegi_audit(bytes.as_ptr(), bytes.len()) }).entry()
}

/// Audits the entries of a volume from a place to its end and gives their count; a place at or
/// past the end gives 0. The audit's questions, then 15, per entry.
///
/// ```
/// # use layodegi::{walk, Question, Stopped};
/// let entry = [1, 8, 1, 1, 2, 2, 0, 5, 1, 4, 8];
/// assert_eq!(walk(&entry, 0), Ok(1));
/// // the same route again
/// let stopped = Stopped { refusal: Question::Rising.into(), passed: 1 };
/// assert_eq!(walk(&[entry, entry].concat(), 0), Err(stopped));
/// ```
pub fn walk(volume: &[u8], place: usize) -> Result<usize, Stopped> {
    Code(unsafe { raw::layodegi_walk(volume.as_ptr(), volume.len(), place) }).count()
}
