//! A plain implementation of document 01, the thirty-year route volume, and of
//! requests C-11, the order of elimination, C-12, named design states, C-13,
//! contacts flipped together, C-15, handed solutions that do not solve, C-16,
//! facts that leave states out, and C-17, counts of monomials, of document 02.
//!
//! Written from the papers alone, to test the engine against: polynomials are
//! sets of monomials and every step is worked out in the papers' own words.
//! Module `plain` works out the same answers by values, for speed; module `cases`
//! has what test cases are made from.
//! The public calls are the functions and types named below.

mod calls;
pub mod cases;
mod entry;
pub mod plain;
mod polynomial;
mod programs;
mod questions;
mod session;
mod solution;
mod text;

pub use calls::{
    boole, derivative, lowenheim, lowenheim_handed, particular, product, read_text, shorter,
    substitute, sum, value,
};
pub use entry::{audit, read_entry, write_entry, Contents, Count, Reading, Walk};
pub use polynomial::Polynomial;
pub use programs::{sheet, walk_output};
pub use questions::{Choice, Letters, Order, Refusal, State, LONGEST_ENTRY, LONGEST_TABLE, NAMES};
pub use session::{NamedState, Session, Step};
pub use solution::{Solution, Solved};
pub use text::{read_tree, Tree};
