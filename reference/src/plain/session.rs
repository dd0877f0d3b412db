//! The steps of a session, in place, with the questions of `crate::session`.

use super::calls::ask_bits;
use super::table::Table;
use super::{for_blocks, Block};
use crate::questions::{ask, ask_length, ask_letters, ask_name, Letters, Refusal};
use crate::session::Session;

/// Adds a condition. Questions 1 and 8 of the session, 4 and 8 of h.
pub fn add_condition<B: Block>(session: &mut Session, h: &[u8]) -> Result<(), Refusal> {
    let letters = ask_session(session)?;
    let length = letters.table_length();
    ask_length(h, length)?;
    let h = &h[..length];
    ask_bits(h)?;
    for_blocks!(B, letters.count(), join_into(&mut session.table[..length], h));
    Ok(())
}

fn join_into<B: Block, const K: usize>(table: &mut [u8], h: &[u8]) {
    let mut values = Table::<B, K>::from_bytes(table).transformed();
    values.join(&Table::from_bytes(h).transformed());
    values.transformed().put(table);
}

/// Stores the present table under a name. Questions 1 and 8 of the session, 18.
pub fn mark(session: &mut Session, name: u64) -> Result<(), Refusal> {
    ask_session(session)?;
    let state = &mut session.states[ask_name(name)?];
    state.is_marked = true;
    state.table = session.table;
    Ok(())
}

/// Makes the table stored under a name the present one. Questions 1 and 8 of the session, 18, 19.
pub fn return_to(session: &mut Session, name: u64) -> Result<(), Refusal> {
    ask_session(session)?;
    let state = &session.states[ask_name(name)?];
    ask(19, state.is_marked)?;
    session.table = state.table;
    Ok(())
}

/// 1, then 8 of the present table and those of marked names.
fn ask_session(session: &Session) -> Result<Letters, Refusal> {
    let letters = ask_letters(session.unknowns, session.givens)?;
    let length = letters.table_length();
    ask_bits(&session.table[..length])?;
    for state in session.states.iter().filter(|state| state.is_marked) {
        ask_bits(&state.table[..length])?;
    }
    Ok(letters)
}
