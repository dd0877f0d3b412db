//! Named design states: request C-12 of document 02. A designer adds conditions one by one, marks
//! a state as A, B, C or D, tries something and returns.
//! Each step takes the session and hands back the session after it. It first puts questions 1 and 8
//! to the session, of which any field may have been changed; a refused step hands back the session
//! that it was given.

use crate::calls::{fill, lent};
use crate::questions::{
    ask, ask_bytes, ask_length, ask_letters, ask_name, Letters, Refusal, LONGEST_TABLE, NAMES,
};

/// The letters, the table of the present list of added conditions, and the states A to D.
/// The first 2^n bytes of a table count.
#[derive(Clone, Debug, PartialEq, Eq)]
pub struct Session {
    pub unknowns: u64,
    pub givens: u64,
    pub table: [u8; LONGEST_TABLE],
    pub states: [NamedState; NAMES.len()],
}

/// Whether a name is marked, and the table stored under it.
#[derive(Clone, Debug, PartialEq, Eq)]
pub struct NamedState {
    pub is_marked: bool,
    pub table: [u8; LONGEST_TABLE],
}

/// The session after a step, and whether the step was refused.
#[derive(Clone, Debug, PartialEq, Eq)]
pub struct Step {
    pub session: Session,
    pub answer: Result<(), Refusal>,
}

impl Session {
    /// A session with a U and G and the empty table. Question 1.
    /// A refused start hands back the new session of U = 0 and G = 0.
    pub fn start(u: u64, g: u64) -> Step {
        match ask_letters(u, g) {
            Ok(_) => Step { session: Session::empty(u, g), answer: Ok(()) },
            Err(refusal) => Step { session: Session::empty(0, 0), answer: Err(refusal) },
        }
    }

    fn empty(unknowns: u64, givens: u64) -> Session {
        let table = [0; LONGEST_TABLE];
        let states = NAMES.map(|_| NamedState { is_marked: false, table });
        Session { unknowns, givens, table, states }
    }

    /// Turns the table f into f + h + f*h. Questions 1 and 8 of the session, 4 and 8 of h.
    #[allow(clippy::should_implement_trait, reason = "the paper names the step so")]
    pub fn add(self, h: &[u8]) -> Step {
        self.step(|session, letters| {
            ask_length(h, letters.table_length())?;
            ask_bytes(h, letters.table_length())?;
            let (f, h) = (lent(&session.table, letters), lent(h, letters));
            fill(&mut session.table, letters, &[f.sum(&h).sum(&f.product(&h))]);
            Ok(())
        })
    }

    /// Stores the present table under a name, over any earlier one. Questions 1 and 8 of the
    /// session, 18.
    pub fn mark(self, name: u64) -> Step {
        self.step(|session, _| {
            let state = &mut session.states[ask_name(name)?];
            *state = NamedState { is_marked: true, table: session.table };
            Ok(())
        })
    }

    /// Makes the table stored under a name the present one. Questions 1 and 8 of the session, 18,
    /// 19.
    pub fn return_to(self, name: u64) -> Step {
        self.step(|session, _| {
            let state = &session.states[ask_name(name)?];
            ask(19, state.is_marked)?;
            session.table = state.table;
            Ok(())
        })
    }

    /// A change to a session that passes questions 1 and 8.
    fn step(self, change: impl FnOnce(&mut Session, Letters) -> Result<(), Refusal>) -> Step {
        let mut after = self.clone();
        match self.ask().and_then(|letters| change(&mut after, letters)) {
            Ok(()) => Step { session: after, answer: Ok(()) },
            Err(refusal) => Step { session: self, answer: Err(refusal) },
        }
    }

    /// 1, then 8 of the present table and those of marked names.
    fn ask(&self) -> Result<Letters, Refusal> {
        let letters = ask_letters(self.unknowns, self.givens)?;
        ask_bytes(&self.table, letters.table_length())?;
        for state in self.states.iter().filter(|state| state.is_marked) {
            ask_bytes(&state.table, letters.table_length())?;
        }
        Ok(letters)
    }
}
