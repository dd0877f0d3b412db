//! What the calls give, and how it is taken from the codes that the archive returns.

use crate::letters::{Letters, Order, State};
use crate::question::{Question, Refusal};
use std::error::Error;
use std::fmt;

/// What solving a condition gives.
///
/// ```
/// use layodegi::{Solution, State};
///
/// assert_eq!(Solution::Solved { monomials: 5 }.to_string(), "solved, 5 monomials");
/// assert_eq!(Solution::None(State(3)).to_string(), "none, state 3");
/// ```
#[derive(Clone, Copy, Debug, PartialEq, Eq, Hash)]
pub enum Solution {
    /// The answers stand in the answer buffer.
    Solved {
        /// How many monomials are present in them, all unknowns together.
        monomials: usize,
    },
    /// The no of question 9, with the smallest of the states that count, those where the fact is 0,
    /// in which every choice gives the condition the value 1. The answer buffer is as it was.
    None(State),
}

impl fmt::Display for Solution {
    fn fmt(&self, f: &mut fmt::Formatter) -> fmt::Result {
        match self {
            Solution::Solved { monomials: 1 } => f.write_str("solved, 1 monomial"),
            Solution::Solved { monomials } => write!(f, "solved, {monomials} monomials"),
            Solution::None(state) => write!(f, "none, {state}"),
        }
    }
}

/// Whether an entry says that its condition has a solution.
///
/// ```
/// use layodegi::{Answer, State};
///
/// assert_eq!(Answer::Solved.to_string(), "solved");
/// assert_eq!(Answer::None(State(3)).to_string(), "none, state 3");
/// ```
#[derive(Clone, Copy, Debug, PartialEq, Eq, Hash)]
pub enum Answer {
    /// It holds answers: reading puts them into the answer buffer.
    Solved,
    /// It says 'none', in this state: reading leaves the answer buffer as it was.
    None(State),
}

impl fmt::Display for Answer {
    fn fmt(&self, f: &mut fmt::Formatter) -> fmt::Result {
        match self {
            Answer::Solved => f.write_str("solved"),
            Answer::None(state) => write!(f, "none, {state}"),
        }
    }
}

/// What an entry says, beside its tables.
///
/// ```
/// use layodegi::{Answer, Entry, Letters};
///
/// let letters = Letters { unknowns: 2, givens: 0 };
/// let entry = Entry { route: 7, letters, answer: Answer::Solved, length: 20 };
/// assert_eq!(entry.to_string(), "route 7, U 2, G 0, solved, 20 bytes");
/// ```
#[derive(Clone, Copy, Debug, PartialEq, Eq, Hash)]
pub struct Entry {
    /// The route, 1 to 250.
    pub route: u8,
    /// The letters that the entry declares.
    pub letters: Letters,
    /// Whether the entry is solved, or 'none' and in which state.
    pub answer: Answer,
    /// The bytes up to the end of the entry.
    pub length: usize,
}

impl fmt::Display for Entry {
    fn fmt(&self, f: &mut fmt::Formatter) -> fmt::Result {
        let Entry { route, letters: Letters { unknowns, givens }, answer, length } = self;
        write!(f, "route {route}, U {unknowns}, G {givens}, {answer}, {length} bytes")
    }
}

/// What reading an entry gives, beside its tables.
///
/// ```
/// use layodegi::{Answer, Entry, Letters, Order, Reading};
///
/// let letters = Letters { unknowns: 2, givens: 0 };
/// let entry = Entry { route: 7, letters, answer: Answer::Solved, length: 28 };
/// let reading = Reading { entry, order: Order([1, 0, 255, 255, 255, 255]) };
/// let said = "route 7, U 2, G 0, solved, 28 bytes, order 1 0 255 255 255 255";
/// assert_eq!(reading.to_string(), said);
/// ```
#[derive(Clone, Copy, Debug, PartialEq, Eq, Hash)]
pub struct Reading {
    /// What the entry says.
    pub entry: Entry,
    /// The order in which its unknowns were eliminated.
    pub order: Order,
}

impl fmt::Display for Reading {
    fn fmt(&self, f: &mut fmt::Formatter) -> fmt::Result {
        write!(f, "{}, {}", self.entry, self.order)
    }
}

/// Where a walk stopped: the refusal, and the count of entries passed before it.
///
/// ```
/// use layodegi::{Question, Stopped};
///
/// let stopped = Stopped { refusal: Question::Rising.into(), passed: 4 };
/// let said = "refused 15 after 4 entries: Is the route above the one before?";
/// assert_eq!(stopped.to_string(), said);
/// ```
#[derive(Clone, Copy, Debug, PartialEq, Eq, Hash)]
pub struct Stopped {
    pub refusal: Refusal,
    pub passed: usize,
}

impl fmt::Display for Stopped {
    fn fmt(&self, f: &mut fmt::Formatter) -> fmt::Result {
        let Stopped { refusal, passed } = self;
        write!(f, "refused {} after {passed} entries: {}", refusal.number(), refusal.words())
    }
}

impl Error for Stopped {
    fn source(&self) -> Option<&(dyn Error + 'static)> {
        Some(&self.refusal)
    }
}

/// A code of the archive: the number of the first no in the low byte, 0 if there is none, and
/// above it what the call gives. Every number has a meaning here, so that no archive can make
/// these calls panic.
#[derive(Clone, Copy)]
pub(crate) struct Code(pub u64);

impl Code {
    pub fn done(self) -> Result<(), Refusal> {
        match self.0 as u8 {
            0 => Ok(()),
            number => Err(Refusal::with_number(number)),
        }
    }

    /// A value, a length, a number of monomials or a count of entries.
    pub fn number(self) -> Result<usize, Refusal> {
        self.done().map(|()| self.above())
    }

    pub fn solution(self) -> Result<Solution, Refusal> {
        match self.number() {
            Ok(monomials) => Ok(Solution::Solved { monomials }),
            Err(Refusal::No(Question::Solution)) => Ok(Solution::None(State(self.above()))),
            Err(refusal) => Err(refusal),
        }
    }

    /// Of the two answer tables that were lent the one that the code names, as far as it counts.
    pub fn shorter<'a>(
        self,
        letters: Letters,
        boole: &'a [u8],
        lowenheim: &'a [u8],
    ) -> Result<&'a [u8], Refusal> {
        let table = if self.number()? == 0 { boole } else { lowenheim };
        Ok(&table[..letters.answers_length().min(table.len())])
    }

    pub fn entry(self) -> Result<Entry, Refusal> {
        self.done()?;
        let [_, route, unknowns, givens, length_low, length_high, none_low, none_high] =
            self.0.to_le_bytes();
        let letters = Letters { unknowns: unknowns.into(), givens: givens.into() };
        // 0, or 1 and the state
        let answer = match u16::from_le_bytes([none_low, none_high]) {
            0 => Answer::Solved,
            more => Answer::None(State(usize::from(more) - 1)),
        };
        let length = u16::from_le_bytes([length_low, length_high]).into();
        Ok(Entry { route, letters, answer, length })
    }

    pub fn count(self) -> Result<usize, Stopped> {
        self.number().map_err(|refusal| Stopped { refusal, passed: self.above() })
    }

    /// The 32 bits above the low byte.
    fn above(self) -> usize {
        (self.0 >> 8) as u32 as usize
    }
}

#[cfg(test)]
mod tests {
    use super::*;

    #[test]
    fn every_number_of_a_refusal_is_kept() {
        for number in 1..=255 {
            for above in [0, 1, 255, u64::MAX >> 8] {
                let code = Code(above << 8 | u64::from(number));
                assert_eq!(code.done().unwrap_err().number(), number);
                assert_eq!(code.number().unwrap_err().number(), number);
                let letters = Letters { unknowns: 1, givens: 0 };
                let refusal = code.shorter(letters, &[0; 2], &[0; 2]).unwrap_err();
                assert_eq!(refusal.number(), number);
                assert_eq!(code.entry().unwrap_err().number(), number);
                let stopped = code.count().unwrap_err();
                assert_eq!(stopped.refusal.number(), number);
                assert_eq!(stopped.passed, above as u32 as usize);
            }
        }
    }

    #[test]
    fn the_questions_are_numbered_from_1() {
        for (place, question) in Question::ALL.into_iter().enumerate() {
            assert_eq!(usize::from(question.number()), place + 1);
            assert_eq!(Question::with_number(question.number()), Some(question));
        }
    }

    #[test]
    fn an_entry_is_taken_apart_by_bytes() {
        let letters = Letters { unknowns: 6, givens: 4 };
        let code = Code(27_709 << 32 | 4 << 24 | 6 << 16 | 250 << 8);
        let solved = Entry { route: 250, letters, answer: Answer::Solved, length: 27_709 };
        assert_eq!(code.entry(), Ok(solved));
        let none = Entry { answer: Answer::None(State(255)), ..solved };
        assert_eq!(Code(256 << 48 | code.0).entry(), Ok(none));
        assert_eq!(none.to_string(), "route 250, U 6, G 4, none, state 255, 27709 bytes");
    }

    #[test]
    fn a_solution_has_its_monomials_and_question_9_the_state() {
        assert_eq!(Code(0).solution(), Ok(Solution::Solved { monomials: 0 }));
        assert_eq!(Code(6_144 << 8).solution(), Ok(Solution::Solved { monomials: 6_144 }));
        assert_eq!(Code(9 | 3 << 8).solution(), Ok(Solution::None(State(3))));
        assert_eq!(Code(8 | 3 << 8).solution(), Err(Question::Bits.into()));
        assert_eq!(Solution::Solved { monomials: 1 }.to_string(), "solved, 1 monomial");
    }

    #[test]
    fn the_shorter_table_is_a_part_of_the_lent_one() {
        let letters = Letters { unknowns: 1, givens: 1 };
        let (boole, lowenheim) = ([0, 1, 1, 0, 7], [0, 1, 0, 0, 7, 7]);
        for (code, lent) in [(Code(0), &boole[..]), (Code(1 << 8), &lowenheim[..])] {
            let shorter = code.shorter(letters, &boole, &lowenheim).unwrap();
            assert_eq!((shorter.as_ptr(), shorter), (lent.as_ptr(), &lent[..4]));
        }
        // what no archive answers
        assert_eq!(Code(0).shorter(letters, &boole[..3], &lowenheim), Ok(&boole[..3]));
        assert_eq!(Code(u64::MAX << 8).shorter(letters, &boole, &[]), Ok(&[][..]));
        let letters = Letters { unknowns: usize::MAX, givens: usize::MAX };
        assert_eq!(Code(0).shorter(letters, &boole, &lowenheim), Ok(&[][..]));
    }
}
