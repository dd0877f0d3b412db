//! The questions of the paper, and the refusal that a no to one of them gives.

use std::error::Error;
use std::fmt;

/// A question that a call asks of what it is lent. `Display` gives the paper's words.
///
/// ```
/// use layodegi::Question;
///
/// assert_eq!(Question::Grammar.number(), 7);
/// assert_eq!(Question::Grammar.to_string(), "Does the grammar read the whole text?");
/// assert_eq!(Question::with_number(7), Some(Question::Grammar));
/// assert_eq!(Question::with_number(24), None);
/// ```
#[derive(Clone, Copy, Debug, PartialEq, Eq, Hash)]
#[repr(u8)]
pub enum Question {
    /// Are U at most 6, G at most 8, n at most 10?
    Letters = 1,
    /// Is the route 1 to 250?
    Route = 2,
    /// Has the text 1 to 200 bytes?
    TextLength = 3,
    /// Has each condition buffer 2^n bytes or more, and each answer or handed buffer U times 2^n
    /// or more?
    Room = 4,
    /// Is every byte a sign of the notation or a space?
    Signs = 5,
    /// Is every letter declared?
    Declared = 6,
    /// Does the grammar read the whole text?
    Grammar = 7,
    /// Is each byte of a table lent to be read, as far as question 4's length, 0 or 1?
    Bits = 8,
    /// Has the condition a solution?
    Solution = 9,
    /// Does every record, to the first kind 4, have kind 1 to 7 and a whole body, and is there a
    /// kind 4?
    Records = 10,
    /// Are the kinds in the entry's order, both routes equal?
    Kinds = 11,
    /// Are masks below 2^n, unknowns below U, the state below 2^G, all in order, none twice, and
    /// is no kind 6 there for the order 0, 1, 2 and so on?
    Numbers = 12,
    /// Do the answers, or the state, equal those solved afresh?
    Afresh = 13,
    /// Is the output at least as long as what is to be written?
    Output = 14,
    /// Is the route above the one before?
    Rising = 15,
    /// Is the state below 2^G and the choice below 2^U?
    Range = 16,
    /// Does the order hold each unknown once and then only 255?
    Order = 17,
    /// Is the name a byte `A` to `D`?
    Name = 18,
    /// When returning, is the name marked?
    Marked = 19,
    /// Has S only declared letters?
    Mask = 20,
    /// Does the handed substitution make the condition zero?
    Handed = 21,
    /// Has g no unknown?
    FactGivens = 22,
    /// Is g 0 in some state?
    FactState = 23,
}

impl Question {
    /// Every question, by number.
    pub const ALL: [Question; 23] = [
        Question::Letters,
        Question::Route,
        Question::TextLength,
        Question::Room,
        Question::Signs,
        Question::Declared,
        Question::Grammar,
        Question::Bits,
        Question::Solution,
        Question::Records,
        Question::Kinds,
        Question::Numbers,
        Question::Afresh,
        Question::Output,
        Question::Rising,
        Question::Range,
        Question::Order,
        Question::Name,
        Question::Marked,
        Question::Mask,
        Question::Handed,
        Question::FactGivens,
        Question::FactState,
    ];

    /// The question with a number, if there is one.
    pub fn with_number(number: u8) -> Option<Question> {
        Question::ALL.into_iter().find(|question| question.number() == number)
    }

    /// The paper's number.
    pub fn number(self) -> u8 {
        self as u8
    }

    /// The paper's words.
    pub fn words(self) -> &'static str {
        match self {
            Question::Letters => "Are U at most 6, G at most 8, n at most 10?",
            Question::Route => "Is the route 1 to 250?",
            Question::TextLength => "Has the text 1 to 200 bytes?",
            Question::Room => {
                "Has each condition buffer 2^n bytes or more, \
                 and each answer or handed buffer U times 2^n or more?"
            }
            Question::Signs => "Is every byte a sign of the notation or a space?",
            Question::Declared => "Is every letter declared?",
            Question::Grammar => "Does the grammar read the whole text?",
            Question::Bits => {
                "Is each byte of a table lent to be read, as far as question 4's length, 0 or 1?"
            }
            Question::Solution => "Has the condition a solution?",
            Question::Records => {
                "Does every record, to the first kind 4, have kind 1 to 7 and a whole body, \
                 and is there a kind 4?"
            }
            Question::Kinds => "Are the kinds in the entry's order, both routes equal?",
            Question::Numbers => {
                "Are masks below 2^n, unknowns below U, the state below 2^G, \
                 all in order, none twice, and is no kind 6 there for the order 0, 1, 2 and so on?"
            }
            Question::Afresh => "Do the answers, or the state, equal those solved afresh?",
            Question::Output => "Is the output at least as long as what is to be written?",
            Question::Rising => "Is the route above the one before?",
            Question::Range => "Is the state below 2^G and the choice below 2^U?",
            Question::Order => "Does the order hold each unknown once and then only 255?",
            Question::Name => "Is the name a byte `A` to `D`?",
            Question::Marked => "When returning, is the name marked?",
            Question::Mask => "Has S only declared letters?",
            Question::Handed => "Does the handed substitution make the condition zero?",
            Question::FactGivens => "Has g no unknown?",
            Question::FactState => "Is g 0 in some state?",
        }
    }
}

impl fmt::Display for Question {
    fn fmt(&self, f: &mut fmt::Formatter) -> fmt::Result {
        f.write_str(self.words())
    }
}

/// The first no of a call. A call that refuses has changed no byte that it was lent.
///
/// ```
/// use layodegi::{read_text, Letters, Question, Refusal};
///
/// let letters = Letters { unknowns: 1, givens: 0 };
/// let refusal = read_text(letters, b"()", &mut [0; 2]).unwrap_err();
/// assert_eq!(refusal, Refusal::No(Question::Grammar));
/// assert_eq!(refusal.to_string(), "refused 7: Does the grammar read the whole text?");
/// ```
#[derive(Clone, Copy, Debug, PartialEq, Eq, Hash)]
pub enum Refusal {
    /// The question is answered no.
    No(Question),
    /// A number of no question. The archive that these calls were written for gives none.
    Unknown(u8),
}

impl Refusal {
    /// The refusal with a number.
    pub fn with_number(number: u8) -> Refusal {
        Question::with_number(number).map_or(Refusal::Unknown(number), Refusal::No)
    }

    /// The number of the question.
    pub fn number(self) -> u8 {
        match self {
            Refusal::No(question) => question.number(),
            Refusal::Unknown(number) => number,
        }
    }

    /// The paper's words for the question.
    pub fn words(self) -> &'static str {
        match self {
            Refusal::No(question) => question.words(),
            Refusal::Unknown(_) => "no question of the paper",
        }
    }
}

impl From<Question> for Refusal {
    fn from(question: Question) -> Refusal {
        Refusal::No(question)
    }
}

impl fmt::Display for Refusal {
    fn fmt(&self, f: &mut fmt::Formatter) -> fmt::Result {
        write!(f, "refused {}: {}", self.number(), self.words())
    }
}

impl Error for Refusal {}
