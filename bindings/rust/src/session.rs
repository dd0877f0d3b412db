//! Named design states: a session that each step takes and hands back.

use crate::answer::Code;
use crate::letters::{Letters, LONGEST_TABLE};
use crate::question::Refusal;
use crate::raw;
use std::fmt;

/// The bytes of a session.
pub const SESSION_LENGTH: usize = 5_126;

/// Where the present table stands in a session.
const TABLE: usize = 2;
/// Where the name A stands: a byte for its mark, then its table; the others follow.
const NAMED: usize = TABLE + LONGEST_TABLE;
const NAMED_LENGTH: usize = 1 + LONGEST_TABLE;

/// The name of a design state. Marking and returning ask (question 18) whether it is a byte `A` to
/// `D`, so any number may stand here.
///
/// ```
/// # use layodegi::{Letters, Name, Question, Session};
/// assert_eq!(Name::B, Name(66));
/// assert_eq!(Name::from(b'B'), Name::B);
///
/// let session = Session::start(Letters { unknowns: 1, givens: 0 }).session;
/// assert_eq!(session.mark(Name(66 + 256)).answer, Err(Question::Name.into()));
/// ```
#[derive(Clone, Copy, Debug, PartialEq, Eq, Hash)]
pub struct Name(pub usize);

impl Name {
    pub const A: Name = Name(b'A' as usize);
    pub const B: Name = Name(b'B' as usize);
    pub const C: Name = Name(b'C' as usize);
    pub const D: Name = Name(b'D' as usize);

    /// Every name, in order.
    pub const ALL: [Name; 4] = [Name::A, Name::B, Name::C, Name::D];
}

impl From<u8> for Name {
    fn from(byte: u8) -> Name {
        Name(byte.into())
    }
}

impl fmt::Display for Name {
    fn fmt(&self, f: &mut fmt::Formatter) -> fmt::Result {
        match Name::ALL.contains(self) {
            true => write!(f, "name {}", self.0 as u8 as char),
            false => write!(f, "name {}", self.0),
        }
    }
}

/// A session of named design states: a designer adds conditions one by one, marks a state as A, B, C
/// or D, tries something and returns.
///
/// Its table has the value 0 where all conditions of the present list have it, so that solving it
/// solves all of them at once.
///
/// The bytes are all there is to a session, and may be kept: byte 0 is U, byte 1 is G, bytes 2 to
/// 1025 are the present table, and then each name A to D has 1,025 bytes: 1 if it is marked (any
/// other byte if not), and its table. Of a table the first 2^n bytes count. Every step asks whether
/// that is so, 1 of U and G and 8 of the present table and of those of marked names, so any bytes
/// may stand here.
///
/// ```
/// use layodegi::{boole, read_text, Letters, Name, Order, Refusal, Session};
/// use layodegi::{Solution, State, NO_FACT};
///
/// // One circuit, u, and two givens, a and b.
/// let letters = Letters { unknowns: 1, givens: 2 };
/// let table = |text: &str| -> Result<Vec<u8>, Refusal> {
///     let mut table = vec![0; letters.table_length()];
///     read_text(letters, text.as_bytes(), &mut table)?;
///     Ok(table)
/// };
/// let solve = |session: &Session| {
///     boole(letters, Order::default_for(1), NO_FACT, session.table(), &mut [0; 8])
/// };
///
/// // u follows a
/// let session = Session::start(letters).into_result()?;
/// let session = session.add(&table("u+a")?).into_result()?;
/// let session = session.mark(Name::A).into_result()?;
/// assert_eq!(solve(&session), Ok(Solution::Solved { monomials: 1 })); // u = a
///
/// // with u at 0 wherever b is 1 there is no way where a is 1 as well
/// let session = session.add(&table("u*b")?).into_result()?;
/// assert_eq!(solve(&session), Ok(Solution::None(State(3))));
///
/// // back to u follows a, and another try
/// let session = session.return_to(Name::A).into_result()?;
/// let session = session.add(&table("u*b*!a")?).into_result()?;
/// assert_eq!(solve(&session), Ok(Solution::Solved { monomials: 1 })); // u = a
/// # Ok::<(), Refusal>(())
/// ```
#[derive(Clone, PartialEq, Eq, Hash)]
pub struct Session(pub [u8; SESSION_LENGTH]);

/// What a step hands back: the session after it, and whether it was done. After a refusal the
/// session is the one that the step was given.
///
/// ```
/// # use layodegi::{Letters, Question, Session, Step};
/// let session = Session::start(Letters { unknowns: 1, givens: 0 }).session;
/// let given = session.clone();
/// let Step { session, answer } = session.add(&[0]); // one byte of two
/// assert_eq!(answer, Err(Question::Room.into()));
/// assert_eq!(session, given);
/// ```
#[must_use = "it holds the session"]
#[derive(Clone, Debug, PartialEq, Eq, Hash)]
pub struct Step {
    pub session: Session,
    pub answer: Result<(), Refusal>,
}

impl Step {
    /// The session after a step that is done. With a refusal the session is lost, so this is for
    /// callers that go no further then, or have kept another.
    ///
    /// ```
    /// # use layodegi::{Letters, Question, Session};
    /// let refused = Session::start(Letters { unknowns: 7, givens: 0 }).into_result();
    /// assert_eq!(refused, Err(Question::Letters.into()));
    /// ```
    pub fn into_result(self) -> Result<Session, Refusal> {
        self.answer.map(|()| self.session)
    }
}

impl Session {
    /// A session with the empty table and no name marked. Question 1. A refused start hands back
    /// that of U = 0 and G = 0.
    ///
    /// ```
    /// # use layodegi::{Letters, Name, Question, Session, Step};
    /// let letters = Letters { unknowns: 1, givens: 1 };
    /// let Step { session, answer } = Session::start(letters);
    /// assert_eq!(answer, Ok(()));
    /// assert_eq!((session.letters(), session.table()), (letters, &[0; 4][..]));
    /// assert_eq!(session.marked(Name::A), None);
    ///
    /// let Step { session, answer } = Session::start(Letters { unknowns: 6, givens: 5 });
    /// assert_eq!(answer, Err(Question::Letters.into()));
    /// assert_eq!(session.letters(), Letters { unknowns: 0, givens: 0 });
    /// ```
    pub fn start(letters: Letters) -> Step {
        let Letters { unknowns, givens } = letters;
        let unwritten = Session([0; SESSION_LENGTH]);
        unwritten.step(|session| unsafe { raw::layodegi_session_start(unknowns, givens, session) })
    }

    /// Adds a condition h: the present table f becomes f + h + f*h. Questions 1 and 8 of the session,
    /// 4 and 8 of h.
    ///
    /// ```
    /// # use layodegi::{Letters, Session};
    /// let session = Session::start(Letters { unknowns: 2, givens: 0 }).into_result()?;
    /// let session = session.add(&[0, 1, 0, 0]).into_result()?; // u
    /// let session = session.add(&[0, 0, 1, 0]).into_result()?; // v
    /// assert_eq!(session.table(), [0, 1, 1, 1]); // u + v + u*v
    /// # Ok::<(), layodegi::Refusal>(())
    /// ```
    #[allow(clippy::should_implement_trait, reason = "the paper names the step so")]
    pub fn add(self, h: &[u8]) -> Step {
        self.step(|session| unsafe { raw::layodegi_session_add(session, h.as_ptr(), h.len()) })
    }

    /// Stores the present list of added conditions, as its table, under a name, over any earlier
    /// one. Questions 1 and 8 of the session, 18.
    ///
    /// ```
    /// # use layodegi::{Letters, Name, Session};
    /// let session = Session::start(Letters { unknowns: 1, givens: 0 }).into_result()?;
    /// let session = session.mark(Name::A).into_result()?;
    /// let session = session.add(&[0, 1]).into_result()?; // u
    /// assert_eq!(session.marked(Name::A), Some(&[0, 0][..]));
    ///
    /// let session = session.mark(Name::A).into_result()?;
    /// assert_eq!(session.marked(Name::A), Some(&[0, 1][..]));
    /// # Ok::<(), layodegi::Refusal>(())
    /// ```
    pub fn mark(self, name: Name) -> Step {
        self.step(|session| unsafe { raw::layodegi_session_mark(session, name.0) })
    }

    /// Makes the list that is stored under a name the present one; all marks stay. Questions 1 and 8
    /// of the session, 18, 19.
    ///
    /// ```
    /// # use layodegi::{Letters, Name, Question, Session};
    /// let session = Session::start(Letters { unknowns: 1, givens: 0 }).into_result()?;
    /// let session = session.mark(Name::A).into_result()?;
    /// let session = session.add(&[0, 1]).into_result()?.mark(Name::B).into_result()?;
    ///
    /// let session = session.return_to(Name::A).into_result()?;
    /// assert_eq!(session.table(), [0, 0]);
    /// let session = session.return_to(Name::B).into_result()?;
    /// assert_eq!(session.table(), [0, 1]);
    /// assert_eq!(session.return_to(Name::C).answer, Err(Question::Marked.into()));
    /// # Ok::<(), layodegi::Refusal>(())
    /// ```
    pub fn return_to(self, name: Name) -> Step {
        self.step(|session| unsafe { raw::layodegi_session_return(session, name.0) })
    }

    /// U and G, as they stand in the session.
    ///
    /// ```
    /// # use layodegi::{Letters, Session};
    /// let letters = Letters { unknowns: 6, givens: 4 };
    /// assert_eq!(Session::start(letters).session.letters(), letters);
    /// ```
    pub fn letters(&self) -> Letters {
        Letters { unknowns: self.0[0].into(), givens: self.0[1].into() }
    }

    /// The present table, 2^n bytes. Letters that are not permitted have no table: no bytes.
    ///
    /// ```
    /// # use layodegi::{write_entry, Letters, Order, Session, NO_FACT};
    /// let letters = Letters { unknowns: 1, givens: 1 };
    /// let session = Session::start(letters).session.add(&[0, 1, 1, 0]).into_result()?; // u + a
    /// let mut entry = [0; 18];
    /// let (order, table) = (Order::default_for(1), session.table());
    /// let length = write_entry(7, letters, order, NO_FACT, table, &mut entry)?;
    /// assert_eq!(entry[..length], [1, 7, 1, 1, 2, 1, 0, 2, 2, 0, 3, 0, 2, 0, 4, 7]);
    /// # Ok::<(), layodegi::Refusal>(())
    /// ```
    pub fn table(&self) -> &[u8] {
        &self.0[TABLE..][..self.letters().table_length()]
    }

    /// The table that is stored under a name, if the name is marked.
    ///
    /// ```
    /// # use layodegi::{Letters, Name, Session};
    /// let session = Session::start(Letters { unknowns: 0, givens: 1 }).session;
    /// let session = session.add(&[1, 1]).session.mark(Name::D).session; // 1 + a
    /// assert_eq!(session.marked(Name::D), Some(&[1, 1][..]));
    /// assert_eq!(session.marked(Name::A), None);
    /// assert_eq!(session.marked(Name(256)), None);
    /// ```
    pub fn marked(&self, name: Name) -> Option<&[u8]> {
        let number = Name::ALL.iter().position(|other| *other == name)?;
        let named = &self.0[NAMED + NAMED_LENGTH * number..][..NAMED_LENGTH];
        (named[0] == 1).then(|| &named[1..][..self.letters().table_length()])
    }

    // Each `unsafe` above is sound for one reason: the pointer that the call is lent is to all bytes of
    // a session that is owned here, and a table to add is a slice of the caller's, apart from them.

    /// Lends the bytes of the session to a call.
    fn step(mut self, call: impl FnOnce(*mut u8) -> u64) -> Step {
        let answer = Code(call(self.0.as_mut_ptr())).done();
        Step { session: self, answer }
    }
}

/// The letters, the present table and the marked names with theirs; not every byte.
impl fmt::Debug for Session {
    fn fmt(&self, f: &mut fmt::Formatter) -> fmt::Result {
        let names = Name::ALL.into_iter();
        let marked: Vec<_> = names.filter_map(|name| Some((name, self.marked(name)?))).collect();
        f.debug_struct("Session")
            .field("letters", &self.letters())
            .field("table", &self.table())
            .field("marked", &marked)
            .finish_non_exhaustive()
    }
}
