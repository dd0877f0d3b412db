//! Sessions as test cases: lists of steps, refused ones among them, and sessions whose fields the
//! caller has changed before the next step.

use super::Random;
use crate::plain::transform;
use crate::questions::{ask_letters, LONGEST_TABLE, NAMES};
use crate::session::{Session, Step};

/// What happens to a session: a step, or a change by the caller, who hands in anything.
#[derive(Clone, Debug)]
pub enum Event {
    Start(u64, u64),
    Add(Vec<u8>),
    Mark(u64),
    Return(u64),
    Change(Change),
}

/// A field of a session and what is put there. A name is its place among the names.
#[derive(Clone, Copy, Debug)]
pub enum Change {
    Unknowns(u64),
    Givens(u64),
    Table { place: usize, byte: u8 },
    State { name: usize, place: usize, byte: u8 },
    Marked { name: usize, is_marked: bool },
}

impl Event {
    /// The session after it; a change is never refused.
    pub fn apply(&self, session: Session) -> Step {
        match self {
            Event::Start(u, g) => Session::start(*u, *g),
            Event::Add(h) => session.add(h),
            Event::Mark(name) => session.mark(*name),
            Event::Return(name) => session.return_to(*name),
            Event::Change(change) => Step { session: change.apply(session), answer: Ok(()) },
        }
    }
}

impl Change {
    pub fn apply(self, mut session: Session) -> Session {
        match self {
            Change::Unknowns(unknowns) => session.unknowns = unknowns,
            Change::Givens(givens) => session.givens = givens,
            Change::Table { place, byte } => session.table[place] = byte,
            Change::State { name, place, byte } => session.states[name].table[place] = byte,
            Change::Marked { name, is_marked } => session.states[name].is_marked = is_marked,
        }
        session
    }

    /// The change that puts the field back to what it is in a session.
    fn back_to(self, session: &Session) -> Change {
        match self {
            Change::Unknowns(_) => Change::Unknowns(session.unknowns),
            Change::Givens(_) => Change::Givens(session.givens),
            Change::Table { place, .. } => Change::Table { place, byte: session.table[place] },
            Change::State { name, place, .. } => {
                Change::State { name, place, byte: session.states[name].table[place] }
            }
            Change::Marked { name, .. } => {
                Change::Marked { name, is_marked: session.states[name].is_marked }
            }
        }
    }
}

/// Names for which question 18 is answered no: beside A to D, the letters in lower case, and numbers
/// whose low byte is a name.
pub const WRONG_NAMES: [u64; 14] = [
    0,
    1,
    4,
    64,
    69,
    97,
    100,
    193,
    255,
    321,
    65_604,
    4_294_967_361,
    9_223_372_036_854_775_874,
    u64::MAX,
];

impl Random {
    /// At least so many events from a start with these letters on: steps, some of them refused, and
    /// changes. Where a change makes every step refused, it is mostly put back after a step or two.
    pub fn history(&mut self, u: u64, g: u64, many: usize) -> Vec<Event> {
        let mut events = vec![Event::Start(u, g)];
        let mut session = Session::start(u, g).session;
        while events.len() < many {
            let first = events.len();
            if self.once_in(5) && first > 1 {
                let change = self.change(&session);
                events.push(Event::Change(change));
                if refuses_all(change.apply(session.clone())) {
                    events.extend((0..1 + self.below(2)).map(|_| self.step(&session)));
                    if !self.once_in(8) {
                        events.push(Event::Change(change.back_to(&session)));
                    }
                }
            } else {
                events.push(self.step(&session));
            }
            session =
                events[first..].iter().fold(session, |before, event| event.apply(before).session);
        }
        events
    }

    /// A step that fits a session, mostly not refused.
    pub fn step(&mut self, session: &Session) -> Event {
        let marked = names_marked(session);
        match self.below(10) {
            0..=4 => Event::Add(self.table_handed(table_length(session))),
            5 | 6 => Event::Mark(self.name()),
            _ if marked.is_empty() && !self.once_in(3) => Event::Mark(self.name()),
            _ if marked.is_empty() || self.once_in(4) => Event::Return(self.name()),
            _ => Event::Return(self.pick(&marked).into()),
        }
    }

    /// A table to add, of that length or another, now and then with a byte that is no value.
    fn table_handed(&mut self, length: usize) -> Vec<u8> {
        let mut h = self.added(length);
        if self.once_in(8) {
            self.spoil(&mut h, length);
        }
        self.fit(&mut h);
        h
    }

    /// A table to add, seldom the empty one: few values are 1, so that the present table does not
    /// soon have the value 1 everywhere.
    pub fn added(&mut self, length: usize) -> Vec<u8> {
        let many = self.pick(&[2, 4, 8, length]);
        let mut values = self.table(length, many);
        if !self.once_in(8) {
            values[self.below(length)] = 1;
        }
        transform(&values)
    }

    /// Mostly one of A to D, A and B more often.
    pub fn name(&mut self) -> u64 {
        match self.below(8) {
            0 => self.pick(&WRONG_NAMES),
            _ => self.pick(b"AAABBBCD").into(),
        }
    }

    /// A change of any field: bytes that are no values, within 2^n and behind, of the present table
    /// and of names that are marked or not; marks; numbers of letters.
    pub fn change(&mut self, session: &Session) -> Change {
        let length = table_length(session);
        let byte = self.pick(&[2, 3, 128, 254, 255]);
        let name = self.below(NAMES.len());
        // at or behind 2^n; the last byte where nothing is behind
        let behind = length.min(LONGEST_TABLE - 1);
        let behind = self.pick(&[behind, LONGEST_TABLE - 1, (behind + LONGEST_TABLE) / 2]);
        match self.below(10) {
            0 => Change::Unknowns(self.pick(&[0, 1, 2, 6, 7, 64, 256, u64::MAX])),
            1 => Change::Givens(self.pick(&[0, 1, 3, 8, 9, 64, 256, u64::MAX - 1])),
            2 => Change::Table { place: self.below(length), byte },
            3 => Change::Table { place: self.below(length), byte: self.below(2) as u8 },
            4 => Change::Table { place: behind, byte },
            5 | 6 => Change::State { name, place: self.below(length), byte },
            7 => Change::State { name, place: behind, byte },
            _ => Change::Marked { name, is_marked: !session.states[name].is_marked },
        }
    }
}

fn names_marked(session: &Session) -> Vec<u8> {
    let states = NAMES.into_iter().zip(&session.states);
    states.filter(|(_, state)| state.is_marked).map(|(name, _)| name).collect()
}

/// Whether a session handed in is refused whatever the step: marking one of the names is not
/// refused otherwise.
fn refuses_all(session: Session) -> bool {
    session.mark(NAMES[0].into()).answer.is_err()
}

/// 2^n, and some bytes where question 1 is answered no.
fn table_length(session: &Session) -> usize {
    ask_letters(session.unknowns, session.givens).map_or(4, |letters| letters.table_length())
}
