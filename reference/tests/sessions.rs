//! Named design states against lists of added conditions, as the history defines them; rows of
//! refusals; and what a step leaves alone in a session of any fields.

use reference::cases::sessions::{Change, Event, WRONG_NAMES};
use reference::cases::{pairs, Random, TOO_LARGE};
use reference::plain::{self, transform, Block, Bytes};
use reference::*;
use std::collections::HashSet;

/// The present list of added conditions, and the list stored under each name.
#[derive(Clone)]
struct Lists {
    letters: Letters,
    present: Vec<Vec<u8>>,
    stored: [Option<Vec<Vec<u8>>>; 4],
}

impl Lists {
    fn new(u: u64, g: u64) -> Lists {
        let letters = Letters { unknowns: u as usize, givens: g as usize };
        Lists { letters, present: vec![], stored: [const { None }; 4] }
    }

    /// A step, or the number of its first no.
    fn follow(&mut self, event: &Event) -> Result<(), u8> {
        match event {
            Event::Add(h) => {
                let asked = h.get(..self.letters.table_length()).ok_or(4)?;
                if asked.iter().any(|byte| ![0, 1].contains(byte)) {
                    return Err(8);
                }
                self.present.push(asked.to_vec());
            }
            Event::Mark(name) => *self.under(*name)? = Some(self.present.clone()),
            Event::Return(name) => self.present = self.under(*name)?.clone().ok_or(19)?,
            Event::Start(..) | Event::Change(_) => unreachable!("no step of a list"),
        }
        Ok(())
    }

    fn under(&mut self, name: u64) -> Result<&mut Option<Vec<Vec<u8>>>, u8> {
        match name {
            65..=68 => Ok(&mut self.stored[(name - 65) as usize]),
            _ => Err(18),
        }
    }

    /// The table of a list, from its values: 1 where some condition of the list is 1.
    fn table(&self, list: &[Vec<u8>]) -> [u8; LONGEST_TABLE] {
        let mut values = vec![0; self.letters.table_length()];
        for condition in list {
            values.iter_mut().zip(transform(condition)).for_each(|(value, other)| *value |= other);
        }
        let mut table = [0; LONGEST_TABLE];
        table[..values.len()].copy_from_slice(&transform(&values));
        table
    }

    fn session(&self) -> Session {
        let states = self.stored.each_ref().map(|list| NamedState {
            is_marked: list.is_some(),
            table: list.as_ref().map_or([0; LONGEST_TABLE], |list| self.table(list)),
        });
        let (unknowns, givens) = (self.letters.unknowns as u64, self.letters.givens as u64);
        Session { unknowns, givens, table: self.table(&self.present), states }
    }
}

/// The session after steps that are not refused.
fn after(session: Session, steps: &[Event]) -> Session {
    steps.iter().fold(session, |session, step| {
        let Step { session, answer } = step.apply(session);
        assert_eq!(answer, Ok(()), "{step:?}");
        session
    })
}

fn start(u: u64, g: u64) -> Session {
    let Step { session, answer } = Session::start(u, g);
    assert_eq!(answer, Ok(()));
    session
}

/// After each step of each history the tables are those of the lists that the history defines, and
/// the answers are theirs; a refused step hands back what it was given.
#[test]
fn the_tables_are_those_of_the_lists() {
    let random = &mut Random::new('L');
    let (mut returns, mut tables) = (0, HashSet::new());
    for (u, g) in pairs(0, 10) {
        for _ in 0..if u + g <= 5 { 60 } else { 4 } {
            let mut session = start(u, g);
            let mut lists = Lists::new(u, g);
            assert_eq!(session, lists.session());
            let events = random.history(u, g, 40);
            for event in events[1..].iter().filter(|event| !matches!(event, Event::Change(_))) {
                let before = lists.clone();
                let expected = lists.follow(event);
                let step = event.apply(session.clone());
                assert_eq!(step.answer, expected.map_err(Refusal), "{event:?}");
                assert_eq!(step.session, lists.session(), "{event:?}");
                match expected {
                    Err(_) => assert_eq!(step.session, session),
                    Ok(()) => {
                        let other = lists.present.len() != before.present.len();
                        returns += (matches!(event, Event::Return(_)) && other) as usize;
                    }
                }
                session = step.session;
                tables.insert(session.table);
            }
        }
    }
    assert!(returns > 500 && tables.len() > 2_000, "{returns} {}", tables.len());
}

/// The order of adding plays no part, and what is added again adds nothing.
#[test]
fn a_list_is_a_set() {
    let random = &mut Random::new('S');
    for (u, g) in pairs(0, 7) {
        let (new, length) = (start(u, g), 1 << (u + g));
        let mut list: Vec<Event> = (0..5).map(|_| Event::Add(random.added(length))).collect();
        let expected = after(new.clone(), &list);
        list.extend_from_within(1..4);
        for place in (1..list.len()).rev() {
            list.swap(place, random.below(place + 1));
        }
        assert_eq!(after(new.clone(), &list), expected);
        assert_eq!(after(expected.clone(), &list), expected);
        assert_eq!(after(new, &[Event::Add(expected.table.to_vec())]), expected);
        assert_eq!(after(expected.clone(), &[Event::Add(vec![0; length])]), expected);
    }
}

/// Tables worked out by hand: u, then u or v; two states marked, one of them again.
#[test]
fn a_design_by_hand() {
    let add = |table: [u8; 4]| Event::Add(table.to_vec());
    let (a, b) = (b'A'.into(), b'B'.into());
    let front = |session: &Session| session.table[..4].to_vec();
    let session = after(start(2, 0), &[add([0, 1, 0, 0]), Event::Mark(a)]);
    assert_eq!(front(&session), [0, 1, 0, 0]);
    let session = after(session, &[add([0, 0, 1, 0]), Event::Mark(b)]);
    assert_eq!(front(&session), [0, 1, 1, 1]);
    // u or v, or not u, is 1
    let session = after(session, &[add([1, 1, 0, 0])]);
    assert_eq!(front(&session), [1, 0, 0, 0]);
    let session = after(session, &[Event::Return(a)]);
    assert_eq!(front(&session), [0, 1, 0, 0]);
    // u or (1 + u)*v is u + v + u*v again; marked as A, it is what A brings back
    let session = after(session, &[add([0, 0, 1, 1]), Event::Mark(a), add([1, 0, 0, 0])]);
    let session = after(session, &[Event::Return(a)]);
    assert_eq!(front(&session), [0, 1, 1, 1]);
    assert_eq!(session.states.each_ref().map(|state| state.is_marked), [true, true, false, false]);
    assert_eq!(after(session.clone(), &[Event::Return(b)]), session);
    assert_eq!(session.return_to(b'C'.into()).answer, Err(Refusal(19)));
}

#[test]
fn a_refused_start_hands_back_no_letters() {
    for (u, g) in TOO_LARGE {
        let Step { session, answer } = Session::start(u, g);
        assert_eq!(answer, Err(Refusal(1)));
        assert_eq!(session, start(0, 0));
    }
}

/// U = 1, G = 1, the table u, B marked.
fn marked() -> Session {
    after(start(1, 1), &[Event::Add(vec![0, 1, 0, 0]), Event::Mark(b'B'.into())])
}

/// The first no counts, and nothing is changed.
#[test]
fn refusals() {
    let letters = [Change::Unknowns(7), Change::Givens(9), Change::Givens(u64::MAX)];
    let present = Change::Table { place: 3, byte: 2 };
    let stored = Change::State { name: 1, place: 0, byte: 255 };
    let too_short = Event::Add(vec![0, 7, 0]);
    let no_bits = Event::Add(vec![0, 0, 0, 7]);
    let no_name = Event::Return(65 + 256);
    let not_marked = Event::Return(b'A'.into());
    let rows: [(&[Change], &Event, u8); 14] = [
        (&letters[..1], &too_short, 1),
        (&[present, letters[1]], &no_bits, 1),
        (&[stored, letters[2]], &no_name, 1),
        (&letters[1..2], &not_marked, 1),
        (&[present], &too_short, 8),
        (&[present], &no_name, 8),
        (&[stored], &too_short, 8),
        (&[stored], &not_marked, 8),
        (&[], &too_short, 4),
        (&[], &Event::Add(vec![]), 4),
        (&[], &no_bits, 8),
        (&[], &no_name, 18),
        (&[], &Event::Mark(65 + 256), 18),
        (&[], &not_marked, 19),
    ];
    for (changes, step, number) in rows {
        let handed = changes.iter().fold(marked(), |session, change| change.apply(session));
        let Step { session, answer } = step.apply(handed.clone());
        assert_eq!(answer, Err(Refusal(number)), "{changes:?} {step:?}");
        assert_eq!(session, handed, "{changes:?} {step:?}");
    }
    for name in WRONG_NAMES {
        assert_eq!(marked().mark(name).answer, Err(Refusal(18)));
        assert_eq!(marked().return_to(name).answer, Err(Refusal(18)));
    }
}

/// Bytes behind 2^n and the tables of names that are not marked may be anything; of each marked
/// name the table is asked.
#[test]
fn what_is_asked_of_a_session() {
    let steps = [Event::Add(vec![0, 0, 1, 0, 9]), Event::Mark(b'A'.into()), Event::Return(66)];
    for change in [
        Change::Table { place: 4, byte: 2 },
        Change::Table { place: 1023, byte: 255 },
        Change::State { name: 1, place: 4, byte: 2 },
        Change::State { name: 0, place: 0, byte: 3 },
        Change::State { name: 3, place: 1023, byte: 3 },
        Change::Marked { name: 2, is_marked: true },
    ] {
        for step in &steps {
            assert_eq!(step.apply(change.apply(marked())).answer, Ok(()), "{change:?} {step:?}");
        }
    }
    for (name, byte) in NAMES.into_iter().enumerate() {
        let marked = after(marked(), &[Event::Mark(byte.into())]);
        let session = Change::State { name, place: 3, byte: 2 }.apply(marked);
        assert_eq!(session.clone().add(&[0; 4]).answer, Err(Refusal(8)));
        let session = Change::Marked { name, is_marked: false }.apply(session);
        assert_eq!(session.clone().add(&[0; 4]).answer, Ok(()));
        assert_eq!(session.return_to(byte.into()).answer, Err(Refusal(19)));
    }
}

/// Of a session of any fields, a step that is done changes only what its name says, with all 1,024
/// bytes where a table is stored or brought back; a refused step changes nothing.
#[test]
fn other_fields_stay() {
    let random = &mut Random::new('F');
    let (mut done, mut refused) = (0, 0);
    for (u, g) in pairs(0, 5) {
        for _ in 0..40 {
            let mut session = start(u, g);
            for event in random.history(u, g, 40) {
                let before = session.clone();
                let step = event.apply(session);
                let mut expected = before.clone();
                match (&event, step.answer) {
                    (Event::Change(_) | Event::Start(..), _) => expected = step.session.clone(),
                    (_, Err(_)) => refused += 1,
                    (Event::Add(_), Ok(())) => {
                        let length = 1 << (before.unknowns + before.givens);
                        expected.table[..length].copy_from_slice(&step.session.table[..length]);
                    }
                    (Event::Mark(name), Ok(())) => {
                        let state = NamedState { is_marked: true, table: before.table };
                        expected.states[*name as usize - 65] = state;
                    }
                    (Event::Return(name), Ok(())) => {
                        expected.table = before.states[*name as usize - 65].table;
                    }
                }
                assert_eq!(step.session, expected, "{event:?}");
                done += (step.session != before) as usize;
                session = step.session;
            }
        }
    }
    assert!(done > 5_000 && refused > 2_000, "{done} {refused}");
}

/// The steps of plain Rust, in place, answer and leave the same, in both forms.
#[test]
fn plain_steps_agree() {
    assert_plain_agrees::<Bytes>('P');
    assert_plain_agrees::<u64>('p');
}

fn assert_plain_agrees<B: Block>(seed: char) {
    let random = &mut Random::new(seed);
    for (u, g) in pairs(0, 10) {
        let mut session = start(u, g);
        for event in random.history(u, g, 60) {
            let mut in_place = session.clone();
            let answer = match &event {
                Event::Add(h) => plain::add_condition::<B>(&mut in_place, h),
                Event::Mark(name) => plain::mark(&mut in_place, *name),
                Event::Return(name) => plain::return_to(&mut in_place, *name),
                Event::Start(..) | Event::Change(_) => {
                    session = event.apply(session).session;
                    continue;
                }
            };
            let step = event.apply(session);
            assert_eq!((answer, &in_place), (step.answer, &step.session), "{event:?}");
            session = step.session;
        }
    }
}
