//! Cases for sessions of named design states, with any bytes handed in.

use crate::calls::Calls;
use crate::making::{damage, garbage, large, wrong_letters};
use layodegi::{LONGEST_TABLE, SESSION_LENGTH};
use reference::cases::sessions::{Event, WRONG_NAMES};
use reference::cases::{pairs, Random};
use reference::{NamedState, Session, Step};

const TABLE: usize = 2;

/// Where the byte stands that marks a name, by its place among the names; its table stands behind.
fn mark_at(name: usize) -> usize {
    1_026 + 1_025 * name
}

fn table_at(bytes: &[u8], place: usize) -> [u8; LONGEST_TABLE] {
    bytes[place..][..LONGEST_TABLE].try_into().expect("a table")
}

/// The session that bytes hold.
fn session_in(bytes: &[u8]) -> Session {
    let state = |name: usize| NamedState {
        is_marked: bytes[mark_at(name)] == 1,
        table: table_at(bytes, mark_at(name) + 1),
    };
    let (unknowns, givens) = (bytes[0].into(), bytes[1].into());
    Session { unknowns, givens, table: table_at(bytes, TABLE), states: [0, 1, 2, 3].map(state) }
}

/// The bytes of a session; what is too large for a byte is cut.
fn bytes_of(session: &Session) -> Vec<u8> {
    let mut bytes = vec![session.unknowns as u8, session.givens as u8];
    bytes.extend(session.table);
    for state in &session.states {
        bytes.push(state.is_marked as u8);
        bytes.extend(state.table);
    }
    bytes
}

/// A step of the reference on the session that bytes hold. A refused step changes no byte, but a
/// start puts a session even then.
pub fn take_step(event: &Event, bytes: &mut [u8]) -> Result<(), reference::Refusal> {
    let Step { session, answer } = event.apply(session_in(bytes));
    if answer.is_ok() || matches!(event, Event::Start(..)) {
        bytes.copy_from_slice(&bytes_of(&session));
    }
    answer
}

pub fn run_starts() -> Calls {
    let mut calls = Calls::new('Q');
    let random = &mut Random::new('q');
    for _ in 0..10 {
        for (u, g) in wrong_letters(random) {
            calls.session(&Event::Start(u, g), &garbage(random, SESSION_LENGTH));
        }
    }
    for (u, g) in pairs(0, 10) {
        for _ in 0..50 {
            calls.session(&Event::Start(u, g), &garbage(random, SESSION_LENGTH));
        }
    }
    calls
}

/// Lists of steps, the bytes of one handed to the next, with changes between.
pub fn run_histories() -> Calls {
    let mut calls = Calls::new('H');
    let random = &mut Random::new('H');
    for (u, g) in pairs(0, 10) {
        for _ in 0..12 {
            let mut bytes = garbage(random, SESSION_LENGTH);
            for event in random.history(u, g, 30) {
                if !matches!(event, Event::Change(_)) {
                    calls.session(&event, &bytes);
                }
                // the answer of a step is compared above
                let _ = take_step(&event, &mut bytes);
                if random.once_in(12) {
                    bytes[mark_at(random.below(4))] = random.number() as u8;
                }
            }
        }
    }
    calls
}

/// Bytes that no list of steps makes, and arguments of every sort.
pub fn run_handed() -> Calls {
    let mut calls = Calls::new('J');
    let random = &mut Random::new('j');
    every_letters(&mut calls, random);
    every_place(&mut calls, random);
    every_mark(&mut calls, random);
    every_name(&mut calls, random);
    for (u, g) in pairs(0, 10) {
        every_length(&mut calls, random, u, g);
        for _ in 0..40 {
            let mut bytes = handed(random, u, g);
            if random.once_in(4) {
                spoil(random, &mut bytes);
            }
            let mut h = random.added(1 << (u + g));
            damage(random, &mut h);
            calls.session(&Event::Add(h), &bytes);
            calls.session(&Event::Mark(random.name()), &bytes);
            calls.session(&Event::Return(random.name()), &bytes);
        }
    }
    calls
}

/// A session that passes questions 1 and 8, with any bytes where they do not ask.
fn handed(random: &mut Random, u: u64, g: u64) -> Vec<u8> {
    let length = 1 << (u + g);
    let mut bytes = garbage(random, SESSION_LENGTH);
    bytes[..TABLE].copy_from_slice(&[u as u8, g as u8]);
    bytes[TABLE..][..length].copy_from_slice(&random.any_table(length));
    for place in [0, 1, 2, 3].map(mark_at) {
        if random.once_in(2) {
            bytes[place] = 1;
            bytes[place + 1..][..length].copy_from_slice(&random.any_table(length));
        } else {
            bytes[place] = random.pick(&[0, 0, 2, 3, 65, 128, 129, 255]);
        }
    }
    bytes
}

/// Puts a byte over 1 into a table, most often near its start, where few letters are asked too.
fn spoil(random: &mut Random, bytes: &mut [u8]) {
    let table =
        random.pick(&[TABLE, mark_at(0) + 1, mark_at(1) + 1, mark_at(2) + 1, mark_at(3) + 1]);
    let most = random.pick(&[1, 4, 32, LONGEST_TABLE]);
    bytes[table + random.below(most)] = 2 + random.below(254) as u8;
}

/// A step that is done on most sessions of two letters.
fn any_step(random: &mut Random) -> Event {
    match random.below(3) {
        0 => Event::Add(random.table(4, 2)),
        1 => Event::Mark(random.pick(b"ABCD").into()),
        _ => Event::Return(random.pick(b"ABCD").into()),
    }
}

/// Every byte for U and for G, beside bytes that are right and wrong.
fn every_letters(calls: &mut Calls, random: &mut Random) {
    for byte in 0..=255 {
        for other in [0, 1, 2, 4, 6, 7, 8, 9, 10, 128, 255] {
            for letters in [[byte, other], [other, byte]] {
                let mut bytes = vec![0; SESSION_LENGTH];
                bytes[..TABLE].copy_from_slice(&letters);
                bytes[mark_at(random.below(4))] = 1;
                calls.session(&any_step(random), &bytes);
            }
        }
    }
}

/// Every place of a session with a byte that is no value, for few letters and for most.
fn every_place(calls: &mut Calls, random: &mut Random) {
    for (u, g) in [(1, 1), (6, 4)] {
        for place in TABLE..SESSION_LENGTH {
            let mut bytes = handed(random, u, g);
            bytes[place] = 2 + random.below(254) as u8;
            calls.session(&any_step(random), &bytes);
        }
    }
}

/// Every byte for the mark of each name, under each step, with a table that is one or not.
fn every_mark(calls: &mut Calls, random: &mut Random) {
    for (name, byte) in b"ABCD".iter().enumerate() {
        for mark in 0..=255 {
            let mut bytes = handed(random, 2, 0);
            bytes[mark_at(name)] = mark;
            bytes[mark_at(name) + 1..][..4].copy_from_slice(&[0, 1, 0, random.pick(&[0, 1, 1, 7])]);
            for event in [Event::Return(u64::from(*byte)), Event::Mark(66), any_step(random)] {
                calls.session(&event, &bytes);
            }
        }
    }
}

/// Every small name, and those whose low byte is a name.
fn every_name(calls: &mut Calls, random: &mut Random) {
    let large: Vec<u64> = (0..200).map(|_| large(random)).collect();
    let names = (0..=512).chain(WRONG_NAMES).chain(large);
    let cut = (8..64).flat_map(|bit| [1 << bit | 65, 1 << bit | 68, u64::MAX << bit | 66]);
    for name in names.chain(cut) {
        let bytes = handed(random, 1, 2);
        calls.session(&Event::Mark(name), &bytes);
        calls.session(&Event::Return(name), &bytes);
    }
}

/// Tables to add of every length that is too short, and of lengths that are not.
fn every_length(calls: &mut Calls, random: &mut Random, u: u64, g: u64) {
    let exact = 1 << (u + g);
    let bytes = handed(random, u, g);
    let longer = [exact, exact + 1, exact + 70, 1_024, 1_025, 65_536 + exact];
    for length in (0..exact).chain(longer) {
        let mut h = random.table(length, 2);
        let fits = length.min(exact);
        h[fits..].fill(9);
        if random.once_in(8) && fits > 0 {
            h[random.below(fits)] = 2;
        }
        calls.session(&Event::Add(h), &bytes);
    }
}
