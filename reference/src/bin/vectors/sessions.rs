//! Cases for named design states.

use crate::lines::Lines;
use reference::cases::sessions::{Change, Event, WRONG_NAMES};
use reference::cases::{pairs, Random, TOO_LARGE};

const A: u64 = b'A' as u64;
const B: u64 = b'B' as u64;

pub fn add_sessions(lines: &mut Lines) {
    let random = &mut Random::new('n');
    for (u, g) in TOO_LARGE {
        // the new session of U = 0 and G = 0, over the one before
        let before = [Event::Start(2, 1), Event::Add(vec![1; 8]), Event::Mark(A)];
        let after = [Event::Start(u, g), Event::Return(A), Event::Add(vec![1])];
        lines.session(&[before, after].concat());
    }
    add_two_noes(lines);
    add_names(lines);
    for (u, g) in pairs(0, 5) {
        for many in 5..17 {
            lines.session(&random.history(u, g, many));
        }
    }
    for (u, g) in pairs(6, 8) {
        lines.session(&random.history(u, g, 9));
    }
    for (u, g) in pairs(9, 10) {
        let name = u64::from(random.pick(b"ABCD"));
        let first = random.added(1 << (u + g));
        let second = random.added(1 << (u + g));
        lines.session(&[
            Event::Start(u, g),
            Event::Add(first),
            Event::Mark(name),
            Event::Add(second),
            Event::Return(name),
        ]);
    }
}

/// Each set of wrong things in the session handed in, under each sort of step.
fn add_two_noes(lines: &mut Lines) {
    let wrong = [
        Change::Unknowns(7),
        Change::Givens(9),
        Change::Table { place: 3, byte: 2 },
        Change::State { name: 1, place: 0, byte: 255 },
    ];
    for set in 0..1 << wrong.len() {
        let mut events = vec![
            Event::Start(1, 1),
            Event::Add(vec![0, 1, 0, 1]),
            Event::Mark(B),
            // not asked: a name that is not marked, and what stands behind 2^n
            Event::Change(Change::State { name: 2, place: 1, byte: 9 }),
            Event::Change(Change::Table { place: 4, byte: 3 }),
        ];
        let chosen = wrong.iter().enumerate().filter(|(number, _)| set >> number & 1 == 1);
        events.extend(chosen.map(|(_, change)| Event::Change(*change)));
        events.extend([
            Event::Add(vec![0, 7, 0]),
            Event::Add(vec![0, 7, 0, 0]),
            Event::Mark(B + 256),
            Event::Return(B + 256),
            Event::Return(A),
            Event::Add(vec![0, 0, 1, 0, 7]),
            Event::Mark(A),
            Event::Return(B),
        ]);
        lines.session(&events);
    }
}

/// Names are returned to and marked, right and wrong ones, while the table grows.
fn add_names(lines: &mut Lines) {
    let mut events = vec![Event::Start(1, 2)];
    for (number, name) in (63..=70).chain(WRONG_NAMES).enumerate() {
        // one monomial after another, those of more letters first
        let mut h = vec![0; 8];
        h[7 - number % 7] = 1;
        events.extend([Event::Add(h), Event::Return(name), Event::Mark(name), Event::Return(name)]);
    }
    lines.session(&events);
}
