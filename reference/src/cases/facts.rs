//! Facts as test cases: right ones of every density, wrong ones of every sort, and conditions that
//! have a solution under a fact alone.

use super::Random;
use crate::plain::transform;
use crate::questions::{ask_letters, Letters};

/// The fact 0, of no bytes where question 1 is answered no.
pub fn no_fact(u: u64, g: u64) -> Vec<u8> {
    vec![0; ask_letters(u, g).map_or(0, Letters::table_length)]
}

/// The fact 1, which leaves no state.
pub fn one(u: u64, g: u64) -> Vec<u8> {
    let mut fact = no_fact(u, g);
    fact[0] = 1;
    fact
}

/// The fact that is 1 in the states to be left out.
pub fn leaving_out(u: u64, g: u64, is_left_out: impl Fn(usize) -> bool) -> Vec<u8> {
    let at = |point: usize| is_left_out(point >> u) as u8;
    transform(&(0..1 << (u + g)).map(at).collect::<Vec<_>>())
}

/// The condition f*(1 + g).
pub fn counted(fact: &[u8], condition: &[u8]) -> Vec<u8> {
    let (f, g) = (transform(condition), transform(fact));
    transform(&f.iter().zip(g).map(|(f, g)| f & (1 - g)).collect::<Vec<_>>())
}

/// Facts of U and G for which question 22 or 23 is answered no.
pub fn wrong_facts(u: u64, g: u64) -> Vec<Vec<u8>> {
    let mut wrong = vec![one(u, g)];
    for j in 0..u {
        for mask in [1 << j, 1 << j | 1 << (u + g) >> 1, (1 << (u + g)) - 1] {
            // alone, and beside the monomial 1
            for mut fact in [no_fact(u, g), one(u, g)] {
                fact[mask] = 1;
                wrong.push(fact);
            }
        }
    }
    if u > 0 {
        wrong.push(vec![1; 1 << (u + g)]);
    }
    wrong.sort();
    wrong.dedup();
    wrong
}

impl Random {
    /// A fact for which 22 and 23 are answered yes: 0, 1 in one state, 0 in one state, one monomial,
    /// all that have no unknown, about half of them, or few.
    pub fn fact(&mut self, u: u64, g: u64) -> Vec<u8> {
        let (states, one_of_them) = (1 << g, self.below(1 << g));
        let over_givens = match self.below(7) {
            0 => no_fact(0, g),
            1 => leaving_out(0, g, |state| state == one_of_them),
            2 => leaving_out(0, g, |state| state != one_of_them),
            3 => (0..states).map(|mask| (mask == one_of_them) as u8).collect(),
            4 => vec![1; states],
            5 => self.table(states, 2),
            _ => self.table(states, 2 + states / 3),
        };
        let mut fact = no_fact(u, g);
        if over_givens != one(0, g) {
            fact.chunks_mut(1 << u).zip(over_givens).for_each(|(masks, byte)| masks[0] = byte);
        }
        fact
    }

    /// A fact that is mostly right: else it has an unknown or is 1 in every state.
    pub fn any_fact(&mut self, u: u64, g: u64) -> Vec<u8> {
        match self.below(12) {
            0 => {
                let wrong = wrong_facts(u, g);
                wrong[self.below(wrong.len())].clone()
            }
            1 => {
                let mut fact = self.fact(u, g);
                fact[self.below(1 << (u + g))] ^= 1;
                fact
            }
            _ => self.fact(u, g),
        }
    }

    /// A fact and a condition. Where the condition has no solution by itself, the fact leaves out
    /// every blocked state, every one but one, or any states.
    pub fn under_fact(&mut self, u: u64, g: u64) -> (Vec<u8>, Vec<u8>) {
        if self.once_in(3) {
            return (self.fact(u, g), self.solvable(u, g));
        }
        let state = self.below(1 << g);
        let condition = self.blocked(u, g, state);
        let values = transform(&condition);
        let is_blocked =
            |state: usize| values[state << u..(state + 1) << u].iter().all(|&value| value == 1);
        let blocked: Vec<usize> = (0..1 << g).filter(|&state| is_blocked(state)).collect();
        let kept = self.pick(&blocked);
        let fact = match self.below(3) {
            0 => leaving_out(u, g, is_blocked),
            1 => leaving_out(u, g, |state| is_blocked(state) && state != kept),
            _ => self.fact(u, g),
        };
        match fact == one(u, g) {
            true => (no_fact(u, g), condition),
            false => (fact, condition),
        }
    }
}

/// U, G, a fact, a condition, and Boole's answers, or the state.
pub type Row = (u64, u64, &'static str, &'static str, Result<&'static [&'static str], u64>);

/// Worked out by hand.
pub const ROWS: [Row; 14] = [
    // points are never both normal and reverse
    (1, 2, "a*b", "a*u+b*u+b", Ok(&["b+u+a*b+a*u+b*u"])),
    (1, 2, "0", "a*u+b*u+b", Err(3)),
    (1, 2, "a", "a*u+b*u+b", Ok(&["b+u+a*b+b*u+a*b*u"])),
    (0, 0, "0", "0", Ok(&[])),
    (0, 0, "0", "1", Err(0)),
    (0, 1, "a", "a", Ok(&[])),
    (0, 1, "1+a", "1", Err(1)),
    (1, 1, "a", "a", Ok(&["u"])),
    (1, 1, "1+a", "a", Err(1)),
    (1, 1, "a", "1", Err(0)),
    (1, 1, "1+a", "u", Ok(&["u+u*a"])),
    (0, 2, "a*b", "a", Err(1)),
    (0, 2, "a+a*b", "a", Err(3)),
    (2, 1, "a", "u+v", Ok(&["v+v*a+u*a", "v"])),
];
