//! What the cases of several calls are made from.

use reference::cases::facts::no_fact;
use reference::cases::orders::wrong_orders;
use reference::cases::{Random, TOO_LARGE};
use reference::Order;

/// Any bytes.
pub fn garbage(random: &mut Random, length: usize) -> Vec<u8> {
    (0..length).map(|_| random.number() as u8).collect()
}

/// A number that no count of letters, state, choice or route may be, small or large to 2^64 - 1.
pub fn large(random: &mut Random) -> u64 {
    let power = 1 << random.below(64);
    match random.below(5) {
        0 => 7 + random.below(300) as u64,
        1 => u64::MAX - random.below(20) as u64,
        2 => power | 1 << 11,
        3 => power.wrapping_sub(1) | 1 << 12,
        _ => random.number() << random.below(12) | 1 << 20,
    }
}

/// Counts of letters for which question 1 is answered no.
pub fn wrong_letters(random: &mut Random) -> Vec<(u64, u64)> {
    let others = (0..200).map(|_| {
        let (small, other) = (random.below(9) as u64, random.below(7) as u64);
        match random.below(5) {
            0 => (7 + other, small),
            1 => (other, 9 + small),
            2 => (6, 5 + random.below(4) as u64),
            3 => (large(random), random.pick(&[0, 1, 4, 8])),
            _ => (large(random), large(random)),
        }
    });
    TOO_LARGE.into_iter().chain(others).collect()
}

/// An order: mostly right, else wrong in one byte or in all.
pub fn order(random: &mut Random, u: u64) -> Order {
    match random.below(16) {
        0 => {
            let wrong = wrong_orders(u);
            random.pick(&wrong)
        }
        1 => Order([(); 6].map(|()| random.number() as u8)),
        _ => random.any_order(u),
    }
}

/// A fact and a condition: the fact mostly right, or 0; the condition any, or one that has a solution
/// under the fact alone.
pub fn under_fact(random: &mut Random, u: u64, g: u64) -> (Vec<u8>, Vec<u8>) {
    match random.below(3) {
        0 => (no_fact(u, g), condition(random, u, g)),
        1 => (random.any_fact(u, g), condition(random, u, g)),
        _ => random.under_fact(u, g),
    }
}

/// A condition: sparse or dense, solvable or not, at the bounds.
pub fn condition(random: &mut Random, u: u64, g: u64) -> Vec<u8> {
    let length = 1 << (u + g);
    match random.below(8) {
        0 => vec![random.below(2) as u8; length],
        1 => random.any_table(length),
        2 => {
            let mut table = vec![0; length];
            table[random.below(length)] = 1;
            table
        }
        3 | 4 => {
            let state = random.below(1 << g);
            random.blocked(u, g, state)
        }
        _ => random.solvable(u, g),
    }
}

/// Makes a table wrong, or longer, now and then: a byte over 1 anywhere, too few bytes, garbage
/// behind.
pub fn damage(random: &mut Random, table: &mut Vec<u8>) {
    match random.below(16) {
        0 | 1 if !table.is_empty() => {
            let place = random.below(table.len());
            table[place] = 2 + random.below(254) as u8;
        }
        2 => drop(table.pop()),
        3 => table.truncate(random.below(table.len() + 1)),
        4 => table.clear(),
        5..=7 => {
            let more = 1 + random.below(70);
            table.extend(garbage(random, more));
        }
        _ => {}
    }
}

/// A result buffer of any bytes: mostly as long as it has to be, else longer or shorter.
pub fn result(random: &mut Random, exact: usize) -> Vec<u8> {
    let length = match random.below(16) {
        0 => exact.saturating_sub(1),
        1 => random.below(exact + 1),
        2 => 0,
        3..=6 => exact + 1 + random.below(70),
        _ => exact,
    };
    garbage(random, length)
}
