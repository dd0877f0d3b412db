//! Cases for the shorter of two answer tables: those that solving gives, any others, and pairs whose
//! totals tie or nearly do.

use crate::calls::Calls;
use crate::making::{damage, garbage, under_fact, wrong_letters};
use layodegi::{Letters, Order};
use reference::cases::{bench_tables, every_table, pairs, Random};

pub fn run() -> Calls {
    let mut calls = Calls::new('K');
    let random = &mut Random::new('k');
    for (u, g) in wrong_letters(random) {
        let [boole, lowenheim] = [(); 2].map(|()| random.table(64, 2));
        calls.shorter(u, g, &boole, &lowenheim);
        calls.shorter(u, g, &[7], &[]);
    }
    every_small_pair(&mut calls);
    for (u, g, condition) in bench_tables() {
        let fact = random.any_fact(u, g);
        if let Some([boole, lowenheim]) = solved(random, (u, g), &fact, &condition) {
            both_ways(&mut calls, (u, g), &boole, &lowenheim);
        }
    }
    for (u, g) in pairs(0, 10) {
        for _ in 0..60 {
            let (fact, condition) = under_fact(random, u, g);
            if let Some([boole, lowenheim]) = solved(random, (u, g), &fact, &condition) {
                both_ways(&mut calls, (u, g), &boole, &lowenheim);
                perhaps_damaged(&mut calls, random, (u, g), boole, lowenheim);
            }
            let [boole, lowenheim] = any_pair(random, u, g);
            perhaps_damaged(&mut calls, random, (u, g), boole, lowenheim);
        }
        at_the_bounds(&mut calls, u, g);
        bytes_behind(&mut calls, random, u, g);
        two_wrong(&mut calls, random, u, g);
    }
    calls
}

/// Every two answer tables of one unknown alone, of one beside a given, and of two alone.
fn every_small_pair(calls: &mut Calls) {
    for (u, g) in [(1, 0), (1, 1), (2, 0)] {
        let length = u as usize * (1 << (u + g));
        for boole in every_table(length) {
            for lowenheim in every_table(length) {
                calls.shorter(u, g, &boole, &lowenheim);
            }
        }
    }
}

/// The archive's own answers, where the condition has a solution.
fn solved(
    random: &mut Random,
    (u, g): (u64, u64),
    fact: &[u8],
    condition: &[u8],
) -> Option<[Vec<u8>; 2]> {
    let letters = Letters { unknowns: u as usize, givens: g as usize };
    let order = Order(random.order(u).0);
    let [mut boole, mut lowenheim] = [(); 2].map(|()| garbage(random, letters.answers_length()));
    let solution = layodegi::boole(letters, order, fact, condition, &mut boole);
    let other = layodegi::lowenheim(letters, order, fact, condition, &mut lowenheim);
    let is_solved = |solution| matches!(solution, Ok(layodegi::Solution::Solved { .. }));
    (is_solved(solution) && is_solved(other)).then_some([boole, lowenheim])
}

/// Each lent as Boole's, also beside itself.
fn both_ways(calls: &mut Calls, (u, g): (u64, u64), boole: &[u8], lowenheim: &[u8]) {
    calls.shorter(u, g, boole, lowenheim);
    calls.shorter(u, g, lowenheim, boole);
    calls.shorter(u, g, boole, boole);
    calls.shorter(u, g, lowenheim, lowenheim);
}

/// Any two answer tables; half of these pairs tie, or differ by one monomial.
fn any_pair(random: &mut Random, u: u64, g: u64) -> [Vec<u8>; 2] {
    let length = u as usize * (1 << (u + g));
    let boole = random.any_table(length);
    let mut lowenheim = match random.below(2) {
        0 => random.any_table(length),
        _ => boole.clone(),
    };
    // monomials change places, and their number stays
    for place in 1..length {
        lowenheim.swap(place, random.below(place + 1));
    }
    if random.once_in(2) && length > 0 {
        lowenheim[random.below(length)] ^= 1;
    }
    [boole, lowenheim]
}

fn perhaps_damaged(
    calls: &mut Calls,
    random: &mut Random,
    (u, g): (u64, u64),
    mut boole: Vec<u8>,
    mut lowenheim: Vec<u8>,
) {
    damage(random, &mut boole);
    damage(random, &mut lowenheim);
    calls.shorter(u, g, &boole, &lowenheim);
}

/// No monomial, one, all but one and all, in the first place and in the last.
fn at_the_bounds(calls: &mut Calls, u: u64, g: u64) {
    let length = u as usize * (1 << (u + g));
    let mut tables = vec![vec![0; length], vec![1; length]];
    for place in [0, length.saturating_sub(1)] {
        for mut table in [vec![0; length], vec![1; length]] {
            if let Some(byte) = table.get_mut(place) {
                *byte ^= 1;
            }
            tables.push(table);
        }
    }
    for boole in &tables {
        for lowenheim in &tables {
            calls.shorter(u, g, boole, lowenheim);
        }
    }
}

/// A pair that ties, with ones behind one of the tables, and with bytes over 1 behind both.
fn bytes_behind(calls: &mut Calls, random: &mut Random, u: u64, g: u64) {
    let length = u as usize * (1 << (u + g));
    let boole = random.any_table(length);
    let mut lowenheim = boole.clone();
    lowenheim.reverse();
    for behind in [vec![1], vec![0; 64], vec![1; 300], vec![2], vec![255; 70]] {
        let longer = |table: &[u8]| [table, &behind].concat();
        calls.shorter(u, g, &longer(&boole), &lowenheim);
        calls.shorter(u, g, &boole, &longer(&lowenheim));
        calls.shorter(u, g, &longer(&boole), &longer(&lowenheim));
    }
}

/// Each table in turn one byte short, or with its first or last byte over 1; and both.
fn two_wrong(calls: &mut Calls, random: &mut Random, u: u64, g: u64) {
    let [boole, lowenheim] = any_pair(random, u, g);
    if boole.is_empty() {
        return;
    }
    let wrong = |table: &[u8]| {
        let (mut first, mut last) = (table.to_vec(), table.to_vec());
        first[0] = 2;
        last[table.len() - 1] = 255;
        let short = first[..first.len() - 1].to_vec();
        [table.to_vec(), table[1..].to_vec(), vec![], short, first, last]
    };
    for boole in &wrong(&boole) {
        for lowenheim in &wrong(&lowenheim) {
            calls.shorter(u, g, boole, lowenheim);
        }
    }
}
