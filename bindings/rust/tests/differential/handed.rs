//! Cases for the formula on handed polynomials: those that make f*(1 + g) zero, those that nearly do,
//! and damaged ones of both. Most mention unknowns.

use crate::calls::Calls;
use crate::making::{damage, garbage, result, under_fact, wrong_letters};
use reference::cases::facts::{counted, no_fact, one, wrong_facts};
use reference::cases::handed::{NEARLY, ROWS, SOLVING};
use reference::cases::{bench_tables, every_table, pairs, tables_of, Random};

pub fn run() -> Calls {
    let mut calls = Calls::new('P');
    let random = &mut Random::new('h');
    for (u, g) in wrong_letters(random) {
        let [fact, condition] = [(); 2].map(|()| random.table(16, 2));
        let handed = random.table(64, 2);
        calls.lowenheim_handed(u, g, &fact, &condition, &handed, &garbage(random, 64));
        calls.lowenheim_handed(u, g, &[], &[7], &[], &[]);
    }
    for (u, g, condition, handed, _) in ROWS {
        let (condition, handed) = (tables_of(u, g, &[condition]), tables_of(u, g, handed));
        let answers = garbage(random, handed.len());
        calls.lowenheim_handed(u, g, &no_fact(u, g), &condition, &handed, &answers);
    }
    for (u, g, condition) in bench_tables() {
        let fact = random.any_fact(u, g);
        any_one(&mut calls, random, (u, g), fact, condition);
    }
    every_small_one(&mut calls, random);
    for (u, g) in pairs(0, 10) {
        for _ in 0..80 {
            let (fact, condition) = under_fact(random, u, g);
            any_one(&mut calls, random, (u, g), fact, condition);
        }
        every_kind(&mut calls, random, u, g);
        longest(&mut calls, random, u, g);
        damaged_before_21(&mut calls, random, u, g);
    }
    calls
}

/// Every condition with all that can be handed, over at most two letters, and over one unknown and
/// two givens, without a fact; over one of each, under every table as a fact.
fn every_small_one(calls: &mut Calls, random: &mut Random) {
    for (u, g) in pairs(0, 2).into_iter().chain([(1, 2)]) {
        let length = 1 << (u + g);
        let facts: Vec<Vec<u8>> = match (u, g) {
            (1, 1) => every_table(length).collect(),
            _ => vec![no_fact(u, g)],
        };
        for fact in &facts {
            for condition in every_table(length) {
                for handed in every_table(u as usize * length) {
                    let answers = garbage(random, handed.len());
                    calls.lowenheim_handed(u, g, fact, &condition, &handed, &answers);
                }
            }
        }
    }
}

/// Handed polynomials of any kind, each table perhaps damaged.
fn any_one(
    calls: &mut Calls,
    random: &mut Random,
    (u, g): (u64, u64),
    mut fact: Vec<u8>,
    mut condition: Vec<u8>,
) {
    let kind = random.kind();
    let mut handed = random.handed(kind, u, g, &counted(&fact, &condition));
    let answers = result(random, handed.len());
    damage(random, &mut fact);
    damage(random, &mut condition);
    damage(random, &mut handed);
    calls.lowenheim_handed(u, g, &fact, &condition, &handed, &answers);
}

/// On conditions with and without a solution, under facts and without; and simple ones with a
/// condition that they solve, or nearly.
fn every_kind(calls: &mut Calls, random: &mut Random, u: u64, g: u64) {
    let state = random.below(1 << g);
    for kind in SOLVING.into_iter().chain(NEARLY) {
        for (fact, condition) in [
            (no_fact(u, g), random.solvable(u, g)),
            (no_fact(u, g), random.blocked(u, g, state)),
            random.under_fact(u, g),
        ] {
            let handed = random.handed(kind, u, g, &counted(&fact, &condition));
            let answers = result(random, handed.len());
            calls.lowenheim_handed(u, g, &fact, &condition, &handed, &answers);
        }
    }
    for _ in 0..4 {
        let mut handed = random.simple(u, g);
        let condition = random.made_zero_by(u, g, &handed);
        let fact = random.fact(u, g);
        calls.lowenheim_handed(u, g, &fact, &condition, &handed, &result(random, handed.len()));
        random.change_monomial(&mut handed);
        calls.lowenheim_handed(u, g, &fact, &condition, &handed, &result(random, handed.len()));
    }
}

/// The condition with every monomial, which is 1 where all letters are 0, and 1 handed for each unknown:
/// the answer to each has every monomial but one.
fn longest(calls: &mut Calls, random: &mut Random, u: u64, g: u64) {
    let handed = one(u, g).repeat(u as usize);
    let answers = garbage(random, handed.len());
    calls.lowenheim_handed(u, g, &no_fact(u, g), &vec![1; 1 << (u + g)], &handed, &answers);
}

/// Polynomials that do not solve, as the condition has no solution, beside a fact, a table or a buffer
/// that is wrong as well.
fn damaged_before_21(calls: &mut Calls, random: &mut Random, u: u64, g: u64) {
    let (none, condition) = (no_fact(u, g), random.blocked(u, g, 0));
    let handed = random.any_table(u as usize * condition.len());
    let answers = garbage(random, handed.len());
    let spoil = |random: &mut Random, table: &[u8]| {
        let mut spoiled = table.to_vec();
        spoiled[random.below(table.len())] = 2 + random.below(254) as u8;
        spoiled
    };
    let mut facts = wrong_facts(u, g);
    facts.push(spoil(random, &none));
    facts.push(none[1..].to_vec());
    facts.push(none);
    let spoiled = spoil(random, &condition);
    for fact in &facts {
        calls.lowenheim_handed(u, g, fact, &condition, &handed, &answers);
        calls.lowenheim_handed(u, g, fact, &spoiled, &handed, &answers);
        calls.lowenheim_handed(u, g, fact, &spoiled[1..], &handed, &answers);
        calls.lowenheim_handed(u, g, fact, &condition[1..], &handed, &answers);
        if !handed.is_empty() {
            let spoiled = spoil(random, &handed);
            calls.lowenheim_handed(u, g, fact, &condition, &spoiled, &answers);
            calls.lowenheim_handed(u, g, fact, &condition, &handed[1..], &answers);
            calls.lowenheim_handed(u, g, fact, &condition, &handed, &answers[1..]);
        }
    }
}
