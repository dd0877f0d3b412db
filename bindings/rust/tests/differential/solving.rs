//! Cases for Boole's answers, the particular solution and the own Löwenheim.

use crate::calls::{Calls, SolvingCall, BOOLE, LOWENHEIM, PARTICULAR};
use crate::making::{condition, damage, garbage, order, result, under_fact, wrong_letters};
use reference::cases::facts::{no_fact, wrong_facts, ROWS};
use reference::cases::orders::{default_order, every_order, wrong_orders};
use reference::cases::{bench_tables, every_table, pairs, tables_of, Random};

pub fn run_boole() -> Calls {
    run(BOOLE)
}

pub fn run_particular() -> Calls {
    run(PARTICULAR)
}

pub fn run_lowenheim() -> Calls {
    run(LOWENHEIM)
}

fn run(call: SolvingCall) -> Calls {
    let mut calls = Calls::new('S');
    let random = &mut Random::new(call.name.as_bytes()[0] as char);
    for (u, g) in wrong_letters(random) {
        let order = order(random, u.min(6));
        let [fact, table] = [(); 2].map(|()| random.table(16, 2));
        calls.solve(call, (u, g, order), &fact, &table, &garbage(random, 64));
        calls.solve(call, (u, g, order), &[7], &[7], &[]);
    }
    for (u, g, table) in bench_tables() {
        for _ in 0..10 {
            let (order, fact) = (random.order(u), random.any_fact(u, g));
            let answers = result(random, u as usize * table.len());
            calls.solve(call, (u, g, order), &fact, &table, &answers);
        }
    }
    every_condition(&mut calls, call, random);
    for u in 0..=6 {
        for order in every_order(u).into_iter().chain(wrong_orders(u)) {
            let (fact, table) = under_fact(random, u, 2);
            let answers = garbage(random, u as usize * table.len());
            calls.solve(call, (u, 2, order), &fact, &table, &answers);
            calls.solve(call, (u, 2, order), &fact, &table[1..], &[]);
        }
    }
    for (u, g) in pairs(0, 10) {
        let answers = u as usize * (1 << (u + g));
        for _ in 0..80 {
            let (mut fact, mut table) = under_fact(random, u, g);
            damage(random, &mut fact);
            damage(random, &mut table);
            let order = order(random, u);
            calls.solve(call, (u, g, order), &fact, &table, &result(random, answers));
        }
        for _ in 0..12 {
            // about half the values 1: blocked states are rare, or many unknowns make them so
            let table = random.table(1 << (u + g), 2);
            let (order, fact) = (random.order(u), random.fact(u, g));
            calls.solve(call, (u, g, order), &fact, &table, &result(random, answers));
        }
        for state in [0, (1 << g) / 2, (1 << g) - 1] {
            let table = random.blocked(u, g, state);
            let order = random.order(u);
            calls.solve(call, (u, g, order), &no_fact(u, g), &table, &garbage(random, answers));
        }
        every_wrong_fact(&mut calls, call, random, u, g);
    }
    calls
}

/// Every condition over at most three letters, each in one order after another; over at most two also
/// under every table as a fact.
fn every_condition(calls: &mut Calls, call: SolvingCall, random: &mut Random) {
    for (u, g, fact, condition, _) in ROWS {
        let (fact, table) = (tables_of(u, g, &[fact]), tables_of(u, g, &[condition]));
        let answers = garbage(random, u as usize * table.len());
        calls.solve(call, (u, g, default_order(u)), &fact, &table, &answers);
    }
    for (u, g) in pairs(0, 3) {
        let length = 1 << (u + g);
        let orders = every_order(u);
        let facts: Vec<Vec<u8>> = match u + g {
            0..=2 => every_table(length).collect(),
            _ => vec![no_fact(u, g)],
        };
        for fact in &facts {
            for (table, &order) in every_table(length).zip(orders.iter().cycle()) {
                let answers = garbage(random, u as usize * length);
                calls.solve(call, (u, g, order), fact, &table, &answers);
            }
        }
    }
}

/// Every fact that 22 or 23 refuses, by itself and beside one more wrong thing.
fn every_wrong_fact(calls: &mut Calls, call: SolvingCall, random: &mut Random, u: u64, g: u64) {
    for fact in wrong_facts(u, g) {
        let table = condition(random, u, g);
        let answers = garbage(random, u as usize * table.len());
        let order = random.order(u);
        let mut spoiled = table.clone();
        spoiled[random.below(table.len())] = 2 + random.below(254) as u8;
        calls.solve(call, (u, g, order), &fact, &table, &answers);
        calls.solve(call, (u, g, order), &fact, &spoiled, &answers);
        calls.solve(call, (u, g, order), &fact, &table[1..], &answers);
        calls.solve(call, (u, g, order), &fact[1..], &table, &answers);
    }
}
