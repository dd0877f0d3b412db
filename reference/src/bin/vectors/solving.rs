//! Cases for Boole's answer, the particular solution and the own Löwenheim answer.

use crate::facts::add_facts;
use crate::lines::Lines;
use reference::cases::orders::{default_order, every_order, reverse_order, wrong_orders};
use reference::cases::{bench_tables, every_table, pairs, Random, TOO_LARGE};
use reference::Order;

/// Boole (`b`), the particular solution (`p`) or the own Löwenheim (`l`).
pub fn add_solutions(lines: &mut Lines, call: char) {
    let random = &mut Random::new(call);
    for (u, g, table) in bench_tables() {
        let exact = u as usize * table.len();
        for size in [exact, exact + 2, exact.saturating_sub(1)] {
            lines.solution(call, (u, g, default_order(u)), &table, size);
        }
    }
    for (u, g) in TOO_LARGE {
        lines.solution(call, (u, g, default_order(u)), &[1, 0], 4);
        lines.solution(call, (u, g, Order([7; 6])), &[7], 0);
    }
    add_every_condition(lines, call);
    add_orders(lines, call, random);
    for (u, g) in pairs(0, 4) {
        if u + g < 4 || call == 'b' {
            add_wrong_conditions(lines, call, random, u, g);
        }
        let many = if u + g < 4 { 6 } else { 3 };
        for _ in 0..many {
            add_any_condition(lines, call, random, u, g);
        }
        for state in 0..1 << g {
            let table = random.blocked(u, g, state);
            lines.solution(call, (u, g, random.order(u)), &table, u as usize * table.len());
        }
    }
    add_large_conditions(lines, call, random);
    add_facts(lines, call);
}

/// Every condition over at most two letters, in every order.
fn add_every_condition(lines: &mut Lines, call: char) {
    for (u, g) in pairs(0, 2) {
        let length = 1 << (u + g);
        for table in every_table(length) {
            for order in every_order(u) {
                lines.solution(call, (u, g, order), &table, u as usize * length);
            }
        }
    }
}

/// Every order of two and three unknowns on the same conditions, solvable and not; and wrong
/// orders, alone and before other wrong things, a sample.
fn add_orders(lines: &mut Lines, call: char, random: &mut Random) {
    for (u, g) in [(2, 1), (3, 0), (3, 1)] {
        for kind in 0..4 {
            let table =
                if kind == 0 { random.blocked(u, g, (1 << g) - 1) } else { random.solvable(u, g) };
            for order in every_order(u) {
                lines.solution(call, (u, g, order), &table, u as usize * table.len());
            }
        }
    }
    for u in 0..=6 {
        for order in wrong_orders(u) {
            if random.once_in(if call == 'b' { 2 } else { 6 }) {
                lines.solution_under(call, (u, 0, order), &[7], &[7], 0);
            }
            if u < 3 && (call == 'b' || random.once_in(3)) {
                let table = random.solvable(u, 1);
                lines.solution(call, (u, 1, order), &table, u as usize * table.len());
            }
        }
    }
}

/// Each wrong thing by itself, then two; conditions with and without a solution.
fn add_wrong_conditions(lines: &mut Lines, call: char, random: &mut Random, u: u64, g: u64) {
    let table = random.solvable(u, g);
    let none = random.blocked(u, g, (1 << g) - 1);
    let length = table.len();
    let exact = u as usize * length;
    let mut spoiled = none.clone();
    random.spoil(&mut spoiled, length);
    let longer = [&table[..], &[7, 1, 9]].concat();
    let wrong = (u, g, Order([u as u8; 6]));
    let right = (u, g, random.order(u));
    lines.solution(call, right, &longer, exact + 4);
    lines.solution(call, right, &[&none[..], &[9]].concat(), exact + 4);
    lines.solution(call, right, &table[1..], exact);
    lines.solution(call, right, &[], exact);
    lines.solution(call, right, &table, exact.saturating_sub(1));
    lines.solution(call, right, &none, exact.saturating_sub(1));
    lines.solution(call, right, &table, 0);
    lines.solution(call, right, &spoiled, exact);
    lines.solution(call, right, &spoiled, exact.saturating_sub(1));
    lines.solution(call, right, &spoiled[..length - 1], exact);
    lines.solution(call, wrong, &none, exact);
    lines.solution(call, wrong, &spoiled[..length - 1], exact);
}

fn add_any_condition(lines: &mut Lines, call: char, random: &mut Random, u: u64, g: u64) {
    let mut table = match random.below(3) {
        0 => random.any_table(1 << (u + g)),
        _ => random.solvable(u, g),
    };
    let exact = u as usize * table.len();
    if random.once_in(12) {
        let length = table.len();
        random.spoil(&mut table, length);
    }
    if random.once_in(4) {
        random.fit(&mut table);
    }
    let size = if random.once_in(4) { random.size(exact) } else { exact };
    lines.solution(call, (u, g, random.any_order(u)), &table, size);
}

/// Five to ten letters: sparse, and dense at the bounds, solved and 'none', under facts of every
/// density.
fn add_large_conditions(lines: &mut Lines, call: char, random: &mut Random) {
    let mut add = |random: &mut Random, u: u64, g: u64, table: &[u8]| {
        let (order, fact) = (random.order(u), random.fact(u, g));
        lines.solution_under(call, (u, g, order), &fact, table, u as usize * table.len());
    };
    for (u, g) in pairs(5, 7) {
        let table = random.solvable(u, g);
        add(random, u, g, &table);
    }
    // solved, 'none' and sparse ones in turn, so that the files stay small
    for (u, g) in [(0, 8), (1, 8), (2, 8), (4, 4), (5, 4), (6, 2)] {
        let state = random.below(1 << g);
        let tables = [
            random.solvable(u, g),
            random.blocked(u, g, state),
            random.table(1 << (u + g), (1 << (u + g)) / 4),
        ];
        add(random, u, g, &tables[u as usize % 3]);
    }
    let dense = random.solvable(6, 4);
    add(random, 6, 4, &dense);
    // the other pairs of eight to ten letters by Boole alone
    if call == 'b' {
        let last = random.blocked(2, 8, 255);
        add(random, 2, 8, &last);
        for (u, g) in [(1, 7), (2, 6), (2, 7), (3, 5), (3, 6), (4, 5), (5, 3), (6, 3)] {
            let table = random.solvable(u, g);
            add(random, u, g, &table);
        }
        let table = random.solvable(6, 2);
        lines.solution(call, (6, 2, reverse_order(6)), &table, 6 * table.len() - 1);
    }
}
