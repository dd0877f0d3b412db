//! Cases for writing and reading an entry.

use crate::facts::add_facts;
use crate::lines::Lines;
use reference::cases::entries::{any_entry, built, damaged_entries, entry, entry_in, entry_under};
use reference::cases::facts::{leaving_out, wrong_facts};
use reference::cases::orders::{default_order, every_order, wrong_orders};
use reference::cases::{bench_tables, pairs, Random, TOO_LARGE};
use reference::Order;
use std::array::from_fn;

pub fn add_writings(lines: &mut Lines) {
    let random = &mut Random::new('w');
    for (u, g, table) in bench_tables() {
        let exact = entry(7, u, g, &table).len();
        for size in [exact, exact + 3, exact - 1, 0] {
            lines.writing(7, (u, g, default_order(u)), &table, size);
        }
    }
    // 257 and 263 would be 1 and 7 if they were cut to a byte.
    for route in [0, 1, 2, 249, 250, 251, 252, 255, 256, 257, 263, 65_543] {
        let wrong = Order([0; 6]);
        lines.writing(route, (2, 0, default_order(2)), &[0, 1, 1, 0], 20);
        lines.writing(route, (1, 1, default_order(1)), &[0, 0, 1, 0], 11);
        lines.writing(route, (7, 0, wrong), &[0, 1], 30);
        lines.writing(route, (1, 0, wrong), &[0, 7], 2);
        lines.writing(route, (1, 0, default_order(1)), &[1], 30);
        lines.writing(route, (1, 0, default_order(1)), &[0, 7], 2);
        lines.writing(route, (1, 0, default_order(1)), &[0, 1], 2);
    }
    for (u, g) in TOO_LARGE {
        lines.writing(5, (u, g, default_order(u)), &[1, 0], 30);
        lines.writing(0, (u, g, Order([7; 6])), &[7], 0);
    }
    add_orders(lines, random);
    for (u, g) in pairs(0, 4) {
        add_wrong_writings(lines, random, u, g);
        for _ in 0..6 {
            add_any_writing(lines, random, u, g);
        }
    }
    // Every monomial: such an entry has the whole written order.
    for n in 0..=9 {
        let (u, g, table) = (n.min(1), n - n.min(1), vec![1; 1 << n]);
        lines.writing(7, (u, g, default_order(u)), &table, entry(7, u, g, &table).len());
    }
    for (u, g) in pairs(5, 10) {
        let (table, order, _) = table_for_line(random, u, g, 1_600);
        let fact = random.fact(u, g);
        let length = entry_under(order, 1, u, g, &fact, &table).len();
        lines.writing_under(1 + random.below(250) as u64, (u, g, order), &fact, &table, length);
    }
    add_facts(lines, 'w');
}

/// Every order of two and three unknowns on the same conditions, solvable and not, with room for
/// a kind 6 and without; and wrong orders.
fn add_orders(lines: &mut Lines, random: &mut Random) {
    for (u, g) in [(2, 1), (3, 0), (3, 1)] {
        for kind in 0..4 {
            let table =
                if kind == 0 { random.blocked(u, g, (1 << g) - 1) } else { random.solvable(u, g) };
            for order in every_order(u) {
                let exact = entry_in(order, 9, u, g, &table).len();
                lines.writing(9, (u, g, order), &table, exact);
                lines.writing(9, (u, g, order), &table, exact - [1, 6, 7][kind % 3]);
            }
        }
    }
    for u in 0..=6 {
        for order in wrong_orders(u) {
            if random.once_in(3) {
                lines.writing_under(250, (u, 0, order), &[7], &[7], 0);
            }
            if u < 3 {
                lines.writing(250, (u, 0, order), &vec![0; 1 << u], 30);
            }
        }
    }
}

/// Each wrong thing by itself, then two.
fn add_wrong_writings(lines: &mut Lines, random: &mut Random, u: u64, g: u64) {
    let table = random.solvable(u, g);
    let order = random.order(u);
    let exact = entry_in(order, 9, u, g, &table).len();
    let mut spoiled = table.clone();
    random.spoil(&mut spoiled, table.len());
    let wrong = (u, g, Order([u as u8; 6]));
    let right = (u, g, order);
    lines.writing(9, right, &[&table[..], &[7, 0, 2]].concat(), exact + 2);
    lines.writing(9, right, &table[1..], exact);
    lines.writing(9, right, &[], exact);
    lines.writing(9, right, &spoiled, exact);
    lines.writing(9, right, &spoiled, 0);
    lines.writing(9, right, &spoiled[1..], exact);
    lines.writing(9, right, &table, exact - 1);
    lines.writing(9, wrong, &spoiled, 0);
    lines.writing(0, wrong, &spoiled, exact - 1);
}

fn add_any_writing(lines: &mut Lines, random: &mut Random, u: u64, g: u64) {
    let state = random.below(1 << g);
    let table = match random.below(3) {
        0 => random.any_table(1 << (u + g)),
        1 => random.solvable(u, g),
        _ => random.blocked(u, g, state),
    };
    let route = 1 + random.below(250) as u64;
    let order = random.order(u);
    let size = random.size(entry_in(order, route, u, g, &table).len());
    lines.writing(route, (u, g, order), &table, size);
}

/// A condition and an order whose entry is no longer than that, so that it fits a line, and the
/// entry's length.
pub fn table_for_line(random: &mut Random, u: u64, g: u64, most: usize) -> (Vec<u8>, Order, usize) {
    let mut many = 2;
    let order = random.order(u);
    loop {
        // one unknown in each monomial: 0 for all unknowns is a solution
        let mut table = random.table(1 << (u + g), many);
        (0..table.len()).step_by(1 << u).for_each(|mask| table[mask] = 0);
        let length = entry_in(order, 1, u, g, &table).len();
        if length <= most {
            return (table, order, length);
        }
        many *= 2;
    }
}

/// A whole entry that question 22 or 23 refuses.
pub fn with_wrong_fact(random: &mut Random, u: u64, g: u64) -> Vec<u8> {
    let wrong = wrong_facts(u, g);
    let fact = &wrong[random.below(wrong.len())];
    built(random.order(u), 9, u, g, fact, &random.solvable(u, g), &[])
}

pub fn add_readings(lines: &mut Lines) {
    let random = &mut Random::new('r');
    for (u, g, table) in bench_tables() {
        let bytes = entry(1 + random.below(250) as u64, u, g, &table);
        let (exact, exact2) = (table.len(), u as usize * table.len());
        let sizes = [exact, exact, exact2];
        for other in [[0, 0, 0], [2, 3, 1], [0, 0, 1], [0, 1, 0], [1, 0, 0]] {
            lines.reading(&bytes, from_fn(|k| sizes[k] + other[k]));
            lines.reading(&bytes, from_fn(|k| sizes[k].saturating_sub(other[k])));
        }
        lines.reading(&bytes, [0, exact, exact2]);
        lines.reading(&bytes, [exact, 0, exact2]);
        lines.reading(&bytes, [exact, exact, 0]);
        lines.reading(&[&bytes[..], &[4, 7, 0]].concat(), sizes);
    }
    for order in every_order(3) {
        for table in [random.solvable(3, 1), random.blocked(3, 1, 1)] {
            let bytes = entry_in(order, 7, 3, 1, &table);
            lines.reading(&bytes, [16, 16, 48]);
            lines.reading(&bytes, [16, 16, 47]);
        }
    }
    for bytes in damaged_entries(random) {
        // of the longer ones a sample, so that the files stay small
        if bytes.len() < 20 || random.once_in(2) {
            let sizes = [8, 8, 16].map(|size| random.size(size));
            lines.reading(&bytes, sizes);
        }
    }
    for (u, g) in pairs(0, 4) {
        for _ in 0..8 {
            let bytes = any_entry(random, u, g);
            let length = 1 << (u + g);
            let sizes = [length, length, u as usize * length].map(|size| random.size(size));
            lines.reading(&bytes, sizes);
        }
        for _ in 0..3 {
            lines.reading(&with_wrong_fact(random, u, g), [0, 16, 64]);
        }
    }
    for (u, g) in [(2, 3), (3, 3), (0, 8), (1, 8), (2, 8), (4, 4), (5, 4), (6, 4)] {
        let (table, order, _) = table_for_line(random, u, g, 3_000);
        // 1 in the last state: the monomial of all givens
        let fact = leaving_out(u, g, |state| state + 1 == 1 << g);
        let bytes = entry_under(order, 200, u, g, &fact, &table);
        lines.reading(&bytes, [table.len(), table.len(), u as usize * table.len()]);
    }
    let none = entry(3, 2, 8, &random.blocked(2, 8, 255));
    lines.reading(&none, [1024, 1024, 2048]);
}
