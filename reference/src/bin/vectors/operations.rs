//! Cases for value, sum, product, handed polynomials put into a condition, and the derivative.

use crate::lines::Lines;
use reference::cases::facts::no_fact;
use reference::cases::orders::default_order;
use reference::cases::{bench_tables, every_table, pairs, Random, TOO_LARGE, UNDECLARED};

pub fn add_values(lines: &mut Lines) {
    let random = &mut Random::new('v');
    for (u, g, table) in bench_tables() {
        for point in 0..1 << (u + g) {
            lines.value(u, g, point >> u, point & ((1 << u) - 1), &table);
        }
    }
    for (u, g) in TOO_LARGE {
        let table = random.pick(&[&[1, 0][..], &[], &[7]]);
        lines.value(u, g, 0, 0, table);
        lines.value(u, g, 300, 300, &[0; 16]);
    }
    for (u, g) in pairs(0, 4) {
        add_all_points(lines, random, u, g);
        add_ranges(lines, random, u, g);
        for _ in 0..12 {
            add_any_value(lines, random, u, g);
        }
    }
    for (u, g) in pairs(5, 10) {
        let table = random.any_table(1 << (u + g));
        let (state, choice) = (random.below(1 << g), random.below(1 << u));
        lines.value(u, g, state as u64, choice as u64, &table);
        lines.value(u, g, (1 << g) - 1, (1 << u) - 1, &table[..table.len().min(512)]);
    }
}

fn add_all_points(lines: &mut Lines, random: &mut Random, u: u64, g: u64) {
    let table = random.any_table(1 << (u + g));
    for point in 0..1 << (u + g) {
        lines.value(u, g, point >> u, point & ((1 << u) - 1), &table);
    }
}

/// State and choice at and over the range, with and without another wrong thing.
fn add_ranges(lines: &mut Lines, random: &mut Random, u: u64, g: u64) {
    let table = random.any_table(1 << (u + g));
    let mut spoiled = table.clone();
    random.spoil(&mut spoiled, table.len());
    let (states, choices) = (1 << g, 1 << u);
    lines.value(u, g, states - 1, choices - 1, &table);
    lines.value(u, g, states, 0, &table);
    lines.value(u, g, 0, choices, &table);
    lines.value(u, g, states + 7, choices + 7, &table);
    lines.value(u, g, 0, 1000, &table);
    lines.value(u, g, 256, 0, &table);
    lines.value(u, g, states, choices, &spoiled);
    lines.value(u, g, states, 0, &table[1..]);
    lines.value(u, g, 0, 0, &spoiled[..table.len() - 1]);
    lines.value(u, g, 0, 0, &spoiled);
}

fn add_any_value(lines: &mut Lines, random: &mut Random, u: u64, g: u64) {
    let mut table = random.any_table(1 << (u + g));
    if random.once_in(4) {
        let length = table.len();
        random.spoil(&mut table, length);
    }
    random.fit(&mut table);
    let over = random.pick(&[0, 0, 2]);
    let (state, choice) = (random.below((1 << g) + over), random.below((1 << u) + over));
    lines.value(u, g, state as u64, choice as u64, &table);
}

/// Sums (`+`) or products (`*`).
pub fn add_two_tables(lines: &mut Lines, call: char) {
    let random = &mut Random::new(call);
    for (u, g, table) in bench_tables() {
        let other = random.any_table(table.len());
        lines.tables(call, u, g, &table, &other, table.len());
        lines.tables(call, u, g, &table, &table, table.len() + 1);
    }
    for (u, g) in TOO_LARGE {
        lines.tables(call, u, g, &[1, 0], &[0, 1], 2);
        lines.tables(call, u, g, &[7], &[], 0);
    }
    add_every_pair_of_tables(lines, call);
    for (u, g) in pairs(0, 4) {
        let length = 1 << (u + g);
        let (a, b) = (random.any_table(length), random.any_table(length));
        add_wrong_tables(lines, call, random, (u, g), &a, &b);
        for _ in 0..25 {
            let (a, b) = (random.any_table(length), random.any_table(length));
            add_any_tables(lines, call, random, (u, g), a, b);
        }
    }
    for (u, g) in pairs(5, 9) {
        let length = 1 << (u + g);
        let (a, b) = (random.any_table(length), random.any_table(length));
        lines.tables(call, u, g, &a, &b, length);
    }
    lines.tables(call, 6, 4, &random.table(1024, 2), &random.table(1024, 2), 1024);
    // what changes nothing: the result has every monomial of ten letters
    let mut neutral = no_fact(2, 8);
    neutral[0] = (call == '*') as u8;
    lines.tables(call, 2, 8, &[1; 1024], &neutral, 1024);
}

/// Every two tables over no letter, over one unknown and over one given.
fn add_every_pair_of_tables(lines: &mut Lines, call: char) {
    for (u, g) in pairs(0, 1) {
        let length = 1 << (u + g);
        for a in every_table(length) {
            for b in every_table(length) {
                lines.tables(call, u, g, &a, &b, length);
            }
        }
    }
}

/// Two tables, or a condition and handed ones: as they are, with each wrong thing by itself, then two.
pub fn add_wrong_tables(
    lines: &mut Lines,
    call: char,
    random: &mut Random,
    (u, g): (u64, u64),
    a: &[u8],
    b: &[u8],
) {
    let second = b.len();
    let size = if call == 'h' { second } else { a.len() };
    let (mut bad_a, mut bad_b) = (a.to_vec(), b.to_vec());
    random.spoil(&mut bad_a, a.len());
    random.spoil(&mut bad_b, second);
    let longer = |table: &[u8]| [table, &[7, 1, 9]].concat();
    lines.tables(call, u, g, a, b, size);
    lines.tables(call, u, g, &longer(a), &longer(b), size + 3);
    lines.tables(call, u, g, &a[1..], b, size);
    lines.tables(call, u, g, a, &b[..second.saturating_sub(1)], size);
    lines.tables(call, u, g, a, b, size.saturating_sub(1));
    lines.tables(call, u, g, &[], b, size);
    lines.tables(call, u, g, a, &[], size);
    lines.tables(call, u, g, a, b, 0);
    lines.tables(call, u, g, &bad_a, b, size);
    lines.tables(call, u, g, a, &bad_b, size);
    lines.tables(call, u, g, &bad_a, &bad_b, size + 1);
    lines.tables(call, u, g, &bad_a, &b[..second.saturating_sub(1)], size);
    lines.tables(call, u, g, &a[1..], &bad_b, size);
    lines.tables(call, u, g, &bad_a, &bad_b, size.saturating_sub(1));
}

/// Two tables, or a condition and handed ones, each perhaps spoiled, longer, short or empty.
pub fn add_any_tables(
    lines: &mut Lines,
    call: char,
    random: &mut Random,
    (u, g): (u64, u64),
    mut a: Vec<u8>,
    mut b: Vec<u8>,
) {
    let (length, second) = (a.len(), b.len());
    let size = if call == 'h' { second } else { length };
    if random.once_in(6) {
        random.spoil(&mut a, length);
    }
    if random.once_in(6) {
        random.spoil(&mut b, second);
    }
    random.fit(&mut a);
    random.fit(&mut b);
    let size = random.size(size);
    lines.tables(call, u, g, &a, &b, size);
}

pub fn add_substitutions(lines: &mut Lines) {
    let random = &mut Random::new('s');
    for (u, g, table) in bench_tables() {
        let mut answers = vec![0; u as usize * table.len()];
        // 'none' leaves zeros: the condition with 0 put for all unknowns
        let _ = reference::boole(u, g, default_order(u), &no_fact(u, g), &table, &mut answers);
        lines.tables('s', u, g, &table, &answers, table.len());
        let other = random.any_table(answers.len());
        lines.tables('s', u, g, &table, &other, table.len() + 2);
    }
    for (u, g) in TOO_LARGE {
        lines.tables('s', u, g, &[1, 0], &[0, 1], 2);
        lines.tables('s', u, g, &[7], &[], 0);
    }
    for (u, g) in pairs(0, 4) {
        let (length, second) = (1 << (u + g), u as usize * (1 << (u + g)));
        let (a, b) = (random.any_table(length), random.any_table(second));
        add_wrong_tables(lines, 's', random, (u, g), &a, &b);
        lines.tables('s', u, g, &random.any_table(length), &renaming(u, g, 1), length);
        for _ in 0..10 {
            let (a, b) = (random.any_table(length), random.any_table(second));
            add_any_tables(lines, 's', random, (u, g), a, b);
        }
    }
    for (u, g) in pairs(5, 9) {
        let length = 1 << (u + g);
        let (a, b) = (random.any_table(length), random.any_table(u as usize * length));
        lines.tables('s', u, g, &a, &b, length);
    }
    lines.tables('s', 6, 4, &random.table(1024, 2), &random.table(6 * 1024, 2), 1024);
    // what changes nothing: the result has every monomial of ten letters
    lines.tables('s', 2, 8, &[1; 1024], &renaming(2, 8, 0), 1024);
}

/// Each unknown replaced by the one so many places on: all at once, or the result is another.
fn renaming(u: u64, g: u64, places: usize) -> Vec<u8> {
    let length = 1 << (u + g);
    let mut handed = vec![0; u as usize * length];
    for j in 0..u as usize {
        handed[j * length + (1 << ((j + places) % u as usize))] = 1;
    }
    handed
}

pub fn add_derivatives(lines: &mut Lines) {
    let random = &mut Random::new('d');
    for (u, g, table) in bench_tables() {
        for s in 0..table.len() as u64 {
            lines.derivative(u, g, &table, s, table.len());
        }
    }
    for (u, g) in TOO_LARGE {
        lines.derivative(u, g, &[1, 0], 1, 2);
        lines.derivative(u, g, &[7], u64::MAX, 0);
    }
    for s in UNDECLARED {
        lines.derivative(2, 1, &[0, 1, 1, 0, 1, 0, 0, 1], s, 8);
    }
    add_every_derivative(lines);
    for (u, g) in pairs(0, 4) {
        add_wrong_derivatives(lines, random, u, g);
        for _ in 0..6 {
            add_any_derivative(lines, random, u, g);
        }
    }
    for (u, g) in pairs(5, 7) {
        let length = 1 << (u + g);
        let single = 1 << random.below((u + g) as usize);
        for s in [length - 1, single, random.below(length)] {
            lines.derivative(u, g, &random.any_table(length), s as u64, length);
        }
    }
    // the highest letter alone, all, all but the lowest, and unknowns with givens
    for (u, g, s) in [
        (0, 8, 0x80),
        (3, 5, 0x5a),
        (6, 2, 0xc1),
        (1, 8, 0x1fe),
        (6, 3, 0x0aa),
        (2, 8, 0x200),
        (4, 6, 0x3ff),
        (6, 4, 0x299),
    ] {
        lines.derivative(u, g, &random.table(1 << (u + g), 2), s, 1 << (u + g));
    }
}

/// Every table over at most one letter, and over an unknown and a given, by every S and the first
/// that is none.
fn add_every_derivative(lines: &mut Lines) {
    for (u, g) in pairs(0, 1).into_iter().chain([(1, 1)]) {
        let length = 1 << (u + g);
        for table in every_table(length) {
            for s in 0..=length as u64 {
                lines.derivative(u, g, &table, s, length);
            }
        }
    }
}

/// Each wrong thing by itself, then two.
fn add_wrong_derivatives(lines: &mut Lines, random: &mut Random, u: u64, g: u64) {
    let length = 1 << (u + g);
    let (table, s) = (random.any_table(length), random.below(length) as u64);
    let mut spoiled = table.clone();
    random.spoil(&mut spoiled, length);
    let longer = [&table[..], &[7, 1, 9]].concat();
    let (first, huge) = (length as u64, random.pick(&UNDECLARED));
    lines.derivative(u, g, &longer, s, length + 3);
    lines.derivative(u, g, &table[1..], s, length);
    lines.derivative(u, g, &table, s, length - 1);
    lines.derivative(u, g, &spoiled, s, length);
    lines.derivative(u, g, &table, first, length);
    lines.derivative(u, g, &longer, first | s, length + 3);
    lines.derivative(u, g, &table, huge, length);
    lines.derivative(u, g, &spoiled[1..], first, length);
    lines.derivative(u, g, &spoiled, huge, length - 1);
    lines.derivative(u, g, &spoiled, first, length);
    lines.derivative(u, g, &spoiled, huge, length + 1);
}

/// A random table, perhaps spoiled, longer, short or empty, by letters that are mostly declared.
fn add_any_derivative(lines: &mut Lines, random: &mut Random, u: u64, g: u64) {
    let length = 1 << (u + g);
    let mut table = random.any_table(length);
    if random.once_in(6) {
        random.spoil(&mut table, length);
    }
    random.fit(&mut table);
    let s = match random.below(8) {
        0 => random.pick(&UNDECLARED),
        1 => (length + random.below(length)) as u64,
        _ => random.below(length) as u64,
    };
    let size = random.size(length);
    lines.derivative(u, g, &table, s, size);
}
