//! Cases for the shorter of Boole's and Löwenheim's answer tables: totals of either order, ties, bytes
//! behind that would tip the scale, and damaged tables.

use crate::lines::Lines;
use reference::cases::{bench_tables, every_table, pairs, Random, TOO_LARGE};

pub fn add_shorter(lines: &mut Lines) {
    let random = &mut Random::new('m');
    for (u, g, table) in bench_tables() {
        let [boole, lowenheim] = random.solved_both_ways(u, g, &table);
        lines.shorter(u, g, &boole, &lowenheim);
        lines.shorter(u, g, &lowenheim, &boole);
    }
    for (u, g) in TOO_LARGE {
        lines.shorter(u, g, &[1, 0], &[0, 1]);
        lines.shorter(u, g, &[7], &[]);
    }
    add_every_two(lines);
    for (u, g) in pairs(0, 4) {
        add_wrong(lines, random, u, g);
        for _ in 0..if u + g < 4 { 8 } else { 4 } {
            add_any(lines, random, u, g);
        }
    }
    add_large(lines, random);
}

/// Every two answer tables of one unknown, and of one unknown and one given; without unknowns there
/// is one.
fn add_every_two(lines: &mut Lines) {
    for (u, g) in [(0, 0), (0, 1), (1, 0), (1, 1)] {
        let length = u as usize * (1 << (u + g));
        for boole in every_table(length) {
            for lowenheim in every_table(length) {
                lines.shorter(u, g, &boole, &lowenheim);
            }
        }
    }
}

/// Ones behind either table, more than its totals differ by; then each wrong thing by itself, and two.
fn add_wrong(lines: &mut Lines, random: &mut Random, u: u64, g: u64) {
    let [a, b] = random.two_answers(u, g);
    let length = a.len();
    let (mut bad_a, mut bad_b) = (a.clone(), b.clone());
    random.spoil(&mut bad_a, length);
    random.spoil(&mut bad_b, length);
    let longer = |table: &[u8]| [table, &vec![1; 3 + length], &[9]].concat();
    let short = length.saturating_sub(1);
    lines.shorter(u, g, &longer(&a), &b);
    lines.shorter(u, g, &a, &longer(&b));
    lines.shorter(u, g, &longer(&bad_a), &longer(&b));
    lines.shorter(u, g, &a[..short], &b);
    lines.shorter(u, g, &a, &b[..short]);
    lines.shorter(u, g, &[], &b);
    lines.shorter(u, g, &a, &[]);
    lines.shorter(u, g, &bad_a, &b);
    lines.shorter(u, g, &a, &bad_b);
    lines.shorter(u, g, &bad_a, &b[..short]);
    lines.shorter(u, g, &a[..short], &bad_b);
}

/// Each perhaps spoiled, longer, short or empty.
fn add_any(lines: &mut Lines, random: &mut Random, u: u64, g: u64) {
    let mut answers = random.two_answers(u, g);
    for table in &mut answers {
        let length = table.len();
        if random.once_in(12) {
            random.spoil(table, length);
        }
        if random.once_in(4) {
            random.fit(table);
        }
    }
    lines.shorter(u, g, &answers[0], &answers[1]);
}

/// Five to ten letters, and the longest tables of all, whose totals are the largest.
fn add_large(lines: &mut Lines, random: &mut Random) {
    for (u, g) in pairs(5, 6).into_iter().chain([(1, 7), (6, 1), (3, 5), (2, 6), (1, 8)]) {
        let [boole, lowenheim] = random.two_answers(u, g);
        lines.shorter(u, g, &boole, &lowenheim);
    }
    let condition = random.solvable(2, 8);
    let [boole, lowenheim] = random.solved_both_ways(2, 8, &condition);
    lines.shorter(2, 8, &boole, &lowenheim);
    let (all, mut all_but_one) = (vec![1; 6_144], vec![1; 6_144]);
    all_but_one[6_143] = 0;
    lines.shorter(6, 4, &all, &all_but_one);
}
