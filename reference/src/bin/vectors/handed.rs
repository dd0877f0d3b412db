//! Cases for Löwenheim's formula on handed polynomials: those that make the condition zero, those
//! that nearly do, and damaged ones of both. Most mention unknowns.

use crate::facts::add_facts;
use crate::lines::Lines;
use crate::operations::{add_any_tables, add_wrong_tables};
use reference::cases::handed::{Kind, NEARLY, ROWS, SOLVING};
use reference::cases::{bench_tables, every_table, pairs, tables_of, Random, TOO_LARGE};

pub fn add_handed(lines: &mut Lines) {
    let random = &mut Random::new('h');
    for (u, g, condition, handed, _) in ROWS {
        let handed = tables_of(u, g, handed);
        lines.tables('h', u, g, &tables_of(u, g, &[condition]), &handed, handed.len());
    }
    for (u, g, table) in bench_tables() {
        for kind in SOLVING {
            add_kind(lines, random, kind, (u, g), &table);
        }
    }
    for (u, g) in TOO_LARGE {
        lines.tables('h', u, g, &[1, 0], &[0, 1], 2);
        lines.tables('h', u, g, &[7], &[], 0);
    }
    add_every_small_one(lines);
    for (u, g) in pairs(0, 4) {
        add_kinds(lines, random, u, g);
        add_damaged(lines, random, u, g);
    }
    add_large_ones(lines, random);
    add_facts(lines, 'h');
}

fn add_kind(
    lines: &mut Lines,
    random: &mut Random,
    kind: Kind,
    (u, g): (u64, u64),
    condition: &[u8],
) {
    let handed = random.handed(kind, u, g, condition);
    lines.tables('h', u, g, condition, &handed, handed.len());
}

/// Every condition with all that can be handed, over at most one letter, and over an unknown and a
/// given.
fn add_every_small_one(lines: &mut Lines) {
    for (u, g) in pairs(0, 1).into_iter().chain([(1, 1)]) {
        let length = 1 << (u + g);
        for condition in every_table(length) {
            for handed in every_table(u as usize * length) {
                lines.tables('h', u, g, &condition, &handed, handed.len());
            }
        }
    }
}

/// Every kind, or one where nothing is to be handed.
fn kinds(u: u64) -> impl Iterator<Item = Kind> {
    let all = SOLVING.into_iter().chain(NEARLY);
    all.take(if u == 0 { 1 } else { usize::MAX })
}

/// Every kind on a condition that has a solution; two on one that has none, of which one solves in
/// the other states; and simple ones with a condition that they solve, or nearly.
fn add_kinds(lines: &mut Lines, random: &mut Random, u: u64, g: u64) {
    for kind in kinds(u) {
        let condition = random.solvable(u, g);
        add_kind(lines, random, kind, (u, g), &condition);
    }
    let state = random.below(1 << g);
    let none = random.blocked(u, g, state);
    for kind in [Kind::Boole, Kind::OverGivens] {
        add_kind(lines, random, kind, (u, g), &none);
    }
    for _ in 0..2 {
        let mut handed = random.simple(u, g);
        let condition = random.made_zero_by(u, g, &handed);
        lines.tables('h', u, g, &condition, &handed, handed.len());
        random.change_monomial(&mut handed);
        lines.tables('h', u, g, &condition, &handed, handed.len());
    }
}

/// One that solves or one that does not, with each wrong thing by itself, then two; and any.
fn add_damaged(lines: &mut Lines, random: &mut Random, u: u64, g: u64) {
    let condition = random.solvable(u, g);
    let kind = [Kind::OverLetters, Kind::ButOnePoint][g as usize % 2];
    let handed = random.handed(kind, u, g, &condition);
    add_wrong_tables(lines, 'h', random, (u, g), &condition, &handed);
    for kind in kinds(u).step_by(2) {
        let condition = random.solvable(u, g);
        let handed = random.handed(kind, u, g, &condition);
        add_any_tables(lines, 'h', random, (u, g), condition, handed);
    }
}

/// Five to ten letters.
fn add_large_ones(lines: &mut Lines, random: &mut Random) {
    let mut add = |random: &mut Random, (u, g): (u64, u64), kinds: &[Kind]| {
        for &kind in kinds {
            let condition = random.solvable(u, g);
            add_kind(lines, random, kind, (u, g), &condition);
        }
    };
    for (u, g) in pairs(5, 7) {
        add(random, (u, g), &[[Kind::OverLetters, Kind::ButOnePoint][g as usize % 2]]);
    }
    for (u, g, kinds) in [
        (1, 8, &[Kind::ButOneState][..]),
        (2, 6, &[Kind::Lowenheim]),
        (2, 8, &[Kind::ButOnePoint]),
        (3, 6, &[Kind::Boole]),
        (4, 4, &[Kind::OverGivens, Kind::UnknownsAtZero]),
        (6, 4, &[Kind::OverLetters]),
    ] {
        add(random, (u, g), kinds);
    }
    // no unknowns: the condition itself is asked, and its last monomial counts
    let mut condition = vec![0; 256];
    lines.tables('h', 0, 8, &condition, &[], 0);
    condition[255] = 1;
    lines.tables('h', 0, 8, &condition, &[], 0);
}
