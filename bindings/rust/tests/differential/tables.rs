//! Cases for value, sum, product, substitution and the derivative.

use crate::calls::{Calls, PairCall, PRODUCT, SUBSTITUTE, SUM};
use crate::making::{condition, damage, garbage, large, result, wrong_letters};
use reference::cases::{bench_tables, every_table, pairs, Random, UNDECLARED};

pub fn run_values() -> Calls {
    let mut calls = Calls::new('V');
    let random = &mut Random::new('v');
    for (u, g) in wrong_letters(random) {
        calls.value(u, g, &garbage(random, 16), large(random), 0);
        calls.value(u, g, &[], 0, 0);
    }
    for (u, g) in pairs(0, 10) {
        let table = condition(random, u, g);
        for point in 0..table.len() as u64 {
            // every point of small tables, some of large ones
            if table.len() <= 64 || random.once_in(table.len() / 64) {
                calls.value(u, g, &table, point >> u, point & ((1 << u) - 1));
            }
        }
        for _ in 0..60 {
            let mut table = condition(random, u, g);
            damage(random, &mut table);
            let state = around(random, 1 << g);
            let choice = around(random, 1 << u);
            calls.value(u, g, &table, state, choice);
        }
    }
    calls
}

/// A number mostly below the bound, else at it or over it.
fn around(random: &mut Random, bound: usize) -> u64 {
    match random.below(12) {
        0 => bound as u64 + random.below(3) as u64,
        1 => (random.below(bound) as u64) | 1 << (8 + random.below(56)),
        2 => u64::MAX - random.below(bound) as u64,
        _ => random.below(bound) as u64,
    }
}

pub fn run_sums() -> Calls {
    run_pairs(SUM, 120)
}

pub fn run_products() -> Calls {
    run_pairs(PRODUCT, 90)
}

pub fn run_substitutions() -> Calls {
    run_pairs(SUBSTITUTE, 80)
}

/// Cases for a call on two tables, of which the second may be an answer table.
fn run_pairs(call: PairCall, many: usize) -> Calls {
    let mut calls = Calls::new('P');
    let random = &mut Random::new(call.name.as_bytes()[0] as char);
    let length = |u: u64, g: u64| 1 << (u + g);
    let second = |u: u64, g: u64| length(u, g) * if call.reads_answers { u as usize } else { 1 };
    for (u, g) in wrong_letters(random) {
        calls.pair(call, u, g, &random.table(16, 2), &random.table(64, 2), &garbage(random, 64));
        calls.pair(call, u, g, &[7], &[], &[]);
    }
    for (u, g, table) in bench_tables() {
        let other = random.any_table(second(u, g));
        calls.pair(call, u, g, &table, &other, &result(random, length(u, g)));
    }
    for (u, g) in pairs(0, 10) {
        for _ in 0..many {
            let mut a = condition(random, u, g);
            let mut b = random.any_table(second(u, g));
            damage(random, &mut a);
            damage(random, &mut b);
            calls.pair(call, u, g, &a, &b, &result(random, length(u, g)));
        }
        let a = condition(random, u, g);
        let b = random.any_table(second(u, g));
        one_short(&mut calls, call, (u, g), &a, &b, &garbage(random, length(u, g)));
    }
    calls
}

/// Each buffer in turn one byte short, and each table in turn with its last byte over 1.
fn one_short(
    calls: &mut Calls,
    call: PairCall,
    (u, g): (u64, u64),
    a: &[u8],
    b: &[u8],
    out: &[u8],
) {
    let spoiled = |table: &[u8]| {
        let mut table = table.to_vec();
        if let Some(last) = table.last_mut() {
            *last = 2;
        }
        table
    };
    calls.pair(call, u, g, &a[1..], b, out);
    calls.pair(call, u, g, a, &b[b.len().min(1)..], out);
    calls.pair(call, u, g, a, b, &out[out.len().min(1)..]);
    calls.pair(call, u, g, &spoiled(a), b, out);
    calls.pair(call, u, g, a, &spoiled(b), out);
    calls.pair(call, u, g, a, a, out);
}

pub fn run_derivatives() -> Calls {
    let mut calls = Calls::new('D');
    let random = &mut Random::new('d');
    for (u, g) in wrong_letters(random) {
        calls.derivative(u, g, &random.table(16, 2), large(random), &garbage(random, 64));
        calls.derivative(u, g, &[7], 0, &[]);
    }
    every_small_derivative(&mut calls, random);
    for (u, g) in pairs(0, 10) {
        let length = 1 << (u + g);
        every_letter(&mut calls, random, u, g);
        for _ in 0..80 {
            let mut table = condition(random, u, g);
            damage(random, &mut table);
            let s = around(random, length);
            calls.derivative(u, g, &table, s, &result(random, length));
        }
        two_wrong(&mut calls, random, u, g);
    }
    // every set of ten letters
    let (table, out) = (random.table(1_024, 2), garbage(random, 1_024));
    for s in 0..1_024 {
        calls.derivative(6, 4, &table, s, &out);
    }
    calls
}

/// Every table over at most three letters, by every S and the first that is none.
fn every_small_derivative(calls: &mut Calls, random: &mut Random) {
    for (u, g) in pairs(0, 3) {
        let length = 1 << (u + g);
        for table in every_table(length) {
            for s in 0..=length as u64 {
                calls.derivative(u, g, &table, s, &garbage(random, length));
            }
        }
    }
}

/// Each bit that a number has, declared or not, alone and beside declared letters.
fn every_letter(calls: &mut Calls, random: &mut Random, u: u64, g: u64) {
    let length = 1 << (u + g);
    for bit in 0..64 {
        let table = condition(random, u, g);
        let beside = random.below(length) as u64;
        calls.derivative(u, g, &table, 1 << bit, &garbage(random, length));
        calls.derivative(u, g, &table, 1 << bit | beside, &result(random, length));
    }
}

/// A set with a letter that is not declared, beside a table or a buffer that is wrong as well.
fn two_wrong(calls: &mut Calls, random: &mut Random, u: u64, g: u64) {
    let length = 1 << (u + g);
    for s in UNDECLARED.into_iter().chain([length as u64]) {
        let table = condition(random, u, g);
        let out = garbage(random, length);
        let mut spoiled = table.clone();
        spoiled[random.below(length)] = 2 + random.below(254) as u8;
        calls.derivative(u, g, &spoiled, s, &out);
        calls.derivative(u, g, &spoiled[1..], s, &out);
        calls.derivative(u, g, &table, s, &out[1..]);
        calls.derivative(u, g, &table, s, &out);
    }
}
