//! Cases for writing, reading and auditing an entry.

use crate::calls::Calls;
use crate::making::{condition, damage, garbage, large, order, result, under_fact, wrong_letters};
use layodegi::LONGEST_ENTRY;
use reference::cases::entries::{
    any_entry, built, built_none, damaged_entries, entry, entry_in, entry_under, split,
};
use reference::cases::facts::{leaving_out, no_fact, wrong_facts};
use reference::cases::orders::{default_order, every_order, reverse_order, wrong_orders};
use reference::cases::{bench_tables, ones, pairs, Random};
use reference::plain::{self, transform};

pub fn run_writing() -> Calls {
    let mut calls = Calls::new('W');
    let random = &mut Random::new('w');
    for (u, g) in wrong_letters(random) {
        let route = random.below(256) as u64;
        let order = order(random, u.min(6));
        let [fact, table] = [(); 2].map(|()| random.table(16, 2));
        calls.write_entry(route, (u, g, order), &fact, &table, &garbage(random, 64));
        calls.write_entry(route, (u, g, order), &[], &[], &[]);
    }
    for route in (0..=260).chain((0..200).map(|_| large(random).max(251)).collect::<Vec<_>>()) {
        let (fact, table) = under_fact(random, 2, 1);
        let order = order(random, 2);
        calls.write_entry(route, (2, 1, order), &fact, &table, &garbage(random, 110));
        calls.write_entry(route, (2, 1, order), &fact, &table[1..], &garbage(random, 2));
    }
    for u in 0..=6 {
        for order in every_order(u).into_iter().chain(wrong_orders(u)) {
            let (fact, table) = under_fact(random, u, 1);
            calls.write_entry(9, (u, 1, order), &fact, &table, &garbage(random, LONGEST_ENTRY));
            calls.write_entry(9, (u, 1, order), &fact, &table[1..], &[]);
        }
    }
    for (u, g, table) in bench_tables() {
        for _ in 0..10 {
            let (order, fact) = (random.order(u), random.fact(u, g));
            let exact = entry_under(order, 7, u, g, &fact, &table).len();
            calls.write_entry(7, (u, g, order), &fact, &table, &result(random, exact));
        }
    }
    for (u, g) in pairs(0, 10) {
        for _ in 0..80 {
            let (mut fact, mut table) = random.under_fact(u, g);
            let route = 1 + random.below(250) as u64;
            let right = random.order(u);
            let exact = entry_under(right, route, u, g, &fact, &table).len();
            damage(random, &mut fact);
            damage(random, &mut table);
            let order = if random.once_in(6) { order(random, u) } else { right };
            calls.write_entry(route, (u, g, order), &fact, &table, &result(random, exact));
        }
        let (fact, table) = random.under_fact(u, g);
        let order = random.order(u);
        let exact = entry_under(order, 250, u, g, &fact, &table).len();
        for length in [exact - 1, exact, exact + 1, LONGEST_ENTRY, LONGEST_ENTRY + 1] {
            calls.write_entry(250, (u, g, order), &fact, &table, &garbage(random, length));
        }
        for fact in wrong_facts(u, g) {
            calls.write_entry(9, (u, g, order), &fact, &table, &garbage(random, exact));
            calls.write_entry(9, (u, g, order), &fact, &table, &[]);
            calls.write_entry(9, (u, g, order), &fact, &table[1..], &[]);
            calls.write_entry(9, (u, g, order), &fact[1..], &table, &[]);
        }
        // Every monomial: such an entry has the whole written order.
        let table = vec![1; 1 << (u + g)];
        for fact in [no_fact(u, g), every_monomial(u, g)] {
            calls.write_entry(7, (u, g, order), &fact, &table, &garbage(random, LONGEST_ENTRY));
        }
    }
    for table in long_conditions(random) {
        let (order, fact) = (reverse_order(6), every_monomial(6, 4));
        let exact = entry_under(order, 250, 6, 4, &fact, &table).len();
        for length in [exact - 1, exact, LONGEST_ENTRY] {
            calls.write_entry(250, (6, 4, order), &fact, &table, &garbage(random, length));
        }
    }
    calls
}

/// The fact with all monomials that have no unknown: 1 in state 0 alone. Without givens it is 1.
fn every_monomial(u: u64, g: u64) -> Vec<u8> {
    leaving_out(u, g, |state| state == 0)
}

pub fn run_reading() -> Calls {
    let mut calls = Calls::new('R');
    let random = &mut Random::new('r');
    for bytes in entries(random) {
        let (table, answers) = match bytes[..] {
            [1, _, u @ 0..=6, g @ 0..=8, ..] if u + g <= 10 && !random.once_in(6) => {
                (1 << (u + g), usize::from(u) << (u + g))
            }
            _ => (1024, 6144),
        };
        let order = [(); 6].map(|()| random.number() as u8);
        let [fact, table, answers] = [table, table, answers].map(|exact| result(random, exact));
        calls.read_entry(&bytes, order, &fact, &table, &answers);
    }
    calls
}

pub fn run_audits() -> Calls {
    let mut calls = Calls::new('A');
    let random = &mut Random::new('a');
    for bytes in entries(random) {
        calls.audit(&bytes);
    }
    calls
}

/// Entries that are right, entries with other answers, and damaged ones.
fn entries(random: &mut Random) -> Vec<Vec<u8>> {
    let mut all = damaged_entries(random);
    for (u, g, table) in bench_tables() {
        all.extend(other_answers(random, u, g, &no_fact(u, g), &table));
    }
    for (u, g) in pairs(0, 10) {
        for _ in 0..6 {
            let (fact, table) = under_fact(random, u, g);
            all.extend(other_answers(random, u, g, &fact, &table));
        }
        for fact in wrong_facts(u, g) {
            let (order, table) = (random.order(u), condition(random, u, g));
            all.push(built(order, 7, u, g, &fact, &table, &[]));
            all.push(built_none(order, 7, u, g, &fact, &table, 0));
        }
        for _ in 0..12 {
            let bytes = any_entry(random, u, g);
            all.extend((0..5).map(|_| damaged(random, &bytes)));
            all.push(bytes);
        }
        for _ in 0..6 {
            let table = condition(random, u, g);
            let bytes = entry(1, u, g, &table);
            all.push(reordered(random, u, &bytes));
            all.push(with_other_fact(random, u, g, &bytes));
        }
        for route in [0, 251, 255] {
            let table = condition(random, u, g);
            let mut bytes = rerouted(&entry_in(random.order(u), 1, u, g, &table), route);
            all.push(bytes.clone());
            // 11 comes before 2
            bytes[1] ^= 1;
            all.push(bytes);
        }
    }
    for (u, g) in wrong_headings() {
        all.push(vec![1, 9, u, g, 4, 9]);
        all.push(vec![1, 9, u, g, 4, 8]);
    }
    for table in long_conditions(random) {
        all.push(entry_under(reverse_order(6), 250, 6, 4, &every_monomial(6, 4), &table));
    }
    let fact = every_monomial(6, 4);
    let full = built(reverse_order(6), 250, 6, 4, &fact, &[1; 1024], &[1; 6144]);
    assert_eq!(full.len(), LONGEST_ENTRY);
    all.push([&full[..], &full].concat());
    all.push(full[..LONGEST_ENTRY - 1].to_vec());
    all.push(full);
    all
}

/// Whole entries whose answers or state are perhaps not those solved afresh.
fn other_answers(random: &mut Random, u: u64, g: u64, fact: &[u8], table: &[u8]) -> Vec<Vec<u8>> {
    let route = random.below(256) as u8;
    let order = random.order(u);
    let mut answers = vec![0; u as usize * table.len()];
    let mut all = vec![built(order, route, u, g, fact, table, &answers)];
    for method in [reference::lowenheim, reference::particular, reference::boole] {
        let solved = method(u, g, order, fact, table, &mut answers);
        if matches!(solved, Ok(reference::Solved::Done { .. })) {
            all.push(built(order, route, u, g, fact, table, &answers));
        }
    }
    // the answers of one order, or of one fact, under another
    all.push(built(random.order(u), route, u, g, fact, table, &answers));
    all.push(built(default_order(u), route, u, g, fact, table, &answers));
    all.push(built(order, route, u, g, &random.fact(u, g), table, &answers));
    all.push(built(order, route, u, g, &no_fact(u, g), table, &answers));
    if !answers.is_empty() {
        // one monomial more or less
        let place = random.below(answers.len());
        answers[place] ^= 1;
        all.push(built(order, route, u, g, fact, table, &answers));
    }
    all.push(built_none(order, route, u, g, fact, table, random.below(1 << g) as u8));
    all.push(built_none(order, route, u, g, fact, table, random.number() as u8));
    all
}

/// An entry without kind 7, with some put in, of masks that are mostly below 2^n, mostly in their place.
fn with_other_fact(random: &mut Random, u: u64, g: u64, bytes: &[u8]) -> Vec<u8> {
    let mut records = split(bytes);
    for _ in 0..1 + random.below(2) {
        let mask = match random.below(8) {
            0 => random.number() as u16,
            1 => random.below(1 << (u + g)) as u16,
            _ => (random.below(1 << g) << u) as u16,
        };
        let place = if random.once_in(4) { random.below(records.len()) } else { 1 };
        records.insert(place, vec![7, mask as u8, (mask >> 8) as u8]);
    }
    records.concat()
}

/// An entry without kind 6, with one put in, right or wrong, mostly in its place.
fn reordered(random: &mut Random, u: u64, bytes: &[u8]) -> Vec<u8> {
    let mut records = split(bytes);
    let order = order(random, u);
    let place = if random.once_in(4) { random.below(records.len()) } else { 1 };
    records.insert(place, [&[6], &order.0[..]].concat());
    if random.once_in(6) {
        records.insert(1 + random.below(2), [&[6], &order.0[..]].concat());
    }
    records.concat()
}

/// An entry with another route.
pub fn rerouted(bytes: &[u8], route: u8) -> Vec<u8> {
    let [kind, _, inner @ .., _] = bytes else {
        return bytes.to_vec();
    };
    [&[*kind, route], inner, &[route]].concat()
}

/// Every U and G at and over their bounds.
fn wrong_headings() -> Vec<(u8, u8)> {
    let counts = [0, 1, 2, 5, 6, 7, 8, 9, 10, 63, 64, 127, 128, 250, 255];
    counts.into_iter().flat_map(|u| counts.map(|g| (u, g))).collect()
}

/// An entry with a byte changed, bytes cut off or put behind, or records moved.
pub fn damaged(random: &mut Random, bytes: &[u8]) -> Vec<u8> {
    let mut bytes = bytes.to_vec();
    if bytes.is_empty() {
        return bytes;
    }
    let place = random.below(bytes.len());
    match random.below(8) {
        0 => bytes[place] = random.number() as u8,
        1 => bytes[place] = random.below(9) as u8,
        2 => bytes[place] ^= 1 << random.below(8),
        3 => bytes.truncate(place),
        4 => {
            bytes.insert(place, random.below(8) as u8);
        }
        5 => drop(bytes.remove(place)),
        _ => return moved(random, &bytes),
    }
    bytes
}

/// Two records exchanged, neighbours mostly, one left out, doubled or put elsewhere.
fn moved(random: &mut Random, bytes: &[u8]) -> Vec<u8> {
    let end = reference::audit(bytes).map_or(0, |reading| reading.length);
    let mut records = split(&bytes[..end]);
    if records.len() < 2 {
        return bytes.to_vec();
    }
    let (place, other) = (random.below(records.len() - 1), random.below(records.len()));
    match random.below(5) {
        0 | 1 => records.swap(place, place + 1),
        2 => records.swap(place, other),
        3 => drop(records.remove(place)),
        _ => {
            let again = records[place].clone();
            records.insert(other, again);
        }
    }
    [&records.concat()[..], &bytes[end..]].concat()
}

/// Conditions with long entries: values changed one by one as long as the entry grows.
fn long_conditions(random: &mut Random) -> Vec<Vec<u8>> {
    (0..3).map(|_| long_condition(random)).collect()
}

fn long_condition(random: &mut Random) -> Vec<u8> {
    let (fact, mut answers) = (every_monomial(6, 4), vec![0; 6 * 1024]);
    let mut length = |table: &[u8]| {
        let solved = plain::boole::<u64>(6, 4, reverse_order(6), &fact, table, &mut answers);
        match solved {
            Ok(reference::Solved::Done { monomials }) => 3 * ones(table) + 4 * monomials,
            _ => 0,
        }
    };
    let mut best = random.solvable(6, 4);
    let mut longest = length(&best);
    for _ in 0..400 {
        let mut values = transform(&best);
        for _ in 0..1 + random.below(4) {
            values[random.below(1024)] ^= 1;
        }
        let table = transform(&values);
        let found = length(&table);
        if found > longest {
            (best, longest) = (table, found);
        }
    }
    best
}
