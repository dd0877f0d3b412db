//! Entries as test cases: those that the writer writes, others that are whole
//! but wrong, and damaged ones.

use super::facts::no_fact;
use super::orders::{default_order, every_order, reverse_order, wrong_orders};
use super::{tables_of, Random};
use crate::{Order, LONGEST_ENTRY};

/// Values to put for a byte of an entry.
const VALUES: [u8; 14] = [0, 1, 2, 3, 4, 5, 6, 7, 8, 16, 128, 250, 251, 255];

/// The entry that the writer writes without a fact and for the order 0, 1, 2 and so on.
pub fn entry(route: u64, u: u64, g: u64, table: &[u8]) -> Vec<u8> {
    entry_in(default_order(u), route, u, g, table)
}

/// The entry that the writer writes without a fact for an order.
pub fn entry_in(order: Order, route: u64, u: u64, g: u64, table: &[u8]) -> Vec<u8> {
    entry_under(order, route, u, g, &no_fact(u, g), table)
}

/// The entry that the writer writes for an order and a fact.
pub fn entry_under(order: Order, route: u64, u: u64, g: u64, fact: &[u8], table: &[u8]) -> Vec<u8> {
    let mut bytes = vec![0; LONGEST_ENTRY];
    let length = crate::write_entry(route, u, g, order, fact, table, &mut bytes).expect("an entry");
    bytes.truncate(length);
    bytes
}

/// The entry of a random condition, fact and order, solved or 'none', perhaps with bytes behind it.
pub fn any_entry(random: &mut Random, u: u64, g: u64) -> Vec<u8> {
    let state = random.below(1 << g);
    let (fact, table) = match random.below(6) {
        0 => (no_fact(u, g), random.any_table(1 << (u + g))),
        1 => (no_fact(u, g), random.solvable(u, g)),
        2 => (no_fact(u, g), random.blocked(u, g, state)),
        _ => random.under_fact(u, g),
    };
    let order = random.order(u);
    let mut bytes = entry_under(order, 1 + random.below(250) as u64, u, g, &fact, &table);
    if random.once_in(3) {
        bytes.extend((0..1 + random.below(4)).map(|_| random.pick(&VALUES)));
    }
    bytes
}

/// The records of an entry that is whole.
pub fn split(bytes: &[u8]) -> Vec<Vec<u8>> {
    let mut records = Vec::new();
    let mut rest = bytes;
    while let Some(&kind) = rest.first() {
        let (record, after) = rest.split_at([0, 4, 3, 4, 2, 2, 7, 3][kind as usize]);
        records.push(record.to_vec());
        rest = after;
    }
    records
}

/// Each kind of damage that questions 10, 11, 1, 2, 12, 17, 22 and 23 name.
pub fn damaged_entries(random: &mut Random) -> Vec<Vec<u8>> {
    let solved = entry(7, 2, 0, &[0, 1, 1, 0]);
    let none = entry(8, 1, 1, &[0, 0, 1, 0]);
    let mixed = entry(250, 1, 2, &random.solvable(1, 2));
    let mut damaged = vec![vec![], vec![4], vec![4, 7], vec![0], vec![8, 1, 4, 1]];
    for base in [&solved, &none, &mixed] {
        damaged.extend((0..base.len()).map(|length| base[..length].to_vec()));
        add_changed_bytes(base, &mut damaged);
        add_moved_records(base, &mut damaged);
    }
    for tail in [&[0][..], &[4], &[4, 7], &[255, 255], &none] {
        damaged.push([&solved[..], tail].concat());
        damaged.push([&none[..], tail].concat());
        damaged.push([&solved[..solved.len() - 2], tail].concat());
    }
    add_bounds(&mut damaged);
    add_damaged_orders(random, &mut damaged);
    add_damaged_facts(&mut damaged);
    damaged
}

/// Kind 7 cut, changed, moved, doubled and put where it is not right, beside a kind 6 and without.
fn add_damaged_facts(damaged: &mut Vec<Vec<u8>>) {
    let fact_and_row = tables_of(1, 2, &["1+a+b+a*b", "a*u+b*u+b"]);
    let (fact, row) = fact_and_row.split_at(8);
    let solved = entry_under(default_order(1), 7, 1, 2, fact, row);
    damaged.extend((4..16).map(|length| solved[..length].to_vec()));
    for place in 4..16 {
        for value in VALUES {
            let mut changed = solved.clone();
            changed[place] = value;
            damaged.push(changed);
        }
    }
    // v goes first, a is the fact, and u*a has no part
    let (fact, table) = ([0, 0, 0, 0, 1, 0, 0, 0], [0, 0, 0, 0, 0, 1, 0, 0]);
    add_moved_records(&entry_under(reverse_order(2), 8, 2, 1, &fact, &table), damaged);
    let lists: [&[u8]; 24] = [
        // one monomial: 1, u, v, a, with more letters, too large
        &[7, 0, 0],
        &[7, 1, 0],
        &[7, 2, 0],
        &[7, 4, 0],
        &[7, 3, 0],
        &[7, 6, 0],
        &[7, 7, 0],
        &[7, 8, 0],
        &[7, 9, 0],
        &[7, 4, 1],
        &[7, 0, 128],
        // two and three: right, out of order, twice
        &[7, 0, 0, 7, 4, 0],
        &[7, 4, 0, 7, 0, 0],
        &[7, 4, 0, 7, 4, 0],
        &[7, 0, 0, 7, 0, 0],
        &[7, 0, 0, 7, 1, 0],
        &[7, 1, 0, 7, 0, 0],
        &[7, 0, 0, 7, 4, 0, 7, 8, 0],
        &[7, 0, 0, 7, 2, 0, 7, 1, 0],
        // beside other records: right, behind kind 2, 3 or 5, or with masks of theirs
        &[7, 4, 0, 2, 0, 0],
        &[2, 0, 0, 7, 4, 0],
        &[7, 0, 0, 2, 8, 0],
        &[7, 4, 0, 2, 4, 0, 5, 2],
        &[7, 1, 0, 3, 2, 0, 0],
    ];
    let wrong = Order([0; 6]);
    for list in lists {
        damaged.push([&[1, 9, 2, 1], list, &[4, 9]].concat());
        damaged.push([&[1, 9, 2, 1], list, &[5, 1, 4, 9]].concat());
        for order in [reverse_order(2), default_order(2), wrong] {
            damaged.push([&[1, 9, 2, 1, 6], &order.0[..], list, &[4, 9]].concat());
        }
        damaged.push([&[1, 9, 2, 1], list, &[6], &reverse_order(2).0[..], &[4, 9]].concat());
        damaged.push([&[1, 251, 2, 1], list, &[4, 251]].concat());
        damaged.push([&[1, 9, 7, 1], list, &[4, 9]].concat());
    }
    // without givens the one fact is 0
    damaged.extend((0..=6).map(|u| vec![1, 9, u, 0, 7, 0, 0, 4, 9]));
}

/// Kind 6 cut, changed, moved, doubled and put where it is not right.
fn add_damaged_orders(random: &mut Random, damaged: &mut Vec<Vec<u8>>) {
    let solved = entry_in(reverse_order(2), 7, 2, 0, &[0, 0, 0, 1]);
    let none = entry_in(reverse_order(2), 8, 2, 1, &[0, 0, 0, 0, 1, 0, 0, 0]);
    damaged.extend((4..12).map(|length| solved[..length].to_vec()));
    for place in 4..11 {
        for value in VALUES {
            let mut changed = solved.clone();
            changed[place] = value;
            damaged.push(changed);
        }
    }
    add_moved_records(&solved, damaged);
    add_moved_records(&none, damaged);
    for u in 0..=6 {
        for order in [default_order(u), reverse_order(u)] {
            damaged.push(with_order(9, u, order, &[]));
        }
        for order in wrong_orders(u) {
            if random.once_in(4) {
                damaged.push(with_order(9, u, order, &[]));
            }
        }
    }
    for order in every_order(3) {
        damaged.push(with_order(9, 3, order, &[2, 7, 0, 5, 0]));
    }
    // two wrong things at once
    let wrong = Order([0; 6]);
    for order in [wrong, default_order(2)] {
        for route in [0, 251] {
            damaged.push(with_order(route, 2, order, &[]));
        }
        for rest in
            [&[2, 4, 0][..], &[3, 2, 0, 0], &[5, 1], &[2, 2, 0, 2, 1, 0], &[2, 1, 0], &[5, 0]]
        {
            damaged.push(with_order(9, 2, order, rest));
        }
        damaged.push(with_order(9, 2, order, &[5, 0, 5, 0]));
        damaged.push(with_order(9, 7, order, &[]));
        damaged.push([&with_order(9, 2, order, &[])[..12], &[8]].concat());
        damaged.push([&with_order(9, 2, order, &[])[..12]].concat());
    }
}

/// An entry without givens that has a kind 6, whatever its order, and the records behind it.
fn with_order(route: u8, u: u64, order: Order, rest: &[u8]) -> Vec<u8> {
    [&[1, route, u as u8, 0, 6], &order.0[..], rest, &[4, route]].concat()
}

fn add_changed_bytes(base: &[u8], damaged: &mut Vec<Vec<u8>>) {
    for place in 0..base.len() {
        for value in VALUES {
            if base[place] != value {
                let mut changed = base.to_vec();
                changed[place] = value;
                damaged.push(changed);
            }
        }
    }
}

/// A record left out, doubled, exchanged with the next, or one of each kind put in.
fn add_moved_records(base: &[u8], damaged: &mut Vec<Vec<u8>>) {
    let records = split(base);
    for place in 0..records.len() {
        let mut without = records.clone();
        without.remove(place);
        damaged.push(without.concat());
        let mut doubled = records.clone();
        doubled.insert(place, records[place].clone());
        damaged.push(doubled.concat());
        if place + 1 < records.len() {
            let mut exchanged = records.clone();
            exchanged.swap(place, place + 1);
            damaged.push(exchanged.concat());
        }
        let start = [1, base[1], base[2], base[3]];
        let order = [6, 1, 0, 255, 255, 255, 255];
        for other in [
            &start[..],
            &[2, 1, 0],
            &[3, 0, 1, 0],
            &[4, base[1]],
            &[5, 0],
            &[0],
            &[6, 0],
            &order,
            &[7, 0, 0],
            &[8, 0],
        ] {
            let mut more = records.clone();
            more.insert(place, other.to_vec());
            damaged.push(more.concat());
        }
    }
}

/// U, G, routes, masks, unknowns and states at and over their bounds, alone and two at once.
fn add_bounds(damaged: &mut Vec<Vec<u8>>) {
    for (u, g) in [
        (7, 0),
        (0, 9),
        (6, 5),
        (3, 8),
        (2, 8),
        (6, 4),
        (0, 8),
        (6, 0),
        (255, 255),
        (255, 1),
        (128, 128),
    ] {
        damaged.push(vec![1, 9, u, g, 4, 9]);
        damaged.push(vec![1, 9, u, g, 4, 8]);
        damaged.push(vec![1, 0, u, g, 4, 0]);
        damaged.push(vec![1, 9, u, g, 2, 255, 255, 4, 9]);
    }
    for route in [0, 1, 250, 251, 255] {
        damaged.push(vec![1, route, 1, 0, 4, route]);
        damaged.push(vec![1, route, 1, 0, 2, 2, 0, 4, route]);
        damaged.push(vec![1, route, 1, 0, 4, route ^ 1]);
    }
    let lists: [&[u8]; 28] = [
        &[2, 3, 0],
        &[2, 4, 0],
        &[2, 0, 1],
        &[2, 0, 128],
        &[2, 1, 0, 2, 1, 0],
        &[2, 2, 0, 2, 1, 0],
        &[2, 3, 0, 2, 1, 0],
        &[2, 0, 0, 2, 3, 0, 2, 2, 0],
        &[2, 0, 0, 2, 1, 0, 2, 2, 0, 2, 3, 0],
        &[3, 0, 3, 0],
        &[3, 0, 4, 0],
        &[3, 0, 0, 1],
        &[3, 1, 0, 0],
        &[3, 255, 0, 0],
        &[3, 0, 1, 0, 3, 0, 1, 0],
        &[3, 0, 2, 0, 3, 0, 1, 0],
        &[3, 0, 3, 0, 3, 0, 0, 0],
        &[5, 0],
        &[5, 1],
        &[5, 2],
        &[5, 255],
        &[5, 0, 5, 0],
        &[5, 0, 3, 0, 0, 0],
        &[3, 0, 0, 0, 5, 0],
        &[5, 0, 2, 0, 0],
        &[3, 0, 0, 0, 2, 0, 0],
        &[2, 4, 0, 5, 2],
        &[2, 2, 0, 2, 1, 0, 5, 1],
    ];
    for list in lists {
        damaged.push([&[1, 3, 1, 1], list, &[4, 3]].concat());
    }
    let answers: [&[u8]; 6] = [
        &[3, 0, 1, 0, 3, 1, 0, 0],
        &[3, 1, 0, 0, 3, 0, 1, 0],
        &[3, 1, 1, 0, 3, 1, 2, 0],
        &[3, 0, 3, 0, 3, 1, 3, 0],
        &[3, 0, 3, 0, 3, 2, 0, 0],
        &[3, 0, 0, 0, 3, 1, 1, 0, 3, 0, 2, 0],
    ];
    for list in answers {
        damaged.push([&[1, 3, 2, 0], list, &[4, 3]].concat());
    }
}

/// An entry of a fact, a condition, an order and any answers, in written order.
pub fn built(
    order: Order,
    route: u8,
    u: u64,
    g: u64,
    fact: &[u8],
    table: &[u8],
    answers: &[u8],
) -> Vec<u8> {
    let mut bytes = begun(order, route, u, g, fact, table);
    for (j, answer) in answers.chunks(table.len()).enumerate() {
        for mask in written(answer) {
            bytes.extend([3, j as u8, mask as u8, (mask >> 8) as u8]);
        }
    }
    bytes.extend([4, route]);
    bytes
}

/// A 'none' entry of a fact, a condition, an order and any state.
pub fn built_none(
    order: Order,
    route: u8,
    u: u64,
    g: u64,
    fact: &[u8],
    table: &[u8],
    state: u8,
) -> Vec<u8> {
    [&begun(order, route, u, g, fact, table)[..], &[5, state, 4, route]].concat()
}

/// Kind 1, kind 6 but for the order 0, 1, 2 and so on, and the kind 7 and kind 2 records.
fn begun(order: Order, route: u8, u: u64, g: u64, fact: &[u8], table: &[u8]) -> Vec<u8> {
    let mut bytes = vec![1, route, u as u8, g as u8];
    if order != default_order(u) {
        bytes.push(6);
        bytes.extend(order.0);
    }
    for (kind, table) in [(7, fact), (2, table)] {
        for mask in written(table) {
            bytes.extend([kind, mask as u8, (mask >> 8) as u8]);
        }
    }
    bytes
}

/// The present masks, fewer letters first, then the smaller.
fn written(table: &[u8]) -> Vec<usize> {
    let mut masks: Vec<usize> = (0..table.len()).filter(|&mask| table[mask] == 1).collect();
    masks.sort_by_key(|mask| (mask.count_ones(), *mask));
    masks
}
