//! Cases for the audit and the walk.

use crate::entry::{table_for_line, with_wrong_fact};
use crate::lines::Lines;
use reference::cases::entries::{
    any_entry, built, built_none, damaged_entries, entry, entry_in, entry_under, split,
};
use reference::cases::facts::no_fact;
use reference::cases::orders::{default_order, every_order};
use reference::cases::{bench_tables, pairs, tables_of, Random};
use reference::{Order, Solved, State};

pub fn add_audits(lines: &mut Lines) {
    let random = &mut Random::new('a');
    for (u, g, table) in bench_tables() {
        let bytes = entry(1 + random.below(250) as u64, u, g, &table);
        lines.audit(&bytes);
        lines.audit(&[&bytes[..], &[4, 7, 0]].concat());
        add_other_answers(lines, default_order(u), (u, g), &no_fact(u, g), &table);
    }
    for bytes in damaged_entries(random) {
        // a sample, so that the files stay small; reading, which asks the same, has more
        if random.once_in(if bytes.len() < 20 { 2 } else { 4 }) {
            lines.audit(&bytes);
        }
    }
    for (u, g) in pairs(0, 4) {
        for _ in 0..4 {
            lines.audit(&any_entry(random, u, g));
        }
        (0..2).for_each(|_| lines.audit(&with_wrong_fact(random, u, g)));
        let table = random.solvable(u, g);
        add_other_answers(lines, random.order(u), (u, g), &no_fact(u, g), &table);
        let (fact, table) = random.under_fact(u, g);
        add_other_answers(lines, random.order(u), (u, g), &fact, &table);
    }
    add_other_orders(lines, random);
    add_other_facts(lines, random);
    for (u, g) in pairs(5, 10) {
        let most = if u + g == 8 { 800 } else { 400 };
        let (table, order, _) = table_for_line(random, u, g, most);
        let mut records = split(&entry_in(order, 200, u, g, &table));
        lines.audit(&records.concat());
        if u + g < 8 {
            records.remove(records.len() - 2);
            lines.audit(&records.concat());
        }
    }
    for (u, g) in [(1, 8), (2, 8), (3, 7)] {
        // blocked in the last state alone
        let mut text = vec![b'a'];
        (1..g as u8).for_each(|given| text.extend([b'*', b'a' + given]));
        let mut table = vec![0; 1 << (u + g)];
        reference::read_text(u, g, &text, &mut table).expect("a text");
        lines.audit(&entry(1, u, g, &table));
    }
}

/// Well-formed entries whose answers or state are not, or perhaps not, those solved afresh.
fn add_other_answers(
    lines: &mut Lines,
    order: Order,
    (u, g): (u64, u64),
    fact: &[u8],
    table: &[u8],
) {
    let exact = u as usize * table.len();
    let mut answers = vec![0; exact];
    for method in [reference::lowenheim, reference::particular, reference::boole] {
        let solved = method(u, g, order, fact, table, &mut answers);
        if matches!(solved, Ok(Solved::Done { .. })) {
            lines.audit(&built(order, 5, u, g, fact, table, &answers));
        }
    }
    for place in 0..exact.min(9) {
        // one monomial more or less
        let mut other = answers.clone();
        other[place * exact / exact.min(9)] ^= 1;
        lines.audit(&built(order, 5, u, g, fact, table, &other));
    }
    let mut unknowns = vec![0; exact];
    (0..u as usize).for_each(|j| unknowns[j * table.len() + (1 << j)] = 1);
    lines.audit(&built(order, 5, u, g, fact, table, &unknowns));
    lines.audit(&built(order, 5, u, g, fact, table, &vec![0; exact]));
    for state in 0..=1u8 << g {
        lines.audit(&built_none(order, 5, u, g, fact, table, state));
    }
}

/// For each two orders of three unknowns, an entry that names one and holds the answers of the
/// other; and each order of a condition that is 'none'.
fn add_other_orders(lines: &mut Lines, random: &mut Random) {
    let (fact, table) = (no_fact(3, 0), random.solvable(3, 0));
    for held in every_order(3) {
        let mut answers = vec![0; 24];
        let solved = reference::boole(3, 0, held, &fact, &table, &mut answers);
        assert!(matches!(solved, Ok(Solved::Done { .. })));
        for named in every_order(3) {
            lines.audit(&built(named, 5, 3, 0, &fact, &table, &answers));
        }
    }
    let none = random.blocked(3, 1, 1);
    for named in every_order(3) {
        lines.audit(&entry_in(named, 5, 3, 1, &none));
    }
}

/// For each two facts, an entry that holds one and the answers, or the state, found under the other.
fn add_other_facts(lines: &mut Lines, random: &mut Random) {
    for (u, g, texts) in
        [(1, 1, &["0", "a", "1+a"][..]), (2, 2, &["0", "a*b", "a+b+a*b", "1+a", "a+b"])]
    {
        let facts: Vec<Vec<u8>> = texts.iter().map(|text| tables_of(u, g, &[text])).collect();
        for table in [random.solvable(u, g), random.blocked(u, g, 1)] {
            for held in &facts {
                let (order, mut answers) = (default_order(u), vec![0; u as usize * table.len()]);
                let solved = reference::boole(u, g, order, held, &table, &mut answers);
                for named in &facts {
                    lines.audit(&match solved {
                        Ok(Solved::None(State(state))) => {
                            built_none(order, 5, u, g, named, &table, state as u8)
                        }
                        _ => built(order, 5, u, g, named, &table, &answers),
                    });
                }
            }
        }
    }
}

pub fn add_walks(lines: &mut Lines) {
    let random = &mut Random::new('k');
    for place in [0, 1, 7, 1000, 65_536] {
        lines.walk(&[], place);
    }
    let rows = bench_tables();
    let routes: [&[u64]; 14] = [
        &[1],
        &[250],
        &[1, 2],
        &[1, 250],
        &[2, 2],
        &[2, 1],
        &[250, 1],
        &[1, 2, 3],
        &[1, 3, 2],
        &[1, 2, 2],
        &[3, 3, 3],
        &[5, 4, 6],
        &[10, 20, 30, 40],
        &[1, 2, 3, 4, 5, 4, 7],
    ];
    for list in routes {
        let part = |(k, &route): (usize, &u64)| {
            let (u, g, table) = &rows[(k * 3 + list.len() * 5) % rows.len()];
            entry(route, *u, *g, table)
        };
        let entries: Vec<Vec<u8>> = list.iter().enumerate().map(part).collect();
        add_places(lines, &entries);
    }
    add_damaged_volumes(lines, random);
    add_wrong_answers(lines);
    let ordered =
        |order: &Order| entry_in(*order, 3 + order.0[0] as u64, 3, 0, &[0, 0, 0, 0, 0, 0, 0, 1]);
    add_places(lines, &[0, 2, 4].map(|place| ordered(&every_order(3)[place])));
    for many in [3, 6, 10, 25] {
        add_any_volume(lines, random, many);
    }
}

/// Walks from each place of a short volume, and from some past its end.
fn add_places(lines: &mut Lines, entries: &[Vec<u8>]) {
    let volume = entries.concat();
    let mut start = 0;
    for part in entries {
        for place in [start, start + 1, start + 4, start + part.len() - 2] {
            lines.walk(&volume, place);
        }
        start += part.len();
    }
    for place in [start - 1, start, start + 1, start + 100, 65_536] {
        lines.walk(&volume, place);
    }
}

/// A damaged entry first, between two good ones, or last; a sample of them.
fn add_damaged_volumes(lines: &mut Lines, random: &mut Random) {
    let first = entry(2, 1, 0, &[0, 1]);
    let last = entry(250, 1, 1, &[0, 0, 1, 0]);
    for bytes in damaged_entries(random) {
        match random.below(if bytes.len() < 20 { 20 } else { 50 }) {
            0 => lines.walk(&[&bytes[..], &last].concat(), 0),
            1 => lines.walk(&[&first[..], &bytes, &last].concat(), first.len()),
            2..=4 => lines.walk(&[&first[..], &bytes, &last].concat(), 0),
            5..=7 => lines.walk(&[&first[..], &bytes].concat(), 0),
            _ => {}
        }
    }
}

/// An answer with one monomial more or less, and a wrong state; with a route that falls too.
fn add_wrong_answers(lines: &mut Lines) {
    let (fact, table) = ([0; 4], [0, 1, 1, 0]);
    let right = [0, 0, 1, 0, 0, 0, 1, 0];
    for route in [3, 4, 5] {
        let first = entry(4, 1, 1, &[0, 1, 1, 0]);
        let last = entry(6, 0, 0, &[1]);
        for place in 0..right.len() {
            let mut answers = right;
            answers[place] ^= 1;
            let wrong = built(default_order(2), route, 2, 0, &fact, &table, &answers);
            lines.walk(&[&first[..], &wrong, &last].concat(), 0);
            lines.walk(&[&wrong[..], &last].concat(), 0);
        }
        for order in every_order(2) {
            let solved = built(order, route, 2, 0, &fact, &table, &right);
            lines.walk(&[&first[..], &solved, &last].concat(), 0);
        }
        for state in 0..5 {
            // a*b + a: blocked in state 1 alone
            let none = built_none(default_order(0), route, 0, 2, &fact, &[0, 1, 0, 1], state);
            lines.walk(&[&first[..], &none, &last].concat(), 0);
        }
        let solved = built(default_order(0), route, 0, 2, &fact, &[0, 1, 0, 1], &[]);
        lines.walk(&[&first[..], &solved, &last].concat(), 0);
        let none = built_none(default_order(2), route, 2, 0, &fact, &table, 0);
        lines.walk(&[&first[..], &none, &last].concat(), 0);
    }
}

/// A volume of random entries with rising routes, whole, cut and with a byte behind.
fn add_any_volume(lines: &mut Lines, random: &mut Random, many: usize) {
    let small = pairs(0, 3);
    let mut entries = Vec::new();
    for k in 0..many {
        let (u, g) = random.pick(&small);
        let (fact, table) = random.under_fact(u, g);
        let order = random.order(u);
        let route = 3 * k as u64 + 1 + random.below(3) as u64;
        entries.push(entry_under(order, route, u, g, &fact, &table));
    }
    let volume = entries.concat();
    lines.walk(&volume, 0);
    lines.walk(&volume, entries[0].len());
    lines.walk(&volume[..volume.len() - 1], 0);
    lines.walk(&volume[..volume.len() - 2], entries[0].len());
    lines.walk(&[&volume[..], &[0]].concat(), 0);
    lines.walk(&[&volume[..], &entries[0]].concat(), 0);
}
