//! The demands on small random conditions, by brute force.

#[path = "common/accepted.rs"]
mod accepted;
mod common;

use accepted::accepted_under;
use common::{all_letters, Random};
use reference::cases::facts::{counted, no_fact};
use reference::cases::handed::{NEARLY, SOLVING};
use reference::cases::ones;
use reference::cases::orders::{every_order, reverse_order};
use reference::*;
use std::collections::HashSet;

type Method = fn(u64, u64, Order, &[u8], &[u8], &mut [u8]) -> Result<Solved, Refusal>;

/// The answer tables, whose monomials are counted, or the state.
fn solved(
    letters: Letters,
    order: Order,
    fact: &[u8],
    condition: &[u8],
    method: Method,
) -> Result<Vec<u8>, State> {
    let mut answers = vec![7; letters.answer_length()];
    let (u, g) = (letters.unknowns as u64, letters.givens as u64);
    match method(u, g, order, fact, condition, &mut answers).expect("no refusal") {
        Solved::Done { monomials } => {
            assert_eq!(monomials, ones(&answers));
            Ok(answers)
        }
        Solved::None(state) => Err(state),
    }
}

/// Substitutions over a list of letters, the givens first, as values: item
/// [point] is the choice that the polynomials of the unknowns give there.
fn substitutions(letters: Letters, list: usize) -> Vec<Vec<usize>> {
    let mut found = vec![vec![]];
    for _ in 0..1 << list {
        let longer = |begun: &Vec<usize>| {
            let begun = begun.clone();
            (0..1 << letters.unknowns).map(move |choice| [&begun[..], &[choice]].concat())
        };
        found = found.iter().flat_map(longer).collect();
    }
    found
}

/// The value of a table where the letters of the list and the unknowns are so;
/// a given's value is its own.
fn value_at(letters: Letters, table: &[u8], point: usize, choice: usize) -> u8 {
    let state = State((point & ((1 << letters.givens) - 1)) as u64);
    let (u, g) = (letters.unknowns as u64, letters.givens as u64);
    value(u, g, table, state, Choice(choice as u64)).expect("a value")
}

/// Makes f zero wherever g is 0.
fn makes_zero(letters: Letters, fact: &[u8], condition: &[u8], substitution: &[usize]) -> bool {
    let zero = |(point, &choice)| {
        let is_counted = value_at(letters, fact, point, 0) == 0;
        !is_counted || value_at(letters, condition, point, choice) == 0
    };
    substitution.iter().enumerate().all(zero)
}

/// A substitution put for the parameters of an answer.
fn put(letters: Letters, answers: &[u8], substitution: &[usize]) -> Vec<usize> {
    let tables: Vec<&[u8]> = answers.chunks(letters.table_length()).collect();
    let at = |(point, &choice): (usize, &usize)| {
        let bit =
            |(j, table): (usize, &&[u8])| (value_at(letters, table, point, choice) as usize) << j;
        tables.iter().enumerate().map(bit).sum()
    };
    substitution.iter().enumerate().map(at).collect()
}

/// Under facts, in every order, and from handed polynomials that are accepted: 'none' exactly where no
/// substitution solves, where nothing is accepted either; every answer solves; every substitution that
/// solves is an instance.
#[test]
fn every_solution_is_an_instance() {
    let mut random = Random(0x1234_5678_9abc_def1);
    let for_handed = &mut cases::Random::new('L');
    let mut refused = 0;
    for (unknowns, givens, list) in [
        (0, 1, 1),
        (0, 2, 3),
        (1, 0, 1),
        (1, 1, 1),
        (1, 1, 2),
        (1, 2, 2),
        (2, 0, 1),
        (2, 1, 1),
        (2, 1, 2),
        (3, 0, 1),
        (3, 1, 1),
    ] {
        let letters = Letters { unknowns, givens };
        let all = substitutions(letters, list);
        let (u, g) = (unknowns as u64, givens as u64);
        for round in 0..18 {
            let (fact, condition) = match round % 6 {
                0 => (no_fact(u, g), random.table(letters.table_length())),
                1 | 2 => (no_fact(u, g), random.solvable(letters)),
                _ => for_handed.under_fact(u, g),
            };
            let solutions: Vec<_> =
                all.iter().filter(|s| makes_zero(letters, &fact, &condition, s)).collect();
            let mut answers = Vec::new();
            for order in every_order(u) {
                for method in [boole as Method, lowenheim] {
                    let found = solved(letters, order, &fact, &condition, method);
                    assert_eq!(found.is_err(), solutions.is_empty());
                    answers.extend(found);
                }
            }
            for kind in SOLVING.into_iter().chain(NEARLY) {
                let handed = for_handed.handed(kind, u, g, &counted(&fact, &condition));
                let found = accepted_under(u, g, &fact, &condition, &handed);
                assert!(found.is_none() || !solutions.is_empty());
                refused += (found.is_none() && !solutions.is_empty()) as usize;
                answers.extend(found);
            }
            for answers in answers {
                let instances: HashSet<_> = all.iter().map(|s| put(letters, &answers, s)).collect();
                assert!(solutions.iter().all(|s| instances.contains(*s)));
                assert!(instances.iter().all(|s| makes_zero(letters, &fact, &condition, s)));
            }
        }
    }
    assert!(refused > 100, "{refused}");
}

/// The smallest of the states with g = 0 in which every choice has the value 1, and only where there
/// is one, whatever the order.
#[test]
fn none_names_the_smallest_state() {
    let mut random = Random(77);
    let facts = &mut cases::Random::new('N');
    let mut others = 0;
    for letters in all_letters(6) {
        let (u, g) = (letters.unknowns as u64, letters.givens as u64);
        for _ in 0..20 {
            let mut none_by_itself = false;
            let (fact, condition) = facts.under_fact(u, g);
            for (fact, condition) in [
                (no_fact(u, g), random.table(letters.table_length())),
                (no_fact(u, g), condition.clone()),
                (fact, condition),
            ] {
                let blocked = |state: &usize| {
                    let is_counted = value_at(letters, &fact, *state, 0) == 0;
                    let is_one = |choice| value_at(letters, &condition, *state, choice) == 1;
                    is_counted && (0..1 << letters.unknowns).all(is_one)
                };
                let found = (0..1 << letters.givens).find(blocked);
                let expected = found.map(|state| State(state as u64));
                for method in [boole as Method, particular, lowenheim] {
                    let order = random.order(letters);
                    assert_eq!(solved(letters, order, &fact, &condition, method).err(), expected);
                }
                others += (none_by_itself && expected.is_none()) as usize;
                none_by_itself = expected.is_some();
            }
        }
    }
    assert!(others > 100, "solved under a fact alone: {others}");
}

/// An answer put into the condition, or into itself, and Boole's and Löwenheim's in any two
/// orders, and those to handed polynomials, put into each other: each keeps its values. So general
/// solutions under any two orders, and those from handed polynomials, are instances of each other. One
/// that is handed over again is accepted and comes back.
#[test]
fn answers_are_reproductive() {
    let mut random = Random(4242);
    let for_handed = &mut cases::Random::new('R');
    for (letters, is_under_fact) in
        all_letters(6).into_iter().flat_map(|letters| [(letters, false), (letters, true)])
    {
        let condition = random.solvable(letters);
        let length = letters.table_length();
        let (u, g) = (letters.unknowns as u64, letters.givens as u64);
        let fact = if is_under_fact { for_handed.fact(u, g) } else { no_fact(u, g) };
        let counted = counted(&fact, &condition);
        let put_into = |table: &[u8], handed: &[u8]| {
            let mut result = vec![7; length];
            let count = substitute(u, g, table, handed, &mut result);
            assert_eq!(count, Ok(ones(&result)));
            result
        };
        let orders = match letters.unknowns {
            ..=3 => every_order(u),
            _ => {
                vec![Order::default_for(letters.unknowns), reverse_order(u), random.order(letters)]
            }
        };
        let mut answers = Vec::new();
        for order in orders {
            for method in [boole as Method, lowenheim] {
                let found = solved(letters, order, &fact, &condition, method);
                answers.push(found.expect("a solution"));
            }
        }
        for kind in SOLVING {
            let handed = for_handed.handed(kind, u, g, &counted);
            answers.push(accepted_under(u, g, &fact, &condition, &handed).expect("accepted"));
        }
        for inner in &answers {
            assert_eq!(put_into(&counted, inner), vec![0; length]);
            assert_eq!(accepted_under(u, g, &fact, &condition, inner).as_ref(), Some(inner));
            for outer in &answers {
                let again: Vec<u8> =
                    outer.chunks(length).flat_map(|table| put_into(table, inner)).collect();
                assert_eq!(&again, inner);
            }
        }
    }
}

/// Every condition over three unknowns: its orders do not all give the same answers, so that the
/// order is no empty word; the particular solution is Boole's answer with 0 for the parameters.
#[test]
fn orders_differ() {
    let letters = Letters { unknowns: 3, givens: 0 };
    let mut differing = 0;
    for bits in 1..256u32 {
        let values: Vec<u8> = (0..8).map(|point| (bits >> point & 1) as u8).collect();
        let condition = plain::transform(&values);
        let answers = |method: Method| -> Vec<Result<Vec<u8>, State>> {
            let orders = every_order(3).into_iter();
            orders.map(|order| solved(letters, order, &[0; 8], &condition, method)).collect()
        };
        let (general, particular) = (answers(boole), answers(particular));
        differing += (general.iter().any(|other| *other != general[0])) as usize;
        for (general, particular) in general.iter().zip(&particular) {
            assert_eq!(general.is_ok(), bits != 255);
            let (Ok(general), Ok(particular)) = (general, particular) else {
                continue;
            };
            for (answer, constant) in general.chunks(8).zip(particular.chunks(8)) {
                assert_eq!([answer[0], 0, 0, 0, 0, 0, 0, 0], *constant);
            }
        }
    }
    assert!(differing > 100, "{differing}");
}

/// Demand 2: a value of the table is the value of the tree, on all short texts.
#[test]
fn a_text_keeps_its_values() {
    let letters = Letters { unknowns: 2, givens: 1 };
    let signs = b"uva1+|*!()";
    let mut accepted = 0;
    for length in 1..=5 {
        for number in 0..signs.len().pow(length) {
            let sign = |place| signs[number / signs.len().pow(place) % signs.len()];
            let text: Vec<u8> = (0..length).map(sign).collect();
            let mut table = [7; 8];
            let read = read_text(2, 1, &text, &mut table);
            let Ok(tree) = read_tree(letters, &text) else {
                assert_eq!((read, table), (Err(Refusal(7)), [7; 8]));
                continue;
            };
            accepted += 1;
            assert_eq!(read, Ok(()));
            for point in 0..8 {
                assert_eq!(
                    value_at(letters, &table, point >> 2, point & 3),
                    tree.value(point as u16) as u8
                );
            }
        }
    }
    assert!(accepted > 1000);
}

/// An entry reads back, its order and its fact too, and passes the audit with its own length, whatever
/// follows.
#[test]
fn entries_read_back() {
    let mut random = Random(5);
    let facts = &mut cases::Random::new('E');
    for letters in all_letters(7) {
        let (u, g) = (letters.unknowns as u64, letters.givens as u64);
        for (fact, condition) in [
            (no_fact(u, g), random.table(letters.table_length())),
            (no_fact(u, g), random.solvable(letters)),
            facts.under_fact(u, g),
            facts.under_fact(u, g),
        ] {
            let route = 1 + random.below(250) as u64;
            let order = random.order(letters);
            let mut bytes = vec![random.below(256) as u8; LONGEST_ENTRY + 6];
            let length =
                write_entry(route, u, g, order, &fact, &condition, &mut bytes).expect("an entry");
            assert!(length <= LONGEST_ENTRY);
            let mut read_order = Order([7; 6]);
            let [mut read_fact, mut table] = [(); 2].map(|()| vec![7; letters.table_length()]);
            let mut answers = vec![7; letters.answer_length()];
            let reading =
                read_entry(&bytes, &mut read_order, &mut read_fact, &mut table, &mut answers)
                    .expect("read");
            assert_eq!(audit(&bytes), Ok(reading));
            assert_eq!((reading.route as u64, reading.length), (route, length));
            assert_eq!((read_order, &read_fact, &table), (order, &fact, &condition));
            match solved(letters, order, &fact, &condition, boole) {
                Ok(expected) => {
                    assert_eq!((reading.contents, answers), (Contents::Solved, expected))
                }
                Err(state) => {
                    assert_eq!(reading.contents, Contents::None(state));
                    assert!(answers.iter().all(|&byte| byte == 7));
                }
            }
        }
    }
}

/// Whether bytes pass the audit: then they are what the writer writes for what reading gives.
fn passes(bytes: &[u8]) -> bool {
    let Ok(reading) = audit(bytes) else {
        return false;
    };
    let (mut order, mut fact, mut table) = (Order([7; 6]), [7; 1024], [7; 1024]);
    let read = read_entry(bytes, &mut order, &mut fact, &mut table, &mut [7; 6144]);
    assert_eq!(read, Ok(reading));
    let (u, g) = (reading.unknowns as u64, reading.givens as u64);
    let mut again = vec![0; reading.length];
    let written = write_entry(reading.route as u64, u, g, order, &fact, &table, &mut again);
    assert_eq!(written, Ok(reading.length));
    assert_eq!(again, bytes[..reading.length]);
    true
}

/// Of all bytes that differ from an entry in one, the audit passes only what the writer writes.
#[test]
fn audit_passes_only_entries() {
    for order in every_order(2) {
        for fact in [[0; 8], [0, 0, 0, 0, 1, 0, 0, 0], [1, 0, 0, 0, 1, 0, 0, 0]] {
            let mut bytes = [0; 64];
            let condition = [0, 1, 1, 0, 1, 0, 0, 1];
            let written = write_entry(7, 2, 1, order, &fact, &condition, &mut bytes);
            assert!(passes(&bytes));
            for place in 0..written.expect("an entry") {
                for byte in 0..=255 {
                    let mut changed = bytes;
                    changed[place] = byte;
                    passes(&changed);
                }
            }
        }
    }
}

/// For a condition over three unknowns, of all orders, right or wrong, put into kind 6, and of none,
/// each that passes is the one in which the answers were found, and has no other form.
#[test]
fn an_order_has_one_form() {
    let condition = [0, 1, 0, 1, 1, 0, 1, 1];
    let mut found = Vec::new();
    for order in every_order(3) {
        let mut bytes = [0; 128];
        let length =
            write_entry(7, 3, 0, order, &[0; 8], &condition, &mut bytes).expect("an entry");
        let start = if bytes[4] == 6 { 11 } else { 4 };
        assert_eq!(start == 11, order != Order::default_for(3));
        found.push(bytes[start..length].to_vec());
    }
    for (held, rest) in found.iter().enumerate() {
        let head = [1, 7, 3, 0];
        assert_eq!(passes(&[&head[..], rest].concat()), *rest == found[0]);
        for number in 0..5usize.pow(6) {
            let byte = |place| [0, 1, 2, 3, 255][number / 5usize.pow(place) % 5];
            let order = Order([0, 1, 2, 3, 4, 5].map(byte));
            let named = every_order(3).iter().position(|right| *right == order);
            let is_right = named.is_some_and(|named| named > 0 && found[named] == found[held]);
            assert_eq!(passes(&[&head[..], &[6], &order.0, rest].concat()), is_right);
        }
    }
}

/// An entry of every monomial that its letters allow, in the fact, the condition and the answers, is
/// read whole; the longest of these, over all U and G, is the bound.
#[test]
fn the_longest_entry() {
    let mut lengths = Vec::new();
    for letters in all_letters(10) {
        let (u, g) = (letters.unknowns as u64, letters.givens as u64);
        let order = reverse_order(u);
        // without givens the one monomial would be 1, which leaves no state
        let of_fact = |mask: usize| mask & ((1 << u) - 1) == 0 && g > 0;
        let fact: Vec<u8> = (0..1 << (u + g)).map(|mask| of_fact(mask) as u8).collect();
        let (table, answers) = (vec![1; fact.len()], vec![1; letters.answer_length()]);
        let bytes = cases::entries::built(order, 250, u, g, &fact, &table, &answers);
        let mut read_order = Order([7; 6]);
        let [mut read_fact, mut read_table] = [(); 2].map(|()| vec![7; fact.len()]);
        let mut read_answers = vec![7; answers.len()];
        let read =
            read_entry(&bytes, &mut read_order, &mut read_fact, &mut read_table, &mut read_answers);
        assert_eq!(read.map(|reading| reading.length), Ok(bytes.len()));
        assert_eq!((read_order, read_fact), (order, fact));
        assert_eq!((read_table, read_answers), (table, answers));
        lengths.push((bytes.len(), u, g));
    }
    assert_eq!(lengths.into_iter().max(), Some((LONGEST_ENTRY, 6, 4)));
}
