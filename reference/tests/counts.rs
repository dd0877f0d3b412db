//! The number of monomials that the calls give: against the bytes of the tables, the written order and
//! the records of an entry; and rows by hand.

use reference::cases::entries::{entry_under, split};
use reference::cases::handed::SOLVING;
use reference::cases::orders::default_order;
use reference::cases::{every_table, facts, ones, pairs, tables_of, Random};
use reference::*;

type Operation = fn(u64, u64, &[u8], &[u8], &mut [u8]) -> Result<usize, Refusal>;
type Method = fn(u64, u64, Order, &[u8], &[u8], &mut [u8]) -> Result<Solved, Refusal>;

/// A table with ones behind it, which play no part.
fn with_ones(table: &[u8]) -> Vec<u8> {
    [table, &[1; 40]].concat()
}

/// The monomials of tables over so many letters, listed in written order.
fn listed(tables: &[u8], letters: u64) -> usize {
    let polynomials = tables.chunks(1 << letters).map(Polynomial::from_table);
    polynomials.map(|polynomial| polynomial.written().len()).sum()
}

/// The number of monomials that an operation gives on tables and into a buffer with ones behind them,
/// which is the number of ones in the result.
fn count_of(operation: Operation, u: u64, g: u64, a: &[u8], b: &[u8]) -> usize {
    let mut result = with_ones(&vec![1; 1 << (u + g)]);
    let count = operation(u, g, &with_ones(a), &with_ones(b), &mut result).expect("a count");
    let (table, behind) = result.split_at(1 << (u + g));
    assert_eq!(behind, [1; 40]);
    assert_eq!(count, ones(table), "{u} {g} {a:?} {b:?}");
    assert_eq!(count, listed(table, u + g));
    count
}

/// A sum lacks what both have, from both.
fn assert_sum(u: u64, g: u64, a: &[u8], b: &[u8]) {
    let in_both = a.iter().zip(b).filter(|bytes| *bytes == (&1, &1)).count();
    assert_eq!(count_of(sum, u, g, a, b), ones(a) + ones(b) - 2 * in_both);
}

/// Every two tables over at most two letters, and all that can be handed over for a condition.
#[test]
fn every_small_operation() {
    for (u, g) in pairs(0, 2) {
        let length = 1 << (u + g);
        for a in every_table(length) {
            for b in every_table(length) {
                assert_sum(u, g, &a, &b);
                assert_eq!(count_of(product, u, g, &a, &b), count_of(product, u, g, &b, &a));
            }
            for handed in every_table(u as usize * length) {
                count_of(substitute, u, g, &a, &handed);
            }
        }
    }
}

#[test]
fn larger_operations() {
    let random = &mut Random::new('C');
    for (u, g) in pairs(3, 10) {
        for _ in 0..4 {
            let [a, b] = [(); 2].map(|()| random.any_table(1 << (u + g)));
            let handed = random.any_table(u as usize * a.len());
            assert_sum(u, g, &a, &b);
            count_of(product, u, g, &a, &b);
            count_of(substitute, u, g, &a, &handed);
        }
        // every monomial there is, and none
        let (all, none, one) = (vec![1; 1 << (u + g)], facts::no_fact(u, g), facts::one(u, g));
        let zeros = vec![0; u as usize * all.len()];
        assert_eq!(count_of(sum, u, g, &all, &none), 1 << (u + g));
        assert_eq!(count_of(product, u, g, &one, &all), 1 << (u + g));
        assert_eq!(count_of(sum, u, g, &all, &all), 0);
        assert_eq!(count_of(product, u, g, &none, &all), 0);
        assert_eq!(count_of(substitute, u, g, &all, &zeros), 1 << g);
    }
}

#[test]
fn operations_by_hand() {
    for (u, g, call, a, b, expected) in [
        (0, 0, sum as Operation, "0", &["0"][..], 0),
        (0, 0, sum, "1", &["0"], 1),
        (1, 0, sum, "u", &["u"], 0),
        (2, 0, sum, "1+u", &["u+v+u*v"], 3),
        (2, 0, product, "u+v", &["u+v"], 2),
        // u and u*v, u and u*v: what is there twice is gone
        (2, 0, product, "u", &["1+u+v"], 1),
        (2, 0, product, "1+u", &["1+v"], 4),
        (1, 2, product, "a+b", &["a*b"], 0),
        (2, 0, substitute, "u*v", &["1+v", "1+u"], 4),
        (2, 0, substitute, "u+v", &["v", "u"], 2),
        (2, 0, substitute, "u+v", &["u", "u"], 0),
        (1, 1, substitute, "u*a+1", &["a"], 2),
        (0, 2, substitute, "a+b+a*b", &[], 3),
    ] {
        let count = count_of(call, u, g, &tables_of(u, g, &[a]), &tables_of(u, g, b));
        assert_eq!(count, expected, "{a} and {b:?}");
    }
}

/// The total that a method gives into a buffer with ones behind it, which is the number of ones in the
/// answers, and these; nothing where there is no solution.
fn total_of(
    method: Method,
    (u, g, order): (u64, u64, Order),
    fact: &[u8],
    condition: &[u8],
) -> Option<(usize, Vec<u8>)> {
    let length = u as usize * condition.len();
    let mut answers = with_ones(&vec![1; length]);
    let solved = method(u, g, order, &with_ones(fact), &with_ones(condition), &mut answers);
    let Solved::Done { monomials } = solved.expect("no refusal") else {
        assert_eq!(answers, with_ones(&vec![1; length]));
        return None;
    };
    assert_eq!(answers[length..], [1; 40]);
    answers.truncate(length);
    assert_eq!(monomials, ones(&answers), "{u} {g} {condition:?}");
    assert_eq!(monomials, listed(&answers, u + g));
    Some((monomials, answers))
}

/// Every kind of answer, under facts and in any order. Boole's total is the number of kind 3 records of
/// the entry.
#[test]
fn totals_of_answers() {
    let random = &mut Random::new('T');
    let mut solved = 0;
    for (u, g) in pairs(0, 10) {
        for _ in 0..if u + g < 8 { 12 } else { 2 } {
            let (fact, condition) = random.under_fact(u, g);
            let given = (u, g, random.order(u));
            let [by_boole, by_particular, by_lowenheim] = [boole as Method, particular, lowenheim]
                .map(|method| total_of(method, given, &fact, &condition));
            assert_eq!(by_boole.is_some(), by_particular.is_some());
            assert_eq!(by_boole.is_some(), by_lowenheim.is_some());
            let records = split(&entry_under(given.2, 9, u, g, &fact, &condition));
            let kind_3 = records.iter().filter(|record| record[0] == 3).count();
            assert_eq!(by_boole.as_ref().map_or(0, |(total, _)| *total), kind_3);
            if let (Some((_, particular)), Some((total, own))) = (by_particular, by_lowenheim) {
                // the own Löwenheim is the handed form with the particular solution
                assert_eq!(handed_total(u, g, &fact, &condition, &particular), (total, own));
                solved += 1;
            }
            for kind in SOLVING {
                let condition = random.solvable(u, g);
                let handed = random.handed(kind, u, g, &condition);
                handed_total(u, g, &facts::no_fact(u, g), &condition, &handed);
            }
        }
    }
    assert!(solved > 100, "{solved}");
}

/// The same for handed polynomials that solve.
fn handed_total(u: u64, g: u64, fact: &[u8], condition: &[u8], handed: &[u8]) -> (usize, Vec<u8>) {
    let mut answers = with_ones(handed);
    let total = lowenheim_handed(u, g, fact, condition, &with_ones(handed), &mut answers);
    let total = total.expect("accepted");
    assert_eq!(answers[handed.len()..], [1; 40]);
    answers.truncate(handed.len());
    assert_eq!(total, ones(&answers), "{u} {g} {condition:?} {handed:?}");
    assert_eq!(total, listed(&answers, u + g));
    (total, answers)
}

/// Rows of the bench table and others: the totals of Boole, the particular solution and the own
/// Löwenheim.
#[test]
fn totals_by_hand() {
    for (u, g, text, expected) in [
        (0, 0, "0", [0, 0, 0]),
        (1, 0, "u", [0, 0, 0]),
        (1, 0, "!u", [1, 1, 1]),
        // v and v; 0 and 0; u*v and u*v
        (2, 0, "u+v", [2, 0, 2]),
        // u+u*v and v; 0 and 0; u+u*v and v+u*v
        (2, 0, "u*v", [3, 0, 4]),
        // 1+v and v; 1 and 0; 1+v+u*v and v+u*v
        (2, 0, "u+v+1", [3, 1, 5]),
        (1, 1, "u+a", [1, 1, 1]),
        (2, 0, "0", [2, 0, 2]),
        // u+v+u*v and v; 0 and 0; u and u*v
        (2, 0, "v+u*v", [4, 0, 2]),
        // w three times; 0 three times; u*v*w three times
        (3, 0, "(u+v*w)|(v+w)", [3, 0, 3]),
    ] {
        let (fact, condition) = (facts::no_fact(u, g), tables_of(u, g, &[text]));
        let found = [boole as Method, particular, lowenheim].map(|method| {
            let total = total_of(method, (u, g, default_order(u)), &fact, &condition);
            total.expect("a solution").0
        });
        assert_eq!(found, expected, "{text}");
    }
}
