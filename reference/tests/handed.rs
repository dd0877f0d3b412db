//! Question 21 and Löwenheim's formula on handed polynomials: against the values at every state and
//! choice; an accepted one as a general solution; rows by hand; and refusals.

#[path = "common/accepted.rs"]
mod accepted;

use accepted::accepted_under;
use reference::cases::facts::no_fact;
use reference::cases::handed::{choices_of, tables_to, NEARLY, ROWS, SOLVING};
use reference::cases::orders::default_order;
use reference::cases::{every_table, pairs, tables_of, values_of, Random, TOO_LARGE};
use reference::plain::transform;
use reference::*;

/// The point with the choice of another put for its own.
fn replaced(u: u64, point: usize, choice: usize) -> usize {
    point >> u << u | choice
}

/// Whether the condition, given by its values, is 0 at every point with the choice that the handed
/// polynomials lead to there put for its own.
fn is_zero_everywhere(u: u64, condition: &[u8], choices: &[usize]) -> bool {
    choices.iter().enumerate().all(|(point, &choice)| condition[replaced(u, point, choice)] == 0)
}

/// A general solution, by values: it leads to a choice that solves from every point, and from one
/// that solves to that choice itself, so that every solution is reached, by putting it for the
/// parameters.
fn assert_general(u: u64, condition: &[u8], choices: &[usize]) {
    assert!(is_zero_everywhere(u, condition, choices));
    for (point, &choice) in choices.iter().enumerate() {
        assert!(condition[point] == 1 || replaced(u, point, choice) == point);
    }
}

/// The answers to handed polynomials that are accepted without a fact.
fn accepted(u: u64, g: u64, condition: &[u8], handed: &[u8]) -> Option<Vec<u8>> {
    accepted_under(u, g, &no_fact(u, g), condition, handed)
}

fn has_solution(u: u64, g: u64, condition: &[u8]) -> bool {
    let mut answers = vec![7; u as usize * condition.len()];
    let solved = boole(u, g, default_order(u), &no_fact(u, g), condition, &mut answers);
    matches!(solved, Ok(Solved::Done { .. }))
}

/// The choice to which handed polynomials lead at each point, one call for each value.
fn choices_by_calls(u: u64, g: u64, handed: &[u8]) -> Vec<usize> {
    let length = 1 << (u + g);
    let values: Vec<_> = handed.chunks(length).map(|table| values_of(u, g, table)).collect();
    let bits = |point: usize| {
        values.iter().enumerate().map(move |(j, values)| (values[point] as usize) << j)
    };
    (0..length).map(|point| bits(point).sum()).collect()
}

/// Every condition with all that can be handed, over at most two letters, and over one unknown and two
/// givens. A condition with k choices that solve in a state leaves as many to each point of it, so that
/// over all conditions one state accepts the sum of (2^U choose k) * k^(2^U).
#[test]
fn every_small_one() {
    for (u, g, expected) in [
        (0, 0, 1),
        (0, 1, 1),
        (0, 2, 1),
        (1, 0, 2 + 4),
        (1, 1, 6usize.pow(2)),
        (1, 2, 6usize.pow(4)),
        (2, 0, 4 + 6 * 16 + 4 * 81 + 256),
    ] {
        let length = 1 << (u + g);
        let all: Vec<_> = every_table(u as usize * length)
            .map(|handed| (choices_by_calls(u, g, &handed), handed))
            .collect();
        let mut count = 0;
        for condition in every_table(length) {
            let values = values_of(u, g, &condition);
            let before = count;
            for (choices, handed) in &all {
                let answers = accepted(u, g, &condition, handed);
                let solves = is_zero_everywhere(u, &values, choices);
                assert_eq!(answers.is_some(), solves, "{u} {g} {condition:?} {handed:?}");
                if let Some(answers) = answers {
                    assert_general(u, &values, &choices_by_calls(u, g, &answers));
                    count += 1;
                }
            }
            assert_eq!(count > before, has_solution(u, g, &condition), "{condition:?}");
        }
        assert_eq!(count, expected, "{u} {g}");
    }
}

/// Checks one against the values; answers whether it is accepted.
fn assert_by_values(u: u64, g: u64, condition: &[u8], handed: &[u8]) -> bool {
    let values = transform(condition);
    let answers = accepted(u, g, condition, handed);
    let solves = is_zero_everywhere(u, &values, &choices_of(u, g, handed));
    assert_eq!(answers.is_some(), solves, "{u} {g} {condition:?} {handed:?}");
    if let Some(answers) = &answers {
        assert_general(u, &values, &choices_of(u, g, answers));
    }
    solves
}

/// Those that solve a condition are accepted, those that nearly do are told apart.
#[test]
fn larger_ones() {
    let random = &mut Random::new('H');
    let (mut nearly, mut others) = (0, 0);
    for (u, g) in pairs(0, 10) {
        let rounds = if u + g < 8 { 6 } else { 1 };
        for _ in 0..rounds {
            let condition = random.solvable(u, g);
            for kind in SOLVING {
                let handed = random.handed(kind, u, g, &condition);
                assert!(assert_by_values(u, g, &condition, &handed), "{kind:?}");
            }
            for kind in NEARLY {
                let handed = random.handed(kind, u, g, &condition);
                let is_accepted = assert_by_values(u, g, &condition, &handed);
                *(if is_accepted { &mut others } else { &mut nearly }) += 1;
            }
            let handed = random.simple(u, g);
            let condition = random.made_zero_by(u, g, &handed);
            assert!(assert_by_values(u, g, &condition, &handed));
        }
    }
    assert!(nearly > 500 && others > 50, "{nearly} {others}");
}

/// A condition that one choice solves, and handed polynomials that lead to it but at one point: they
/// are refused, whichever it is.
#[test]
fn one_point_is_seen() {
    let random = &mut Random::new('O');
    for (u, g) in pairs(1, 10).into_iter().filter(|&(u, _)| u > 0) {
        let (choices, length) = (1 << u, 1 << (u + g));
        let right = random.below(choices);
        let values: Vec<u8> = (0..length).map(|point| (point % choices != right) as u8).collect();
        let condition = transform(&values);
        let mut leads = vec![right; length];
        assert!(accepted(u, g, &condition, &tables_to(u, &leads)).is_some());
        let is_tried = |&point: &usize| u + g < 6 || point % 61 == 0 || point + 1 == length;
        for point in (0..length).filter(is_tried) {
            leads[point] = (right + 1 + random.below(choices - 1)) % choices;
            assert_eq!(accepted(u, g, &condition, &tables_to(u, &leads)), None, "{u} {g} {point}");
            leads[point] = right;
        }
    }
}

/// Where Boole says 'none' there is nothing to accept.
#[test]
fn none_accepts_nothing() {
    let random = &mut Random::new('N');
    for (u, g) in pairs(0, 10) {
        let state = random.below(1 << g);
        let condition = random.blocked(u, g, state);
        assert!(!has_solution(u, g, &condition));
        for kind in SOLVING.into_iter().chain(NEARLY) {
            let handed = random.handed(kind, u, g, &condition);
            assert_eq!(accepted(u, g, &condition, &handed), None, "{u} {g} {kind:?}");
        }
        let any = random.any_table(u as usize * condition.len());
        assert_eq!(accepted(u, g, &condition, &any), None);
    }
}

#[test]
fn rows_by_hand() {
    for (u, g, condition, handed, answers) in ROWS {
        let found = accepted(u, g, &tables_of(u, g, &[condition]), &tables_of(u, g, handed));
        let expected = answers.map(|texts| tables_of(u, g, texts));
        assert_eq!(found, expected, "{condition} with {handed:?}");
    }
}

/// The formula may give a solution out of polynomials that do not solve: what is handed is asked, not
/// what comes out.
#[test]
fn the_answer_would_not_tell() {
    let (u, one_plus_u, zero) = ([0, 1], [1, 1], [0, 0]);
    assert_eq!(accepted(1, 0, &u, &one_plus_u), None);
    let formula = |b: &[u8]| {
        let (mut inner, mut product_of, mut answer) = ([7; 2], [7; 2], [7; 2]);
        sum(1, 0, &u, b, &mut inner).expect("a sum");
        product(1, 0, &u, &inner, &mut product_of).expect("a product");
        sum(1, 0, &u, &product_of, &mut answer).expect("a sum");
        answer
    };
    assert_eq!(formula(&one_plus_u), zero);
}

/// 1, 4, 8, 21 without a fact: the first no counts, and nothing is changed.
#[test]
fn refusals() {
    let refused = |u: u64, g: u64, condition: &[u8], handed: &[u8], size: usize| {
        let mut answers = vec![7; size];
        let refusal = lowenheim_handed(u, g, &no_fact(u, g), condition, handed, &mut answers);
        assert_eq!(answers, vec![7; size]);
        refusal.expect_err("a refusal").0
    };
    assert_eq!(refused(7, 0, &[], &[], 0), 1);
    assert_eq!(refused(6, 5, &[2; 2048], &[2; 12288], 12288), 1);
    assert_eq!(refused(1, 1, &[0, 2, 1], &[0; 4], 4), 4);
    assert_eq!(refused(1, 1, &[0, 2, 1, 0], &[0; 3], 4), 4);
    assert_eq!(refused(1, 1, &[0, 2, 1, 0], &[0; 4], 3), 4);
    assert_eq!(refused(1, 1, &[0, 1, 1, 0], &[], 4), 4);
    assert_eq!(refused(1, 1, &[0, 1, 1, 0], &[0, 0, 1, 0], 0), 4);
    assert_eq!(refused(1, 1, &[0, 1, 1, 2], &[0; 4], 4), 8);
    assert_eq!(refused(1, 1, &[0, 1, 1, 0], &[0, 0, 0, 2], 4), 8);
    // it would solve, were 255 a 1
    assert_eq!(refused(1, 1, &[0, 1, 1, 0], &[0, 0, 255, 0], 4), 8);
    assert_eq!(refused(1, 1, &[0, 1, 1, 0, 9], &[0, 0, 0, 0, 9], 6), 21);
    assert_eq!(refused(0, 0, &[], &[], 0), 4);
    assert_eq!(refused(0, 0, &[2], &[], 0), 8);
    assert_eq!(refused(0, 0, &[1], &[], 0), 21);
    assert_eq!(refused(0, 0, &[1, 0], &[9], 3), 21);
    for (u, g) in TOO_LARGE {
        assert_eq!(refused(u, g, &[7], &[7], 1), 1);
    }
    for (u, g) in pairs(0, 10) {
        let length = 1 << (u + g);
        let (mut one, zeros) = (vec![0; length], vec![0; u as usize * length]);
        one[0] = 1;
        assert_eq!(refused(u, g, &one, &zeros, zeros.len()), 21);
        one[length - 1] = 2;
        assert_eq!(refused(u, g, &one, &zeros, zeros.len()), 8);
        assert_eq!(refused(u, g, &one[1..], &zeros, zeros.len()), 4);
    }
}

/// Bytes behind the condition and the handed polynomials are not asked, and those behind the answers
/// stay.
#[test]
fn bytes_behind_stay() {
    let mut answers = [7; 6];
    let (condition, handed) = ([0, 1, 1, 0, 9], [0, 0, 1, 0, 1, 9]);
    assert_eq!(lowenheim_handed(1, 1, &[0; 4], &condition, &handed, &mut answers), Ok(1));
    assert_eq!(answers, [0, 0, 1, 0, 7, 7]);
    assert_eq!(lowenheim_handed(0, 1, &[0; 2], &[0, 0, 1], &[1], &mut answers), Ok(0));
    assert_eq!(answers, [0, 0, 1, 0, 7, 7]);
}
