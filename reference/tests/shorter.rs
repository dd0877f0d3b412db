//! The shorter of two answer tables, by monomials and in plain Rust: against the ones in them, as the
//! lent table itself, and what plays no part; and refusals.

use reference::cases::facts::no_fact;
use reference::cases::orders::default_order;
use reference::cases::{every_table, ones, pairs, tables_of, Random, TOO_LARGE};
use reference::*;
use std::ptr;

#[derive(Debug, PartialEq)]
enum Which {
    Boole,
    Lowenheim,
}
use Which::{Boole, Lowenheim};

/// The lent table of which the part handed back is the start; plain Rust hands back the same part.
fn which_of(u: u64, g: u64, boole: &[u8], lowenheim: &[u8]) -> Which {
    assert!(!ptr::eq(boole.as_ptr(), lowenheim.as_ptr()));
    let part = shorter(u, g, boole, lowenheim).expect("a part");
    assert!(ptr::eq(part, plain::shorter(u, g, boole, lowenheim).expect("a part")));
    assert_eq!(part.len(), u as usize * (1 << (u + g)));
    if ptr::eq(part.as_ptr(), boole.as_ptr()) {
        return Boole;
    }
    assert!(ptr::eq(part.as_ptr(), lowenheim.as_ptr()));
    Lowenheim
}

/// Two tables as they are, and with ones behind one of them or both.
fn assert_shorter(u: u64, g: u64, boole: &[u8], lowenheim: &[u8]) -> Which {
    let expected = if ones(lowenheim) < ones(boole) { Lowenheim } else { Boole };
    let [longer_boole, longer_lowenheim] =
        [boole, lowenheim].map(|table| [table, &[1; 40]].concat());
    for (boole, lowenheim) in [
        (boole, lowenheim),
        (&longer_boole, lowenheim),
        (boole, &longer_lowenheim),
        (&longer_boole, &longer_lowenheim),
    ] {
        assert_eq!(which_of(u, g, boole, lowenheim), expected, "{boole:?} {lowenheim:?}");
    }
    expected
}

/// 0 if Boole's total is the smaller, 1 if they tie, 2 if Löwenheim's is.
fn sort_of(boole: &[u8], lowenheim: &[u8]) -> usize {
    (ones(boole).cmp(&ones(lowenheim)) as i8 + 1) as usize
}

/// Every two answer tables of one unknown and at most one given; of two unknowns a sample.
#[test]
fn every_small_one() {
    for (u, g, step) in [(1, 0, 1), (1, 1, 1), (2, 0, 7)] {
        let length = u as usize * (1 << (u + g));
        for boole in every_table(length) {
            for lowenheim in every_table(length).step_by(step) {
                assert_shorter(u, g, &boole, &lowenheim);
            }
        }
    }
}

/// Of larger ones Boole's is shorter, Löwenheim's is, and neither is.
#[test]
fn larger_ones() {
    let random = &mut Random::new('M');
    let mut counts = [0; 3];
    for (u, g) in pairs(1, 10).into_iter().filter(|&(u, _)| u > 0) {
        for _ in 0..20 {
            let [boole, lowenheim] = random.two_answers(u, g);
            assert_shorter(u, g, &boole, &lowenheim);
            counts[sort_of(&boole, &lowenheim)] += 1;
        }
    }
    assert!(counts.iter().all(|&count| count > 100), "{counts:?}");
}

/// Boole's and the own Löwenheim answers in the order 0, 1, 2 and so on, if there is a solution.
fn both_answers(u: u64, g: u64, condition: &[u8]) -> Option<[Vec<u8>; 2]> {
    let [mut by_boole, mut by_lowenheim] = [(); 2].map(|()| vec![7; u as usize * condition.len()]);
    let (order, fact) = (default_order(u), no_fact(u, g));
    let solved = boole(u, g, order, &fact, condition, &mut by_boole);
    if let Ok(Solved::None(_)) = solved {
        return None;
    }
    assert_eq!(solved, Ok(Solved::Done { monomials: ones(&by_boole) }));
    let solved = lowenheim(u, g, order, &fact, condition, &mut by_lowenheim);
    assert_eq!(solved, Ok(Solved::Done { monomials: ones(&by_lowenheim) }));
    Some([by_boole, by_lowenheim])
}

/// By hand: v and v against u*v twice; u+u*v and v against u+u*v and v+u*v; u+v+u*v and v against u
/// and u*v. Over every condition of three letters each is the shorter for some.
#[test]
fn answers_to_conditions() {
    for (text, expected) in [("u+v", Boole), ("u*v", Boole), ("v+u*v", Lowenheim)] {
        let condition = tables_of(2, 0, &[text]);
        let [boole, lowenheim] = both_answers(2, 0, &condition).expect("a solution");
        assert_eq!(assert_shorter(2, 0, &boole, &lowenheim), expected, "{text}");
    }
    for (u, g) in [(2, 1), (3, 0)] {
        let mut counts = [0; 3];
        for [boole, lowenheim] in every_table(8).filter_map(|table| both_answers(u, g, &table)) {
            assert_shorter(u, g, &boole, &lowenheim);
            counts[sort_of(&boole, &lowenheim)] += 1;
        }
        assert!(counts.iter().all(|&count| count > 20), "{u} {g} {counts:?}");
    }
}

/// The largest totals, of six tables of ten letters, and the smallest; one monomial is seen wherever
/// it is.
#[test]
fn the_longest_tables() {
    let (all, none) = (vec![1; 6_144], vec![0; 6_144]);
    assert_eq!(assert_shorter(6, 4, &all, &all.clone()), Boole);
    assert_eq!(assert_shorter(6, 4, &all, &none), Lowenheim);
    for place in [0, 31, 32, 255, 256, 1_023, 1_024, 6_143] {
        let (mut fewer, mut one) = (all.clone(), none.clone());
        (fewer[place], one[place]) = (0, 1);
        assert_eq!(assert_shorter(6, 4, &all, &fewer), Lowenheim);
        assert_eq!(assert_shorter(6, 4, &fewer, &all), Boole);
        assert_eq!(assert_shorter(6, 4, &one, &none), Lowenheim);
        assert_eq!(assert_shorter(6, 4, &none, &one), Boole);
    }
}

/// Without unknowns the totals tie, and the part is the start of Boole's table, whatever stands there.
#[test]
fn no_unknowns() {
    for g in 0..=8 {
        let bytes = [9, 1, 1, 0, 7, 7];
        for (boole, lowenheim) in
            [(&bytes[..3], &bytes[3..]), (&bytes[5..], &bytes[..5]), (&bytes[2..2], &bytes[3..3])]
        {
            assert_eq!(which_of(0, g, boole, lowenheim), Boole);
        }
    }
}

/// One table lent for both is Boole's; two that overlap are two.
#[test]
fn lent_bytes_shared() {
    let table = [0, 1, 0, 1, 7];
    for found in [shorter(1, 1, &table, &table), plain::shorter(1, 1, &table, &table)] {
        assert!(ptr::eq(found.expect("a part"), &table[..4]));
    }
    let bytes = [1, 1, 0, 1, 0, 1];
    assert_eq!(which_of(1, 1, &bytes[2..], &bytes[1..]), Boole);
    assert_eq!(which_of(1, 1, &bytes, &bytes[1..]), Lowenheim);
}

/// The number of the first no, by both.
fn refused(u: u64, g: u64, boole: &[u8], lowenheim: &[u8]) -> u8 {
    let refusal = shorter(u, g, boole, lowenheim).expect_err("a refusal");
    assert_eq!(plain::shorter(u, g, boole, lowenheim), Err(refusal));
    refusal.0
}

/// 1, 4, 8.
#[test]
fn refusals() {
    for (u, g) in TOO_LARGE {
        assert_eq!(refused(u, g, &[], &[]), 1);
        assert_eq!(refused(u, g, &[7; 20], &[2; 20]), 1);
    }
    assert_eq!(refused(1, 1, &[0, 2, 1], &[0; 4]), 4);
    assert_eq!(refused(1, 1, &[0, 2, 1, 0], &[2, 0, 0]), 4);
    assert_eq!(refused(1, 1, &[], &[0; 4]), 4);
    assert_eq!(refused(1, 1, &[0; 4], &[]), 4);
    assert_eq!(refused(2, 0, &[0; 8], &[0; 7]), 4);
    assert_eq!(refused(1, 1, &[0, 0, 0, 2, 1], &[0, 1, 1, 0]), 8);
    assert_eq!(refused(1, 1, &[0, 1, 1, 0], &[255, 0, 0, 0]), 8);
    assert_eq!(refused(1, 1, &[2, 1, 1, 0], &[255, 0, 0, 0]), 8);
}

/// One byte too few, or one byte over 1, anywhere; behind the length none is asked.
#[test]
fn every_byte_is_asked() {
    for (u, g) in pairs(1, 10).into_iter().filter(|&(u, _)| u > 0) {
        let right = vec![0; u as usize * (1 << (u + g))];
        assert_eq!(refused(u, g, &right[1..], &right), 4);
        assert_eq!(refused(u, g, &right, &right[1..]), 4);
        for place in 0..right.len() {
            let mut wrong = right.clone();
            wrong[place] = [2, 3, 128, 254, 255][place % 5];
            assert_eq!(refused(u, g, &wrong, &right), 8);
            assert_eq!(refused(u, g, &right, &wrong), 8);
        }
        let longer = [&right[..], &[9, 255]].concat();
        assert_eq!(which_of(u, g, &longer, &right), Boole);
    }
}

/// Bytes over 1 that add up to what they would if they were none: counters of eight bits do not hide
/// them.
#[test]
fn bytes_that_cancel() {
    let right = vec![0; 6_144];
    for (a, b) in [(255, 1), (128, 128), (254, 2)] {
        for distance in [1, 8, 16, 32, 64, 128, 256, 1_024] {
            let mut wrong = right.clone();
            (wrong[5], wrong[5 + distance]) = (a, b);
            assert_eq!(refused(6, 4, &wrong, &right), 8);
            assert_eq!(refused(6, 4, &right, &wrong), 8);
        }
    }
}
