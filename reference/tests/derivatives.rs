//! The vectorial derivative against the values before and after the flip, point by point; the laws
//! of request C-13; rows by hand; and refusals.

use reference::cases::{
    every_table, ones, pairs, tables_of, values_of, Random, TOO_LARGE, UNDECLARED,
};
use reference::plain::{self, transform, Block, Bytes};
use reference::*;

fn derivative_of(u: u64, g: u64, table: &[u8], s: u64) -> Vec<u8> {
    let mut result = vec![7; 1 << (u + g)];
    assert_eq!(derivative(u, g, table, s, &mut result), Ok(()));
    result
}

fn sum_of(u: u64, g: u64, a: &[u8], b: &[u8]) -> Vec<u8> {
    let mut result = vec![7; 1 << (u + g)];
    let count = sum(u, g, a, b, &mut result);
    assert_eq!(count, Ok(ones(&result)));
    result
}

/// At each point, whether flipping the letters of S there changes the value.
fn changes(values: &[u8], s: u64) -> Vec<u8> {
    (0..values.len()).map(|point| values[point] ^ values[point ^ s as usize]).collect()
}

/// Every table over at most three letters, by every S: the values are those of the flip, it is empty
/// exactly when no flip changes a value, so for an empty S, and a second one by the same S is empty.
#[test]
fn every_small_table() {
    let (mut empty, mut other) = (0, 0);
    for (u, g) in pairs(0, 3) {
        for table in every_table(1 << (u + g)) {
            let before = values_of(u, g, &table);
            for s in 0..1 << (u + g) {
                let found = derivative_of(u, g, &table, s);
                let changes = changes(&before, s);
                assert_eq!(values_of(u, g, &found), changes, "{u} {g} {table:?} {s}");
                let is_empty = found.iter().all(|&byte| byte == 0);
                assert_eq!(is_empty, changes.iter().all(|&change| change == 0));
                assert!(is_empty || s != 0);
                let twice = derivative_of(u, g, &found, s);
                assert!(twice.iter().all(|&byte| byte == 0), "{u} {g} {table:?} {s}");
                *(if is_empty { &mut empty } else { &mut other }) += 1;
            }
        }
    }
    assert!(empty > 1_000 && other > 5_000, "{empty} {other}");
}

/// Every two tables over at most two letters.
#[test]
fn every_small_sum() {
    for (u, g) in pairs(0, 2) {
        for a in every_table(1 << (u + g)) {
            for b in every_table(1 << (u + g)) {
                for s in 0..1 << (u + g) {
                    assert_sum(u, g, &a, &b, s);
                }
            }
        }
    }
}

fn assert_sum(u: u64, g: u64, a: &[u8], b: &[u8], s: u64) {
    let of_sum = derivative_of(u, g, &sum_of(u, g, a, b), s);
    let sum = sum_of(u, g, &derivative_of(u, g, a, s), &derivative_of(u, g, b, s));
    assert_eq!(of_sum, sum, "{u} {g} {a:?} {b:?} {s}");
}

/// No letter, each letter, all letters, and some sets between.
fn sets(random: &mut Random, letters: u64) -> Vec<u64> {
    let single = (0..letters).map(|letter| 1 << letter);
    let any = (0..4).map(|_| random.below(1 << letters) as u64);
    [0, (1 << letters) - 1].into_iter().chain(single).chain(any).collect()
}

#[test]
fn the_laws_of_larger_tables() {
    let random = &mut Random::new('D');
    for (u, g) in pairs(4, 10) {
        let length = 1 << (u + g);
        for s in sets(random, u + g) {
            let (a, b) = (random.any_table(length), random.any_table(length));
            let found = derivative_of(u, g, &a, s);
            assert_eq!(transform(&found), changes(&transform(&a), s), "{u} {g} {s}");
            assert_eq!(derivative_of(u, g, &found, s), vec![0; length]);
            assert_eq!(derivative_of(u, g, &a, 0), vec![0; length]);
            assert_sum(u, g, &a, &b, s);
        }
    }
}

/// A table that no flip changes has the empty derivative; one value changed, the derivative is 1 at
/// that point and at the one that flips to it.
#[test]
fn one_value_is_seen() {
    let random = &mut Random::new('O');
    for (u, g) in pairs(1, 10) {
        let length = 1 << (u + g);
        for s in sets(random, u + g).into_iter().filter(|&s| s != 0) {
            let any = random.table(length, 2);
            let mut same: Vec<u8> = (0..length).map(|p| any[p.min(p ^ s as usize)]).collect();
            assert_eq!(derivative_of(u, g, &transform(&same), s), vec![0; length]);
            let point = random.below(length);
            same[point] ^= 1;
            let mut expected = vec![0; length];
            expected[point] = 1;
            expected[point ^ s as usize] = 1;
            assert_eq!(transform(&derivative_of(u, g, &transform(&same), s)), expected);
        }
    }
}

/// Polynomials worked out by hand. Bit j of S is unknown j, bit U + i is given i.
#[test]
fn derivatives_by_hand() {
    for (u, g, text, s, expected) in [
        (0, 0, "1", 0, "0"),
        (1, 0, "u", 1, "1"),
        (2, 0, "u*v", 0b01, "v"),
        (2, 0, "u*v", 0b10, "u"),
        // u*v + (1 + u)*(1 + v)
        (2, 0, "u*v", 0b11, "1+u+v"),
        (2, 0, "u+v", 0b11, "0"),
        (2, 0, "u|v", 0b11, "1+u+v"),
        (1, 1, "u*a", 0b01, "a"),
        (1, 1, "u*a", 0b10, "u"),
        (1, 2, "a*u+b*u+b", 0b001, "a+b"),
        (1, 2, "a*u+b*u+b", 0b010, "u"),
        (1, 2, "a*u+b*u+b", 0b100, "u+1"),
        (1, 2, "a*u+b*u+b", 0b110, "1"),
        (1, 2, "a*u+b*u+b", 0b111, "1+a+b"),
        (1, 3, "u*(a+b)*c", 0b0110, "0"),
        (1, 3, "u*(a+b)*c", 0b1010, "u*(1+a+b+c)"),
    ] {
        let found = derivative_of(u, g, &tables_of(u, g, &[text]), s);
        assert_eq!(found, tables_of(u, g, &[expected]), "{text} by {s:b}");
    }
}

/// The first no counts, and nothing is changed.
#[test]
fn refusals() {
    let refused = |u: u64, g: u64, table: &[u8], s: u64, size: usize| {
        let mut result = vec![7; size];
        let refusal = derivative(u, g, table, s, &mut result).expect_err("a refusal");
        assert_eq!(result, vec![7; size]);
        refusal.0
    };
    assert_eq!(refused(7, 0, &[], u64::MAX, 0), 1);
    assert_eq!(refused(6, 5, &[2; 2048], 1 << 11, 2048), 1);
    assert_eq!(refused(1, 1, &[0, 0, 2], 4, 4), 4);
    assert_eq!(refused(1, 1, &[0, 0, 2, 0], 4, 3), 4);
    assert_eq!(refused(1, 1, &[], 0, 4), 4);
    assert_eq!(refused(1, 1, &[0, 0, 1, 0], 0, 0), 4);
    assert_eq!(refused(1, 1, &[0, 0, 1, 2], 4, 4), 8);
    assert_eq!(refused(1, 1, &[255, 0, 1, 0], 0, 4), 8);
    assert_eq!(refused(1, 1, &[0, 0, 1, 0, 9], 4, 5), 20);
    assert_eq!(refused(0, 0, &[1], 1, 1), 20);
    assert_eq!(refused(2, 8, &[0; 1024], 1024, 1024), 20);
    assert_eq!(refused(6, 4, &[1; 1024], u64::MAX, 1030), 20);
    for (u, g) in TOO_LARGE {
        assert_eq!(derivative(u, g, &[7], 1 << 20, &mut []), Err(Refusal(1)));
    }
    for (u, g) in pairs(0, 10) {
        let table = vec![0; 1 << (u + g)];
        for bit in 0..64 {
            let expected = if bit < u + g { Ok(()) } else { Err(Refusal(20)) };
            assert_eq!(derivative(u, g, &table, 1 << bit, &mut table.clone()), expected);
        }
        for s in UNDECLARED {
            assert_eq!(derivative(u, g, &table, s, &mut table.clone()), Err(Refusal(20)));
        }
    }
}

/// Bytes behind the table are not asked, and those behind the result stay.
#[test]
fn bytes_behind_stay() {
    let mut result = [7; 6];
    assert_eq!(derivative(1, 1, &[0, 0, 0, 1, 9], 3, &mut result), Ok(()));
    assert_eq!(result, [1, 1, 1, 0, 7, 7]);
}

/// Both forms of plain Rust, by every S.
#[test]
fn plain_derivatives_agree() {
    assert_plain_agrees::<Bytes>('Y');
    assert_plain_agrees::<u64>('Z');
}

fn assert_plain_agrees<B: Block>(seed: char) {
    let random = &mut Random::new(seed);
    for (u, g) in pairs(0, 10) {
        let length = 1 << (u + g);
        let table = random.table(length, 2);
        for s in (0..=length as u64).chain(UNDECLARED) {
            let (mut expected, mut found) = (vec![7; length + 3], vec![7; length + 3]);
            let answer = derivative(u, g, &table, s, &mut expected);
            assert_eq!(plain::derivative::<B>(u, g, &table, s, &mut found), answer, "{u} {g} {s}");
            assert_eq!(found, expected, "{u} {g} {s}");
        }
    }
}
