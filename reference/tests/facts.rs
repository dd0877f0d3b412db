//! Facts: rows by hand, questions 22 and 23 against the values in every state, what a fact leaves out,
//! kind 7 to the byte and damaged, and the order of the questions.

#[path = "common/accepted.rs"]
mod accepted;

use accepted::accepted_under;
use reference::cases::entries::{entry_in, entry_under, split};
use reference::cases::facts::{counted, leaving_out, no_fact, one, wrong_facts, ROWS};
use reference::cases::handed::{NEARLY, SOLVING};
use reference::cases::orders::default_order;
use reference::cases::{every_table, ones, pairs, tables_of, values_of, Random};
use reference::*;

type Method = fn(u64, u64, Order, &[u8], &[u8], &mut [u8]) -> Result<Solved, Refusal>;

const METHODS: [Method; 3] = [boole, particular, lowenheim];

/// What a call that solves answers, and its answer buffer.
fn solved(
    method: Method,
    (u, g, order): (u64, u64, Order),
    fact: &[u8],
    condition: &[u8],
) -> (Result<Solved, Refusal>, Vec<u8>) {
    let mut answers = vec![7; u as usize * (1 << (u + g))];
    (method(u, g, order, fact, condition, &mut answers), answers)
}

#[test]
fn rows_by_hand() {
    for (u, g, fact, condition, expected) in ROWS {
        let (fact, table) = (tables_of(u, g, &[fact]), tables_of(u, g, &[condition]));
        let (answer, answers) = solved(boole, (u, g, default_order(u)), &fact, &table);
        match expected {
            Ok(texts) => {
                assert_eq!(answers, tables_of(u, g, texts), "{condition}");
                let monomials = ones(&answers);
                assert_eq!(answer, Ok(Solved::Done { monomials }), "{condition}");
            }
            Err(state) => assert_eq!(answer, Ok(Solved::None(State(state))), "{condition}"),
        }
    }
}

/// A fact is refused by 22 exactly if one of its monomials has an unknown, and by 23 exactly if it is 1
/// in every state; by every call that takes one.
#[test]
fn every_small_fact() {
    for (u, g) in pairs(0, 3) {
        let condition = no_fact(u, g);
        for fact in every_table(condition.len()) {
            let has_unknown = |mask: usize| fact[mask] == 1 && mask & ((1 << u) - 1) != 0;
            let values = values_of(u, g, &fact);
            let expected = if (0..fact.len()).any(has_unknown) {
                Some(Refusal(22))
            } else if values.iter().all(|&value| value == 1) {
                Some(Refusal(23))
            } else {
                None
            };
            for method in METHODS {
                let (answer, _) = solved(method, (u, g, default_order(u)), &fact, &condition);
                assert_eq!(answer.err(), expected, "{u} {g} {fact:?}");
            }
            let (handed, mut answers) = (vec![0; u as usize * fact.len()], [7; 24]);
            let answer = lowenheim_handed(u, g, &fact, &condition, &handed, &mut answers);
            assert_eq!(answer.err(), expected);
            let mut bytes = [7; 100];
            let written = write_entry(9, u, g, default_order(u), &fact, &condition, &mut bytes);
            assert_eq!(written.err(), expected);
            let entry =
                cases::entries::built(default_order(u), 9, u, g, &fact, &condition, &handed);
            let (mut order, mut read, mut table) = (Order([7; 6]), [7; 8], [7; 8]);
            let reading = read_entry(&entry, &mut order, &mut read, &mut table, &mut answers);
            assert_eq!(reading.err(), expected);
            assert_eq!(audit(&entry).err().filter(|refusal| refusal.0 != 13), expected);
        }
    }
}

/// A fact of 0 gives the entry without kind 7. Under any other, the answers, or the state, are those of
/// f*(1 + g) without a fact; kind 7 holds g and kind 2 holds f.
#[test]
fn an_entry_is_that_of_the_product() {
    let random = &mut Random::new('P');
    for (u, g) in pairs(0, 8) {
        for _ in 0..4 {
            let (fact, table) = random.under_fact(u, g);
            let order = random.order(u);
            let records = split(&entry_under(order, 9, u, g, &fact, &table));
            let of_kind = |records: &[Vec<u8>], kinds: &[u8]| -> Vec<Vec<u8>> {
                records.iter().filter(|record| kinds.contains(&record[0])).cloned().collect()
            };
            let without = split(&entry_in(order, 9, u, g, &counted(&fact, &table)));
            assert_eq!(of_kind(&without, &[7]), Vec::<Vec<u8>>::new());
            assert_eq!(of_kind(&records, &[1, 6, 3, 5, 4]), of_kind(&without, &[1, 6, 3, 5, 4]));
            let by_itself = split(&entry_in(order, 9, u, g, &table));
            assert_eq!(of_kind(&records, &[2]), of_kind(&by_itself, &[2]));
            let masks = of_kind(&records, &[7]).into_iter().map(|record| {
                let mask = u16::from_le_bytes([record[1], record[2]]);
                assert_eq!(fact[mask as usize], 1);
                (mask.count_ones(), mask)
            });
            assert!(masks.clone().is_sorted_by(|a, b| a < b));
            assert_eq!(masks.count(), fact.iter().filter(|&&byte| byte == 1).count());
        }
    }
}

/// Conditions that differ only where g is 1 have the same answers, or the same state.
#[test]
fn what_is_left_out_plays_no_part() {
    let random = &mut Random::new('L');
    let mut differing = 0;
    for (u, g) in pairs(0, 8) {
        for _ in 0..6 {
            let (fact, condition) = random.under_fact(u, g);
            let other = random.any_table(condition.len());
            // f where g is 0, another condition where it is 1
            let mut product_of = vec![7; condition.len()];
            product(u, g, &fact, &other, &mut product_of).expect("a product");
            let mut mixed = vec![7; condition.len()];
            sum(u, g, &counted(&fact, &condition), &product_of, &mut mixed).expect("a sum");
            differing += (mixed != condition) as usize;
            let order = random.order(u);
            for method in METHODS {
                let found = solved(method, (u, g, order), &fact, &condition);
                assert_eq!(solved(method, (u, g, order), &fact, &mixed), found);
            }
            for kind in SOLVING.into_iter().chain(NEARLY) {
                let handed = random.handed(kind, u, g, &counted(&fact, &condition));
                let found = accepted_under(u, g, &fact, &condition, &handed);
                assert_eq!(accepted_under(u, g, &fact, &mixed, &handed), found);
            }
        }
    }
    assert!(differing > 50, "{differing}");
}

/// Every fact and every condition over one unknown and two givens: 'none' exactly if some state with
/// g = 0 has no choice, with the smallest such state; else the answers make f zero wherever g is 0,
/// and a choice that solves, or any where g is 1, comes back.
#[test]
fn every_fact_with_every_condition() {
    let (u, g) = (1, 2);
    let facts = every_table(4).map(|over_givens| -> Vec<u8> {
        over_givens.into_iter().flat_map(|byte| [byte, 0]).collect()
    });
    for fact in facts.filter(|fact| *fact != one(u, g)) {
        let left_out = values_of(u, g, &fact);
        for condition in every_table(8) {
            let values = values_of(u, g, &condition);
            let has_no_choice = |state: &usize| {
                left_out[2 * state] == 0 && values[2 * state..2 * state + 2] == [1, 1]
            };
            let blocked = (0..4).find(has_no_choice);
            let (answer, answers) = solved(boole, (u, g, default_order(u)), &fact, &condition);
            if let Some(state) = blocked {
                assert_eq!(answer, Ok(Solved::None(State(state as u64))));
                continue;
            }
            assert_eq!(answer, Ok(Solved::Done { monomials: ones(&answers) }));
            for (point, &choice) in values_of(u, g, &answers).iter().enumerate() {
                let led_to = point & !1 | choice as usize;
                assert!(left_out[point] == 1 || values[led_to] == 0);
                assert!(led_to == point || left_out[point] == 0 && values[point] == 1);
            }
        }
    }
}

const ROW: [&[u8]; 11] = [
    &[1, 7, 1, 2],
    &[7, 6, 0],
    &[2, 4, 0],
    &[2, 3, 0],
    &[2, 5, 0],
    &[3, 0, 1, 0],
    &[3, 0, 4, 0],
    &[3, 0, 3, 0],
    &[3, 0, 5, 0],
    &[3, 0, 6, 0],
    &[4, 7],
];

/// Reads records into buffers of 7s. A refusal, the same as the audit's but for 13, changes none.
fn read(records: &[&[u8]]) -> (Result<usize, u8>, Order, [u8; 9]) {
    let bytes = records.concat();
    let (mut order, mut fact) = (Order([7; 6]), [7; 9]);
    let (mut condition, mut answers) = ([7; 9], [7; 17]);
    let read = read_entry(&bytes, &mut order, &mut fact, &mut condition, &mut answers);
    match read {
        Err(refusal) => {
            assert_eq!(audit(&bytes), Err(refusal));
            assert_eq!((order, fact), (Order([7; 6]), [7; 9]));
            assert_eq!((condition, answers), ([7; 9], [7; 17]));
        }
        Ok(reading) => {
            assert!(audit(&bytes) == Ok(reading) || audit(&bytes) == Err(Refusal(13)));
        }
    }
    (read.map(|reading| reading.length).map_err(|refusal| refusal.0), order, fact)
}

/// The bytes of `a*u+b*u+b` with the fact a*b, and each way in which kind 7 is wrong.
#[test]
fn kind_7() {
    let (fact, row) = (tables_of(1, 2, &["a*b"]), tables_of(1, 2, &["a*u+b*u+b"]));
    let mut bytes = [9; 40];
    assert_eq!(write_entry(7, 1, 2, default_order(1), &fact, &row, &mut bytes), Ok(38));
    assert_eq!(bytes[..38], ROW.concat());
    assert_eq!(bytes[38..], [9; 2]);
    assert_eq!(audit(&bytes).map(|reading| reading.length), Ok(38));
    assert_eq!(read(&ROW), (Ok(38), default_order(1), [0, 0, 0, 0, 0, 0, 1, 0, 7]));
    let [start, ab, inner @ .., end] = ROW;
    // without it g is 0, and the answers are not those solved afresh
    let without = [&[start][..], &inner, &[end]].concat();
    assert_eq!(read(&without).2, [0, 0, 0, 0, 0, 0, 0, 0, 7]);
    assert_eq!(audit(&without.concat()), Err(Refusal(13)));
    // its place, and its body: the missing byte is taken from what follows
    let [b, ua, ub, ..] = inner;
    assert_eq!(read(&[ab, start, b, end]).0, Err(11));
    assert_eq!(read(&[start, b, ab, ua, end]).0, Err(11));
    assert_eq!(read(&[start, b, inner[3], ab, end]).0, Err(11));
    assert_eq!(read(&[start, &[5, 0], ab, end]).0, Err(11));
    assert_eq!(read(&[start, &ab[..2], end]).0, Err(10));
    assert_eq!(read(&[start, &ab[..2]]).0, Err(10));
    assert_eq!(read(&[start, ab]).0, Err(10));
    assert_eq!(read(&[start, &[8, 0, 0], end]).0, Err(10));
    let order: &[u8] = &[6, 1, 0, 255, 255, 255, 255];
    let two: &[u8] = &[1, 7, 2, 1];
    let a: &[u8] = &[7, 4, 0];
    assert_eq!(read(&[two, order, a, end]).0, Ok(16));
    assert_eq!(read(&[two, a, order, end]).0, Err(11));
    // written order, none twice, below 2^n: 12, before 17, 22 and 23
    let (one, of_a, of_b, of_u): (&[u8], &[u8], &[u8], &[u8]) =
        (&[7, 0, 0], &[7, 2, 0], &[7, 4, 0], &[7, 1, 0]);
    assert_eq!(read(&[start, one, of_a, of_b, ab, b, ua, ub, end]).0, Ok(27));
    assert_eq!(read(&[start, ab, of_a, end]).0, Err(12));
    assert_eq!(read(&[start, of_b, of_a, end]).0, Err(12));
    assert_eq!(read(&[start, ab, ab, end]).0, Err(12));
    assert_eq!(read(&[start, one, one, end]).0, Err(12));
    assert_eq!(read(&[start, &[7, 8, 0], end]).0, Err(12));
    assert_eq!(read(&[start, &[7, 2, 1], end]).0, Err(12));
    assert_eq!(read(&[start, of_u, one, end]).0, Err(12));
    assert_eq!(read(&[start, of_u, &[2, 8, 0], end]).0, Err(12));
    assert_eq!(read(&[start, &[6, 9, 9, 9, 9, 9, 9], of_u, end]).0, Err(17));
    // 22 before 23; both before 4 and 13
    assert_eq!(read(&[start, of_u, end]).0, Err(22));
    assert_eq!(read(&[start, &[7, 3, 0], &[5, 0], end]).0, Err(22));
    assert_eq!(read(&[start, one, of_u, end]).0, Err(22));
    assert_eq!(read(&[start, one, end]).0, Err(23));
    assert_eq!(read(&[start, one, b, &[5, 2], end]).0, Err(23));
    for (records, number) in [([start, of_u, end], 22), ([start, one, end], 23)] {
        let bytes = records.concat();
        let read = read_entry(&bytes, &mut Order([7; 6]), &mut [], &mut [], &mut []);
        assert_eq!(read, Err(Refusal(number)));
    }
}

/// A 'none' entry fills the buffer of the fact, zeros where it holds none; 4 is asked of it.
#[test]
fn the_buffer_of_the_fact() {
    let condition = tables_of(1, 2, &["1"]);
    for text in ["a", "0"] {
        let fact = tables_of(1, 2, &[text]);
        let bytes = entry_under(default_order(1), 7, 1, 2, &fact, &condition);
        let (mut order, mut read_fact) = (Order([7; 6]), [7; 10]);
        let (mut table, mut answers) = ([7; 8], [7; 8]);
        for (length, answers_length) in [(7, 8), (0, 8), (8, 7)] {
            let read = read_entry(
                &bytes,
                &mut order,
                &mut read_fact[..length],
                &mut table,
                &mut answers[..answers_length],
            );
            assert_eq!(read, Err(Refusal(4)));
            assert_eq!((order, read_fact, table), (Order([7; 6]), [7; 10], [7; 8]));
        }
        let reading = read_entry(&bytes, &mut order, &mut read_fact, &mut table, &mut answers);
        assert_eq!(reading.map(|reading| reading.contents), Ok(Contents::None(State(0))));
        assert_eq!(read_fact, [&fact[..], &[7, 7]].concat()[..]);
        assert_eq!((&table[..], answers), (&condition[..], [7; 8]));
    }
}

/// 1, 17, 4, 8, 22, 23, 9 when solving; 1, 4, 8, 22, 23, 21 for the handed form; 1, 2, 17, 4, 8, 22, 23,
/// 14 when writing.
#[test]
fn places_of_the_questions() {
    let (u, one, right, byte) = ([0, 1, 0, 0], [1, 0, 0, 0], [0; 5], [0, 0, 0, 2]);
    let (order, wrong) = (default_order(1), Order([0; 6]));
    for (order, fact, condition, size, expected) in [
        (wrong, &byte[..3], &byte[..3], 3, Err(Refusal(17))),
        (order, &byte[..3], &byte, 4, Err(Refusal(4))),
        (order, &[], &one, 4, Err(Refusal(4))),
        (order, &u, &byte[..3], 4, Err(Refusal(4))),
        (order, &u, &one, 3, Err(Refusal(4))),
        (order, &byte, &one, 4, Err(Refusal(8))),
        (order, &u, &byte, 4, Err(Refusal(8))),
        (order, &one, &byte, 4, Err(Refusal(8))),
        (order, &u, &one, 4, Err(Refusal(22))),
        (order, &one, &one, 4, Err(Refusal(23))),
        (order, &right, &one, 4, Ok(Solved::None(State(0)))),
    ] {
        for method in METHODS {
            let mut answers = vec![7; size];
            assert_eq!(method(7, 1, order, fact, condition, &mut answers), Err(Refusal(1)));
            assert_eq!(method(1, 1, order, fact, condition, &mut answers), expected);
            assert_eq!(answers, vec![7; size]);
        }
        if order != wrong {
            let mut answers = vec![7; size];
            let handed = lowenheim_handed(1, 1, fact, condition, &[0; 4], &mut answers);
            assert_eq!(handed, Err(expected.err().unwrap_or(Refusal(21))));
            let handed = lowenheim_handed(1, 1, fact, condition, &[0, 0, 0], &mut answers);
            assert_eq!(handed, Err(Refusal(4)));
            assert_eq!(answers, vec![7; size]);
        }
        // writing is lent no answer buffer, and has no room here
        let expected = match expected {
            Err(Refusal(4)) if size == 3 => Refusal(22),
            Err(refusal) => refusal,
            Ok(_) => Refusal(14),
        };
        let mut output = [7; 8];
        for (route, expected) in [(251, Refusal(2)), (250, expected)] {
            let written = write_entry(route, 1, 1, order, fact, condition, &mut output);
            assert_eq!(written, Err(expected));
        }
        assert_eq!(output, [7; 8]);
    }
}

/// 8 goes to every byte as far as 2^n, of the fact too; those behind are neither asked nor changed.
#[test]
fn bytes_behind_stay() {
    let (fact, condition) = ([0, 0, 1, 0, 9, 1], [0, 1, 1, 0, 7]);
    let mut answers = [7; 6];
    let solved = boole(1, 1, default_order(1), &fact, &condition, &mut answers);
    assert_eq!(solved, Ok(Solved::Done { monomials: 1 }));
    // u*(1 + a) has no part in state 1
    assert_eq!(answers, [0, 0, 0, 1, 7, 7]);
    for place in 0..4 {
        let mut spoiled = fact;
        spoiled[place] = 255;
        let refused = boole(1, 1, default_order(1), &spoiled, &condition, &mut answers);
        assert_eq!(refused, Err(Refusal(8)));
    }
    assert_eq!(answers, [0, 0, 0, 1, 7, 7]);
}

/// The generators give what they promise: right facts of every sort, and wrong ones.
#[test]
fn facts_of_every_sort() {
    let random = &mut Random::new('G');
    for (u, g) in pairs(0, 8) {
        let condition = no_fact(u, g);
        let mut counts = [0; 3];
        for _ in 0..40 {
            let fact = random.fact(u, g);
            let (answer, answers) = solved(boole, (u, g, default_order(u)), &fact, &condition);
            assert_eq!(answer, Ok(Solved::Done { monomials: ones(&answers) }));
            counts[fact.iter().filter(|&&byte| byte == 1).count().min(2)] += 1;
        }
        assert!(counts[0] > 0 && (g == 0 || counts[1] > 0), "{u} {g} {counts:?}");
        assert!(g < 2 || counts[2] > 10, "{u} {g} {counts:?}");
        for fact in wrong_facts(u, g) {
            let (answer, _) = solved(boole, (u, g, default_order(u)), &fact, &condition);
            assert!([Err(Refusal(22)), Err(Refusal(23))].contains(&answer));
        }
    }
    let fact = leaving_out(1, 2, |state| state == 3);
    assert_eq!(fact, tables_of(1, 2, &["a*b"]));
}
