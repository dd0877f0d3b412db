//! Every call and the sheet, by monomials and in both forms of plain Rust, against each other:
//! results and lent bytes, refusals too.

mod common;

use common::{all_letters, Random};
use reference::cases::facts::{counted, no_fact, wrong_facts};
use reference::cases::handed::{NEARLY, SOLVING};
use reference::cases::orders::wrong_orders;
use reference::plain::{self, Block, Bytes};
use reference::*;
use std::fmt::Debug;

/// Holds a call by values against the call by monomials, on a lent buffer of 7s.
fn assert_agree<R: PartialEq + Debug>(
    length: usize,
    by_monomials: impl FnOnce(&mut [u8]) -> R,
    by_table: impl FnOnce(&mut [u8]) -> R,
) {
    let (mut first, mut second) = (vec![7; length], vec![7; length]);
    let expected = by_monomials(&mut first);
    assert_eq!(by_table(&mut second), expected);
    assert_eq!(first, second, "{expected:?}");
}

/// Mostly as it is; else longer, shorter, or with a byte that is no value.
fn perhaps_damaged(mut table: Vec<u8>, random: &mut Random) -> Vec<u8> {
    match random.below(12) {
        0 => table.push(9),
        1 => drop(table.pop()),
        2 if !table.is_empty() => {
            let place = random.below(table.len());
            table[place] = 2 + random.below(254) as u8;
        }
        _ => {}
    }
    table
}

/// Mostly the needed length; else longer or shorter.
fn room(needed: usize, random: &mut Random) -> usize {
    [needed, needed, needed + 3, needed.saturating_sub(1)][random.below(4)]
}

fn assert_operations_agree<E: Block>(letters: Letters, random: &mut Random) {
    let (u, g) = (letters.unknowns as u64, letters.givens as u64);
    let length = letters.table_length();
    let a = perhaps_damaged(random.table(length), random);
    let b = perhaps_damaged(random.table(length), random);
    let handed = perhaps_damaged(random.table(letters.answer_length()), random);
    let result = room(length, random);
    assert_agree(result, |out| sum(u, g, &a, &b, out), |out| plain::sum::<E>(u, g, &a, &b, out));
    assert_agree(
        result,
        |out| product(u, g, &a, &b, out),
        |out| plain::product::<E>(u, g, &a, &b, out),
    );
    assert_agree(
        result,
        |out| product(u, g, &a, &b, out).map(|_| ()),
        |out| plain::product_uncounted::<E>(u, g, &a, &b, out),
    );
    assert_agree(
        result,
        |out| substitute(u, g, &a, &handed, out),
        |out| plain::substitute::<E>(u, g, &a, &handed, out),
    );
    let s = random.below(length + 1 + length / 4) as u64;
    assert_agree(
        result,
        |out| derivative(u, g, &a, s, out),
        |out| plain::derivative::<E>(u, g, &a, s, out),
    );
    let state = State(random.below(1 + letters.states() as usize) as u64);
    let choice = Choice(random.below(1 + letters.choices() as usize) as u64);
    assert_eq!(value(u, g, &a, state, choice), plain::value::<E>(u, g, &a, state, choice));
}

/// Mostly a right order; else a wrong one.
fn perhaps_wrong(letters: Letters, random: &mut Random) -> Order {
    match random.below(6) {
        0 => {
            let wrong = wrong_orders(letters.unknowns as u64);
            wrong[random.below(wrong.len())]
        }
        1 => Order([(); 6].map(|()| [0, 1, 2, 5, 6, 64, 255][random.below(7)])),
        _ => random.order(letters),
    }
}

fn assert_solving_agrees<E: Block>(
    letters: Letters,
    random: &mut Random,
    facts: &mut cases::Random,
) {
    let (u, g) = (letters.unknowns as u64, letters.givens as u64);
    let (_, solvable_under_fact) = facts.under_fact(u, g);
    for condition in
        [random.table(letters.table_length()), random.solvable(letters), solvable_under_fact]
    {
        let condition = perhaps_damaged(condition, random);
        let fact = perhaps_damaged(facts.any_fact(u, g), random);
        let answers = room(letters.answer_length(), random);
        let order = perhaps_wrong(letters, random);
        assert_agree(
            answers,
            |out| boole(u, g, order, &fact, &condition, out),
            |out| plain::boole::<E>(u, g, order, &fact, &condition, out),
        );
        assert_agree(
            answers,
            |out| particular(u, g, order, &fact, &condition, out),
            |out| plain::particular::<E>(u, g, order, &fact, &condition, out),
        );
        assert_agree(
            answers,
            |out| lowenheim(u, g, order, &fact, &condition, out),
            |out| plain::lowenheim::<E>(u, g, order, &fact, &condition, out),
        );
    }
}

/// Into buffers of these lengths, for the fact, the condition and the answers.
fn assert_read_agrees<E: Block>(bytes: &[u8], [fact, condition, answers]: [usize; 3]) {
    type Read = fn(&[u8], &mut Order, &mut [u8], &mut [u8], &mut [u8]) -> Result<Reading, Refusal>;
    let lend = |read: Read, out: &mut [u8]| {
        let (fact, rest) = out.split_at_mut(fact);
        let (condition, answers) = rest.split_at_mut(condition);
        let mut order = Order([7; 6]);
        (read(bytes, &mut order, fact, condition, answers), order)
    };
    assert_agree(
        fact + condition + answers,
        |out| lend(read_entry, out),
        |out| lend(plain::read_entry::<E>, out),
    );
    assert_eq!(audit(bytes), plain::audit::<E>(bytes));
}

/// An entry as it is written, cut, with a byte changed, with another order and with another fact.
fn assert_entries_agree<E: Block>(
    letters: Letters,
    random: &mut Random,
    facts: &mut cases::Random,
) {
    let (u, g) = (letters.unknowns as u64, letters.givens as u64);
    for condition in [random.table(letters.table_length()), random.solvable(letters)] {
        let route = random.below(256) as u64;
        let mut entry = vec![7; LONGEST_ENTRY];
        let (order, fact) = (random.order(letters), facts.fact(u, g));
        let length = write_entry(1 + route % 250, u, g, order, &fact, &condition, &mut entry)
            .expect("an entry");
        entry.truncate(length);
        let lent = perhaps_damaged(condition, random);
        let lent_fact = if random.below(4) == 0 { facts.any_fact(u, g) } else { fact };
        let lent_fact = perhaps_damaged(lent_fact, random);
        let order = if random.below(4) == 0 { perhaps_wrong(letters, random) } else { order };
        assert_agree(
            room(length, random),
            |out| write_entry(route, u, g, order, &lent_fact, &lent, out),
            |out| plain::write_entry::<E>(route, u, g, order, &lent_fact, &lent, out),
        );
        let (table, answers) = (letters.table_length(), letters.answer_length());
        let rooms = [table, table, answers].map(|needed| room(needed, random));
        assert_read_agrees::<E>(&entry, rooms);
        assert_read_agrees::<E>(&entry[..random.below(length)], rooms);
        for _ in 0..20 {
            let mut changed = entry.clone();
            let place = random.below(length);
            changed[place] =
                [changed[place] ^ 1 << random.below(8), random.below(8) as u8][random.below(2)];
            assert_read_agrees::<E>(&changed, rooms);
        }
        for _ in 0..5 {
            // a kind 6 of any order, right or wrong, in place of the one that is there or of none
            let start = if entry[4] == 6 { 11 } else { 4 };
            let order = perhaps_wrong(letters, random);
            let changed = [&entry[..4], &[6], &order.0[..], &entry[start..]].concat();
            assert_read_agrees::<E>(&changed, rooms);
            // one more kind 7, mostly wrong
            let mask = random.below(table + 1 + table / 4);
            let record = [7, mask as u8, (mask >> 8) as u8];
            let changed = [&entry[..start], &record, &entry[start..]].concat();
            assert_read_agrees::<E>(&changed, rooms);
        }
    }
}

#[test]
fn calls_agree() {
    calls_agree_as::<Bytes>();
    calls_agree_as::<u64>();
}

fn calls_agree_as<E: Block>() {
    let mut random = Random(99);
    let facts = &mut cases::Random::new('f');
    for letters in all_letters(6) {
        for _ in 0..10 {
            assert_operations_agree::<E>(letters, &mut random);
            assert_solving_agrees::<E>(letters, &mut random, facts);
            assert_entries_agree::<E>(letters, &mut random, facts);
        }
    }
    for (unknowns, givens) in [(0, 8), (1, 8), (2, 8), (3, 6), (4, 4), (5, 5), (6, 4)] {
        let letters = Letters { unknowns, givens };
        assert_operations_agree::<E>(letters, &mut random);
        assert_solving_agrees::<E>(letters, &mut random, facts);
        assert_entries_agree::<E>(letters, &mut random, facts);
    }
}

#[test]
fn blocks_are_counted() {
    blocks_are_counted_as::<Bytes>();
    blocks_are_counted_as::<u64>();
}

/// The blocks of a table hold as many ones as its bytes.
fn blocks_are_counted_as<E: Block>() {
    let mut random = Random(61);
    for blocks in 0..=16 {
        for table in [random.table(64 * blocks), vec![1; 64 * blocks]] {
            let packed: Vec<E> = table.chunks(64).map(E::pack).collect();
            let ones = table.iter().filter(|&&value| value == 1).count();
            assert_eq!(E::count(&packed), ones);
        }
    }
}

/// Facts for which question 22 or 23 is answered no, in every call that takes one.
#[test]
fn wrong_facts_agree() {
    wrong_facts_agree_as::<Bytes>();
    wrong_facts_agree_as::<u64>();
}

fn wrong_facts_agree_as<E: Block>() {
    let random = &mut cases::Random::new('q');
    for (u, g) in cases::pairs(0, 10) {
        let condition = random.solvable(u, g);
        let handed = vec![0; u as usize * condition.len()];
        let order = random.order(u);
        for fact in wrong_facts(u, g) {
            assert_agree(
                handed.len(),
                |out| boole(u, g, order, &fact, &condition, out),
                |out| plain::boole::<E>(u, g, order, &fact, &condition, out),
            );
            assert_agree(
                handed.len(),
                |out| lowenheim_handed(u, g, &fact, &condition, &handed, out),
                |out| plain::lowenheim_handed::<E>(u, g, &fact, &condition, &handed, out),
            );
            assert_agree(
                0,
                |out| write_entry(9, u, g, order, &fact, &condition, out),
                |out| plain::write_entry::<E>(9, u, g, order, &fact, &condition, out),
            );
            let entry = cases::entries::built(order, 9, u, g, &fact, &condition, &handed);
            assert_read_agrees::<E>(&entry, [0, 0, 0]);
        }
    }
}

/// Handed polynomials that solve and that nearly do, most of which mention unknowns, as they are and
/// damaged.
#[test]
fn handed_agree() {
    handed_agree_as::<Bytes>();
    handed_agree_as::<u64>();
}

fn handed_agree_as<E: Block>() {
    let random = &mut cases::Random::new('P');
    let mut counts = [0; 24];
    for (u, g) in cases::pairs(0, 10) {
        for kind in SOLVING.into_iter().chain(NEARLY) {
            for fact_is_there in [false, true] {
                let (fact, condition) = random.under_fact(u, g);
                let fact = if fact_is_there { fact } else { no_fact(u, g) };
                let handed = random.handed(kind, u, g, &counted(&fact, &condition));
                let lent = [fact, condition, handed];
                counts[assert_handed_agrees::<E>(u, g, lent, random) as usize] += 1;
            }
        }
        let handed = random.simple(u, g);
        let condition = random.made_zero_by(u, g, &handed);
        let lent = [random.any_fact(u, g), condition, handed];
        counts[assert_handed_agrees::<E>(u, g, lent, random) as usize] += 1;
    }
    for number in [0, 4, 8, 21] {
        assert!(counts[number] > 50, "{number}: {}", counts[number]);
    }
}

/// Answers the number of the first no, 0 if there is none.
fn assert_handed_agrees<E: Block>(
    u: u64,
    g: u64,
    mut lent: [Vec<u8>; 3],
    random: &mut cases::Random,
) -> u8 {
    let mut size = lent[2].len();
    match random.below(10) {
        place @ 0..3 => {
            let length = lent[place].len();
            random.spoil(&mut lent[place], length);
        }
        3 => {
            lent.iter_mut().for_each(|table| random.fit(table));
            size = random.size(size);
        }
        _ => {}
    }
    let [fact, condition, handed] = &lent;
    let mut number = 0;
    assert_agree(
        size,
        |out| {
            let answer = lowenheim_handed(u, g, fact, condition, handed, out);
            number = answer.map_or_else(|refusal| refusal.0, |_| 0);
            answer
        },
        |out| plain::lowenheim_handed::<E>(u, g, fact, condition, handed, out),
    );
    number
}

/// The same part of the same lent table, or the same refusal.
#[test]
fn shorter_agree() {
    let (random, answers) = (&mut Random(17), &mut cases::Random::new('K'));
    let mut counts = [0; 24];
    for (u, g) in cases::pairs(0, 10) {
        for _ in 0..30 {
            let [boole, lowenheim] =
                answers.two_answers(u, g).map(|table| perhaps_damaged(table, random));
            let expected = shorter(u, g, &boole, &lowenheim);
            let found = plain::shorter(u, g, &boole, &lowenheim);
            assert_eq!(found, expected);
            assert_eq!(found.map(<[u8]>::as_ptr), expected.map(<[u8]>::as_ptr));
            counts[found.map_or_else(|refusal| refusal.0, |_| 0) as usize] += 1;
        }
    }
    for number in [0, 4, 8] {
        assert!(counts[number] > 100, "{number}: {}", counts[number]);
    }
}

#[test]
fn too_many_letters_agree() {
    too_many_letters_agree_as::<Bytes>();
    too_many_letters_agree_as::<u64>();
}

fn too_many_letters_agree_as<E: Block>() {
    let mut buffer = [7; 2048];
    for (u, g) in [(7, 0), (0, 9), (6, 5), (u64::MAX, 1), (3, u64::MAX)] {
        let table = [0; 2048];
        assert_eq!(plain::read_text::<E>(u, g, b"u", &mut buffer), Err(Refusal(1)));
        assert_eq!(plain::sum::<E>(u, g, &table, &table, &mut buffer), Err(Refusal(1)));
        assert_eq!(plain::shorter(u, g, &table, &table), Err(Refusal(1)));
        assert_eq!(plain::derivative::<E>(u, g, &table, 4096, &mut buffer), Err(Refusal(1)));
        let handed = plain::lowenheim_handed::<E>(u, g, &table, &table, &table, &mut buffer);
        assert_eq!(handed, Err(Refusal(1)));
        let order = Order([7; 6]);
        let boole = plain::boole::<E>(u, g, order, &table, &table, &mut buffer);
        assert_eq!(boole, Err(Refusal(1)));
        let written = plain::write_entry::<E>(0, u, g, order, &table, &table, &mut buffer);
        assert_eq!(written, Err(Refusal(1)));
        assert_eq!(buffer, [7; 2048]);
    }
}

/// A text from the grammar, in which each sign may be another.
fn text(random: &mut Random, depth: usize, text: &mut Vec<u8>) {
    for part in 0..1 + random.below(4) {
        if part > 0 {
            text.push(b"+|**"[random.below(4)]);
        }
        match random.below(8) {
            0 => text.push(b'!'),
            1 => text.push(b' '),
            _ => {}
        }
        if depth > 0 && random.below(3) == 0 {
            text.push(b'(');
            self::text(random, depth - 1, text);
            text.push(b')');
        } else {
            text.push(b"uuvvwxabbcd01"[random.below(13)]);
        }
    }
}

fn random_text(random: &mut Random) -> Vec<u8> {
    let mut bytes = Vec::new();
    text(random, 4, &mut bytes);
    if random.below(3) == 0 {
        let place = random.below(bytes.len());
        bytes[place] =
            [random.below(256) as u8, b"+|*!()01 uvab"[random.below(13)]][random.below(2)];
    }
    bytes
}

#[test]
fn texts_agree() {
    texts_agree_as::<Bytes>();
    texts_agree_as::<u64>();
}

fn texts_agree_as<E: Block>() {
    let mut random = Random(2026);
    let mut accepted = 0;
    for _ in 0..4000 {
        let bytes = random_text(&mut random);
        let letters = Letters { unknowns: random.below(6), givens: random.below(5) };
        let (u, g) = (letters.unknowns as u64, letters.givens as u64);
        let length = room(letters.table_length(), &mut random);
        accepted += read_text(u, g, &bytes, &mut vec![0; length]).is_ok() as usize;
        assert_agree(
            length,
            |out| read_text(u, g, &bytes, out),
            |out| plain::read_text::<E>(u, g, &bytes, out),
        );
    }
    assert!(accepted > 400, "{accepted}");
}

/// A sheet of random lines: routes mostly rising, some damaged.
fn random_sheet(random: &mut Random) -> Vec<u8> {
    let mut sheet = Vec::new();
    for number in 0..random.below(40) {
        let route = if random.below(6) == 0 { random.below(300) } else { 6 * number };
        let (unknowns, givens) = (1 + random.below(6), 1 + random.below(5));
        let mut line = format!("{route} {unknowns} {givens} ").into_bytes();
        line.extend(random_text(random));
        if random.below(8) == 0 {
            let place = random.below(line.len());
            line[place] = b"\n 9\r"[random.below(4)];
        }
        sheet.extend(line);
        sheet.push(b'\n');
    }
    if random.below(2) == 0 {
        sheet.pop();
    }
    sheet
}

/// Through the function that the programs print with.
fn plain_sheet<E: Block>(input: &[u8]) -> Vec<u8> {
    let mut output = Vec::new();
    plain::print_sheet::<E>(input, &mut output).expect("memory takes every byte");
    output
}

#[test]
fn sheets_agree() {
    let mut random = Random(7);
    for _ in 0..100 {
        let input = random_sheet(&mut random);
        let expected = sheet(&input);
        assert_eq!(plain_sheet::<Bytes>(&input), expected);
        assert_eq!(plain_sheet::<u64>(&input), expected);
    }
    for input in [&b""[..], b"\n", b"7 2 0 u+v\n8 1 1 a", b"7 2 0", &[b'7'; 301], &[0, 255, 10]] {
        let expected = sheet(input);
        assert_eq!(plain_sheet::<Bytes>(input), expected);
        assert_eq!(plain_sheet::<u64>(input), expected);
    }
}

/// A volume of entries with rising routes, walked from every kind of place, and damaged.
#[test]
fn walks_agree() {
    walks_agree_as::<Bytes>();
    walks_agree_as::<u64>();
}

fn walks_agree_as<E: Block>() {
    let mut random = Random(31);
    let facts = &mut cases::Random::new('w');
    for _ in 0..20 {
        let (mut volume, mut places) = (Vec::new(), vec![0, usize::MAX]);
        for route in 1..=random.below(12) as u64 {
            let letters = Letters { unknowns: random.below(4), givens: random.below(3) };
            let (u, g) = (letters.unknowns as u64, letters.givens as u64);
            let mut entry = vec![0; LONGEST_ENTRY];
            let condition = random.table(letters.table_length());
            let (order, fact) = (random.order(letters), facts.fact(u, g));
            let length =
                write_entry(route, u, g, order, &fact, &condition, &mut entry).expect("an entry");
            volume.extend(&entry[..length]);
            places.extend([volume.len(), volume.len() - 1]);
        }
        let mut damaged = volume.clone();
        if !damaged.is_empty() {
            let place = random.below(damaged.len());
            damaged[place] ^= 1;
        }
        for volume in [&volume, &damaged] {
            for &place in &places {
                assert_eq!(plain::walk::<E>(volume, place), Walk { volume, place }.count());
            }
        }
    }
}

/// Every damaged entry, kinds 6 and 7 too.
#[test]
fn damaged_entries_agree() {
    for bytes in cases::entries::damaged_entries(&mut cases::Random::new('d')) {
        for lengths in [[1024, 1024, 6144], [8, 8, 16], [8, 0, 0], [0, 8, 16]] {
            assert_read_agrees::<Bytes>(&bytes, lengths);
            assert_read_agrees::<u64>(&bytes, lengths);
        }
    }
}
