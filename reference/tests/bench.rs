//! The rows of the bench table, the slips to shut out, and the two programs.

use reference::cases::facts::no_fact;
use reference::cases::ones;
use reference::cases::orders::{every_order, wrong_orders};
use reference::*;

/// v first, then u.
const V_FIRST: Order = Order([1, 0, 255, 255, 255, 255]);

/// The condition table of a text.
fn condition(u: u64, g: u64, text: &str) -> Vec<u8> {
    let mut table = vec![7; 1 << (u + g)];
    assert_eq!(read_text(u, g, text.as_bytes(), &mut table), Ok(()));
    table
}

fn refusal(u: u64, g: u64, text: &str) -> u8 {
    let mut buffer = [7; 1024];
    let result = read_text(u, g, text.as_bytes(), &mut buffer);
    assert_eq!(buffer, [7; 1024]);
    result.expect_err("a refusal").0
}

/// Checks an answer in the order 0, 1, 2 and so on against texts for its polynomials.
fn assert_answers(u: u64, g: u64, text: &str, boole_texts: &[&str], lowenheim_texts: &[&str]) {
    assert_answers_in(Order::default_for(u as usize), u, g, text, boole_texts, lowenheim_texts);
}

fn assert_answers_in(
    order: Order,
    u: u64,
    g: u64,
    text: &str,
    boole_texts: &[&str],
    lowenheim_texts: &[&str],
) {
    let table = condition(u, g, text);
    let tables =
        |texts: &[&str]| -> Vec<u8> { texts.iter().flat_map(|t| condition(u, g, t)).collect() };
    let mut answers = vec![7; u as usize * table.len()];
    let solved = boole(u, g, order, &no_fact(u, g), &table, &mut answers);
    assert_eq!(answers, tables(boole_texts), "{text}");
    assert_eq!(solved, Ok(Solved::Done { monomials: ones(&answers) }));
    if !lowenheim_texts.is_empty() {
        let solved = lowenheim(u, g, order, &no_fact(u, g), &table, &mut answers);
        assert_eq!(answers, tables(lowenheim_texts), "{text}");
        assert_eq!(solved, Ok(Solved::Done { monomials: ones(&answers) }));
    }
}

fn assert_none(u: u64, g: u64, text: &str, state: u64) {
    let table = condition(u, g, text);
    let mut answers = vec![7; u as usize * table.len()];
    for method in [boole, particular, lowenheim] {
        for order in every_order(u) {
            let solved = method(u, g, order, &no_fact(u, g), &table, &mut answers);
            assert_eq!(solved, Ok(Solved::None(State(state))));
            assert!(answers.iter().all(|&byte| byte == 7));
        }
    }
}

#[test]
fn starred_rows() {
    assert_answers(0, 0, "0", &[], &[]);
    assert_none(0, 0, "1", 0);
    assert_answers(1, 0, "u", &["0"], &[]);
    assert_answers(1, 0, "!u", &["1"], &[]);
    assert_answers(2, 0, "u+v", &["v", "v"], &["u*v", "u*v"]);
    assert_answers(2, 0, "u*v", &["u+u*v", "v"], &[]);
    assert_answers(2, 0, "u+v+1", &["1+v", "v"], &["1+v+u*v", "v+u*v"]);
    assert_answers(1, 1, "u+a", &["a"], &[]);
    assert_none(1, 1, "a", 1);
    assert_none(1, 2, "a*u+b*u+b", 3);
    assert_answers(2, 0, "(v+1)*(u+v)+(v+1)*u", &["u", "v"], &[]);
    assert_eq!(condition(2, 0, "(v+1)*(u+v)+(v+1)*u"), [0; 4]);
}

/// Rows of two and three unknowns, worked out by hand in other orders.
#[test]
fn rows_in_other_orders() {
    assert_answers_in(V_FIRST, 2, 0, "u+v", &["u", "u"], &["u*v", "u*v"]);
    assert_answers_in(V_FIRST, 2, 0, "u*v", &["u", "v+u*v"], &[]);
    assert_answers_in(V_FIRST, 2, 0, "u+v+1", &["u", "1+u"], &["u+u*v", "1+u+u*v"]);
    assert_answers_in(V_FIRST, 2, 1, "(u+v)|(v+a)", &["a", "a"], &[]);
    assert_answers_in(V_FIRST, 2, 1, "a+v+u*v", &["u+u*a", "a+u*v+u*v*a"], &[]);
    let w_u_v = Order([2, 0, 1, 255, 255, 255]);
    assert_answers_in(w_u_v, 3, 0, "u*v+w", &["u", "v", "u*v"], &[]);
    assert_answers_in(w_u_v, 3, 0, "u*v*w", &["u", "v", "w+u*v*w"], &[]);
}

/// 1, 17, 4, 8, .. when solving; 1, 2, 17, 4, 8, .. when writing.
#[test]
fn place_of_question_17() {
    let wrong = Order([0; 6]);
    for method in [boole, particular, lowenheim] {
        assert_eq!(method(7, 0, wrong, &[], &[], &mut []), Err(Refusal(1)));
        assert_eq!(method(2, 0, wrong, &[], &[], &mut []), Err(Refusal(17)));
        assert_eq!(method(2, 0, V_FIRST, &[0; 4], &[0, 2, 0], &mut [7; 8]), Err(Refusal(4)));
        assert_eq!(method(2, 0, V_FIRST, &[0; 4], &[0, 2, 0, 0], &mut [7; 7]), Err(Refusal(4)));
        assert_eq!(method(2, 0, V_FIRST, &[0; 4], &[0, 2, 0, 0], &mut [7; 8]), Err(Refusal(8)));
    }
    assert_eq!(write_entry(0, 7, 0, wrong, &[0; 4], &[], &mut []), Err(Refusal(1)));
    assert_eq!(write_entry(0, 2, 0, wrong, &[0; 4], &[], &mut []), Err(Refusal(2)));
    assert_eq!(write_entry(1, 2, 0, wrong, &[0; 4], &[], &mut []), Err(Refusal(17)));
    assert_eq!(write_entry(1, 2, 0, V_FIRST, &[0; 4], &[], &mut []), Err(Refusal(4)));
    assert_eq!(write_entry(1, 2, 0, V_FIRST, &[0; 4], &[2; 4], &mut []), Err(Refusal(8)));
    assert_eq!(write_entry(1, 2, 0, V_FIRST, &[0; 4], &[0; 4], &mut [7; 20]), Err(Refusal(14)));
    for u in 0..=6 {
        assert!(wrong_orders(u).len() > 10);
        for order in wrong_orders(u) {
            let table = vec![0; 1 << u];
            let refused =
                boole(u, 0, order, &table, &table, &mut vec![7; u as usize * table.len()]);
            assert_eq!(refused, Err(Refusal(17)), "{order:?}");
        }
    }
}

/// The bytes of route 7 with the condition u*v, v first, and each way in which kind 6 is wrong.
#[test]
fn kind_6() {
    let entry = [
        &[1, 7, 2, 0][..],
        &[6, 1, 0, 255, 255, 255, 255],
        &[2, 3, 0],
        &[3, 0, 1, 0],
        &[3, 1, 2, 0],
        &[3, 1, 3, 0],
        &[4, 7],
    ];
    let mut bytes = [7; 40];
    assert_eq!(write_entry(7, 2, 0, V_FIRST, &[0; 4], &[0, 0, 0, 1], &mut bytes), Ok(28));
    assert_eq!(bytes[..28], entry.concat());
    assert_eq!(bytes[28..], [7; 12]);
    let read = |records: &[&[u8]]| {
        let (mut order, mut fact) = (Order([7; 6]), [7; 64]);
        let (mut condition, mut answers) = ([7; 64], [7; 384]);
        let bytes = records.concat();
        let result = read_entry(&bytes, &mut order, &mut fact, &mut condition, &mut answers);
        if result.is_err() {
            assert_eq!((order, fact), (Order([7; 6]), [7; 64]));
            assert_eq!((condition, answers), ([7; 64], [7; 384]));
        }
        (result.map(|reading| reading.length), order)
    };
    let refused = |records: &[&[u8]]| {
        let (result, _) = read(records);
        assert_eq!(audit(&records.concat()).map(|reading| reading.length), result);
        result.expect_err("a refusal").0
    };
    let [start, order, monomial, u, v, uv, end] = entry;
    assert_eq!(read(&entry), (Ok(28), V_FIRST));
    assert_eq!(audit(&entry.concat()).map(|reading| reading.length), Ok(28));
    assert_eq!(read(&[start, monomial, u, v, uv, end]).1, Order::default_for(2));
    // its place, and at most one
    assert_eq!(refused(&[order, start, monomial, u, v, uv, end]), 11);
    assert_eq!(refused(&[start, order, order, monomial, u, v, uv, end]), 11);
    assert_eq!(refused(&[start, monomial, order, u, v, uv, end]), 11);
    assert_eq!(refused(&[start, monomial, u, order, v, uv, end]), 11);
    assert_eq!(refused(&[start, monomial, u, v, uv, order, end]), 11);
    assert_eq!(refused(&[start, monomial, &[5, 0], order, end]), 11);
    // its body: the missing byte is taken from what follows
    assert_eq!(refused(&[start, &order[..6], end]), 10);
    assert_eq!(refused(&[start, &order[..6]]), 10);
    // the order 0, 1, 2 and so on, with the U of the entry
    for (u, order) in (0..=6u8).map(|u| (u, Order::default_for(u.into()))) {
        assert_eq!(refused(&[&[1, 7, u, 0], &[6], &order.0, end]), 12);
    }
    // every other wrong order is 17, after all of 12 and before 4 and 13
    for (u, number) in [(0, 17), (1, 17), (2, 12), (3, 17), (6, 17)] {
        let default = Order::default_for(2);
        assert_eq!(refused(&[&[1, 7, u, 0], &[6], &default.0, end]), number);
        assert_eq!(refused(&[&[1, 7, u, 0], &[6], &default.0, &[2, 64, 0], end]), 12);
    }
    assert_eq!(refused(&[start, &[6, 0, 0, 255, 255, 255, 255], &[5, 0], end]), 17);
    let wrong = [start, &[6, 0, 0, 255, 255, 255, 255], end].concat();
    assert_eq!(read_entry(&wrong, &mut Order([7; 6]), &mut [], &mut [], &mut []), Err(Refusal(17)));
}

#[test]
fn other_rows() {
    let mut buffer = [0; 1024];
    assert_eq!(read_text(1, 0, &[&[b' '; 199][..], b"u"].concat(), &mut buffer), Ok(()));
    assert_eq!(refusal(1, 0, &" ".repeat(201)), 3);
    assert_eq!(read_text(6, 4, b"z*d", &mut buffer), Ok(()));
    assert_eq!(refusal(6, 5, "u"), 1);
    assert_eq!(refusal(2, 0, "w"), 6);
    assert_eq!(refusal(2, 0, "()"), 7);
    let order = Order::default_for(1);
    assert_eq!(write_entry(250, 1, 0, order, &[0; 2], &[0, 1], &mut buffer), Ok(9));
    assert_eq!(write_entry(251, 1, 0, order, &[0; 2], &[0, 1], &mut buffer), Err(Refusal(2)));
    assert_eq!(write_entry(0, 1, 0, order, &[0; 2], &[0, 1], &mut buffer), Err(Refusal(2)));
}

#[test]
fn slips() {
    assert_eq!(condition(2, 0, "u|v"), [0, 1, 1, 1]);
    assert_eq!(condition(1, 0, "u+u+u"), [0, 1]);
    assert_eq!(condition(2, 0, "u|v+v"), condition(2, 0, "(u|v)+v"));
    assert_answers(2, 1, "(u+v)|(v+a)", &["a", "a"], &[]);
}

#[test]
fn order_of_questions_for_a_text() {
    assert_eq!(refusal(u64::MAX, 1, ""), 1);
    assert_eq!(refusal(1, 0, ""), 3);
    assert_eq!(read_text(1, 0, b"#", &mut [7]), Err(Refusal(4)));
    assert_eq!(refusal(1, 0, "(v#"), 5);
    assert_eq!(refusal(1, 0, "(v"), 6);
    assert_eq!(refusal(1, 0, "(u"), 7);
    assert_eq!(refusal(1, 0, "   "), 7);
}

const SHEET: &str =
    "01070200\n020100\n020200\n03000200\n03010200\n0407\n01080101\n020200\n0501\n0408\n";

#[test]
fn sample_sheet() {
    assert_eq!(sheet(b"7 2 0 u+v\n8 1 1 a\n"), SHEET.as_bytes());
    assert_eq!(sheet(b"7 2 0 u+v\n8 1 1 a"), SHEET.as_bytes());
}

#[test]
fn sheet_lines() {
    let prints = |input: &[u8]| String::from_utf8(sheet(input)).expect("text");
    assert_eq!(prints(b""), "");
    assert_eq!(prints(b"\n"), "unreadable\n");
    assert_eq!(prints(b"7 2 0"), "unreadable\n");
    assert_eq!(prints(b"7 2 0 "), "refused 3\n");
    assert_eq!(prints(b"7  2 0 u"), "unreadable\n");
    assert_eq!(prints(b"0007 2 0 u"), "unreadable\n");
    assert_eq!(prints(b"000 9 0 "), "refused 1\n");
    assert_eq!(prints(b"251 6 4 "), "refused 2\n");
    assert_eq!(prints(b"7 1 0 u\r\n"), "refused 5\n");
    assert_eq!(prints(b"7 1 0 v\n7 1 0 (\n"), "refused 6\nrefused 7\n");
    let line = |length: usize| [&b"7 1 0 "[..], &vec![b' '; length - 6]].concat();
    assert_eq!(prints(&line(300)), "refused 3\n");
    assert_eq!(prints(&line(301)), "unreadable\n");
}

#[test]
fn sheet_routes_rise() {
    let output = String::from_utf8(sheet(b"5 0 0 1\n5 0 0 0\n9 0 0 (\n6 0 0 0\n")).expect("text");
    let five = "01050000\n020000\n0500\n0405\n";
    assert_eq!(output, format!("{five}refused 15\nrefused 7\n01060000\n0406\n"));
}

#[test]
fn walk_prints() {
    let digits: String = SHEET.split('\n').collect();
    let byte = |place: usize| u8::from_str_radix(&digits[place..place + 2], 16).expect("digits");
    let volume: Vec<u8> = (0..digits.len()).step_by(2).map(byte).collect();
    assert_eq!(walk_output(Some(&volume)), "2\n");
    assert_eq!(walk_output(Some(&[])), "0\n");
    assert_eq!(walk_output(None), "unreadable\n");
    assert_eq!(walk_output(Some(&volume[..volume.len() - 1])), "refused 10 1\n");
    assert_eq!(walk_output(Some(&[&volume[..], &volume].concat())), "refused 15 2\n");
    assert_eq!(walk_output(Some(&[0; 65_536])), "refused 10 0\n");
    assert_eq!(walk_output(Some(&[0; 65_537])), "unreadable\n");
    assert_eq!(Walk { volume: &volume, place: 20 }.count(), Count::Whole(1));
    assert_eq!(Walk { volume: &volume, place: usize::MAX }.count(), Count::Whole(0));
}
