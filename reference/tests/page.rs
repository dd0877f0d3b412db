//! The volumes that `docs/VOLUME.md` shows byte by byte: they pass, the answers in other orders and
//! with other facts are those that it derives, the orders and facts that it calls damaged are refused
//! as it says, and those changes of one byte that it names do not show, and no others.

use reference::cases::ones;
use reference::*;

/// The bytes of each volume on the page: lines of a number and 16 bytes, the last line fewer.
fn volumes() -> Vec<Vec<u8>> {
    let page = concat!(env!("CARGO_MANIFEST_DIR"), "/../docs/VOLUME.md");
    let page = std::fs::read_to_string(page).expect("the page");
    let mut volumes: Vec<Vec<u8>> = Vec::new();
    for line in page.lines().filter(|line| line.starts_with("    ")) {
        let mut words = line.split_whitespace();
        let Some(Ok(place)) = words.next().map(str::parse::<usize>) else {
            continue;
        };
        let bytes: Option<Vec<u8>> = words.map(|word| u8::from_str_radix(word, 16).ok()).collect();
        let Some(bytes) = bytes else {
            continue;
        };
        if place == 0 {
            volumes.push(Vec::new());
        }
        let volume = volumes.last_mut().expect("a volume begins at byte 0");
        assert_eq!(volume.len(), place);
        volume.extend(bytes);
    }
    volumes
}

/// The changes of one byte, place and new byte, that leave a volume that passes.
fn changes_that_do_not_show(volume: &[u8]) -> Vec<(usize, u8)> {
    let mut missed = Vec::new();
    for place in 0..volume.len() {
        for byte in (0..=255).filter(|byte| *byte != volume[place]) {
            let mut changed = volume.to_vec();
            changed[place] = byte;
            if let Count::Whole(_) = (Walk { volume: &changed, place: 0 }).count() {
                missed.push((place, byte));
            }
        }
    }
    missed
}

/// A larger G, at its byte of the volume, as far as a largest one.
fn larger(place: usize, volume: &[u8], most: u8) -> impl Iterator<Item = (usize, u8)> {
    (volume[place] + 1..=most).map(move |g| (place, g))
}

#[test]
fn the_volumes_of_the_page_pass() {
    let volumes = volumes();
    assert_eq!(volumes.iter().map(Vec::len).collect::<Vec<_>>(), [130, 97, 55]);
    for (volume, entries) in volumes.iter().zip([3, 3, 2]) {
        assert_eq!(Walk { volume, place: 0 }.count(), Count::Whole(entries));
    }
    let missed: Vec<_> = volumes.iter().map(|volume| changes_that_do_not_show(volume)).collect();
    assert_eq!(missed.iter().map(Vec::len).collect::<Vec<_>>(), [15, 21, 14]);
    let [first, second, third] = &volumes[..] else { panic!("three volumes") };
    // routes 7 and 8; routes 11, 12 and 13; routes 14 and 15, and the condition a in place of 1
    assert!(larger(3, first, 8).chain(larger(23, first, 8)).eq(missed[0].clone()));
    let in_second = larger(3, second, 8).chain(larger(31, second, 7)).chain(larger(82, second, 8));
    assert!(in_second.eq(missed[1].clone()));
    let in_third = larger(3, third, 8).chain(larger(41, third, 8)).chain([(49, 2)]);
    assert!(in_third.eq(missed[2].clone()));
}

/// What the page says of route 12 with another order, and of a kind 6 that is lost.
#[test]
fn other_orders_of_route_12() {
    let volume = &volumes()[1];
    let (route_12, route_13) = (&volume[28..79], &volume[79..]);
    let mut order = Order([7; 6]);
    let (mut fact, mut condition, mut answers) = ([7; 16], [7; 16], [7; 48]);
    read_entry(route_12, &mut order, &mut fact, &mut condition, &mut answers).expect("an entry");
    assert_eq!((order, fact), (Order([2, 0, 1, 255, 255, 255]), [0; 16]));
    let table = |texts: [&str; 3]| -> Vec<u8> {
        let tables = texts.iter().map(|text| {
            let mut table = vec![0; 16];
            read_text(3, 1, text.as_bytes(), &mut table).expect("a text");
            table
        });
        tables.collect::<Vec<_>>().concat()
    };
    assert_eq!(condition[..], table(["(v + w*a) | u*!v", "0", "0"])[..16]);
    assert_eq!(answers[..], table(["u*v*a", "v*a", "w+v*a+w*a"]));
    for (order, texts) in [
        ([0, 1, 2, 255, 255, 255], ["u*w*a", "w*a", "w"]),
        ([2, 1, 0, 255, 255, 255], ["u*a", "u*a+v*a+u*v*a", "w+u*a+v*a+w*a+u*v*a"]),
    ] {
        let solved = boole(3, 1, Order(order), &fact, &condition, &mut answers);
        assert_eq!(solved, Ok(Solved::Done { monomials: ones(&answers) }));
        assert_eq!(answers[..], table(texts));
    }
    for (order, number) in [
        ([0, 1, 2, 255, 255, 255], 12),
        ([2, 0, 0, 255, 255, 255], 17),
        ([2, 0, 255, 1, 255, 255], 17),
        ([2, 0, 3, 255, 255, 255], 17),
        ([2, 0, 1, 0, 255, 255], 17),
        ([2, 1, 0, 255, 255, 255], 13),
    ] {
        let changed = [&route_12[..5], &order, &route_12[11..]].concat();
        assert_eq!(audit(&changed), Err(Refusal(number)), "{order:?}");
    }
    let without = |entry: &[u8]| [&entry[..4], &entry[11..]].concat();
    assert_eq!(audit(&without(route_12)), Err(Refusal(13)));
    assert!(audit(&without(route_13)).is_ok());
}

/// A table over one unknown and two givens, as route 14 has them.
fn of_route_14(text: &str) -> [u8; 8] {
    let mut table = [0; 8];
    read_text(1, 2, text.as_bytes(), &mut table).expect("a text");
    table
}

/// What the page says of route 14, with other facts and with another condition.
#[test]
fn other_facts_of_route_14() {
    let table = of_route_14;
    let route_14 = &volumes()[2][..38];
    let (mut order, mut fact, mut condition, mut answer) = (Order([7; 6]), [7; 8], [7; 8], [7; 8]);
    read_entry(route_14, &mut order, &mut fact, &mut condition, &mut answer).expect("an entry");
    assert_eq!((fact, condition), (table("a*b"), table("a*u+b*u+b")));
    assert_eq!(answer, table("u+b+a*u+b*u+a*b"));
    for (fact, condition, expected) in [
        ("0", "a*u+b*u+b", Err(3)),
        ("b", "a*u+b*u+b", Ok("u+u*a+u*a*b")),
        ("a*b", "u*a+(b+a*b)*!u", Ok("u+b+a*u+b*u+a*b")),
        ("0", "u*a+(b+a*b)*!u", Ok("u+b+u*a+u*b+a*b+u*a*b")),
    ] {
        let solved = boole(1, 2, order, &table(fact), &table(condition), &mut answer);
        match expected {
            Ok(text) => {
                assert_eq!(answer, table(text));
                assert_eq!(solved, Ok(Solved::Done { monomials: ones(&answer) }));
            }
            Err(state) => assert_eq!(solved, Ok(Solved::None(State(state)))),
        }
    }
    let handed = lowenheim_handed(1, 2, &fact, &condition, &table("b"), &mut answer);
    assert_eq!((handed, answer), (Ok(5), table("u+b+a*u+b*u+a*b")));
}

/// The circuits that the page puts for the parameter of route 14, and what comes back.
#[test]
fn circuits_of_route_14() {
    let table = of_route_14;
    for (general, put, circuit) in [
        ("u+b+a*u+b*u+a*b", "0", "b+a*b"),
        ("u+b+a*u+b*u+a*b", "b", "b"),
        ("u+b+a*u+b*u+a*b", "1+a", "1+a"),
        ("u+b+a*u+b*u+a*b", "a", "b"),
        ("u+b+u*a+u*b+a*b+u*a*b", "b+a*b", "b+a*b"),
        ("u+b+u*a+u*b+a*b+u*a*b", "b", "b+a*b"),
    ] {
        let mut result = [7; 8];
        substitute(1, 2, &table(general), &table(put), &mut result).expect("a circuit");
        assert_eq!(result, table(circuit), "{put}");
    }
}

/// The page's damages to kind 7, by the number of the refusal.
#[test]
fn damaged_facts_of_routes_14_and_15() {
    let volume = &volumes()[2];
    let (route_14, route_15) = volume.split_at(38);
    let with =
        |entry: &[u8], records: &[u8], end: usize| [&entry[..4], records, &entry[end..]].concat();
    for (fact, number) in [
        (&[7, 7, 0][..], 22),
        (&[7, 8, 0], 12),
        (&[7, 0, 0], 23),
        (&[7, 4, 0], 13),
        (&[2, 6, 0], 12),
        (&[], 13),
    ] {
        assert_eq!(audit(&with(route_14, fact, 7)), Err(Refusal(number)), "{fact:?}");
    }
    assert_eq!(audit(&with(route_14, &[2, 4, 0, 7, 6, 0], 10)), Err(Refusal(11)));
    // 1 in state 0 too, where the condition forbids nothing
    assert!(audit(&with(route_14, &[7, 0, 0, 7, 2, 0, 7, 4, 0], 7)).is_ok());
    for (fact, number) in
        [(&[7, 0, 0, 7, 0, 0][..], 12), (&[7, 2, 0, 7, 0, 0], 12), (&[7, 0, 0], 23), (&[], 13)]
    {
        assert_eq!(audit(&with(route_15, fact, 10)), Err(Refusal(number)), "{fact:?}");
    }
}
