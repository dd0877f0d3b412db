//! One line of input and one of expected output for each call.
//!
//! Input: CALL U G X Y SIZE SIZE2 A B, single spaces between. A and B are
//! digits, one a byte, hexadecimal bytes, or raw text; `-` is an empty one.
//! A call that solves or writes has the fact in A and the condition in B; Y is
//! the six bytes of the order in hexadecimal or, for the handed form, the handed
//! polynomials in digits. For the derivative, X is the set S; for reading, X is
//! the length of the fact buffer. For the shorter of two answer tables, A is
//! Boole's and B is Löwenheim's.
//!
//! Expected of a call that counts monomials is `done`, their number and the bytes
//! of the result buffer; of the shorter of two, `boole` or `lowenheim`, or the
//! refusal, then the number that the companion call gives, and the length and the
//! bytes of the part handed back.
//!
//! The lines of a session stop after the last field that they use, and the
//! session goes on from line to line: a start is `s U G`, adding A is
//! `a 0 0 0 0 0 0 A`, marking and returning are `m 0 0 NAME` and `r 0 0 NAME`.
//! A change by the caller is `d WHICH PLACE BYTE`, without a line of output.
//! WHICH is 0 or 1 to put PLACE for U or G, 2 to put BYTE at PLACE of the present
//! table, 3 to 6 of the table of A to D, 7 to 10 to mark A to D if BYTE is 1, else
//! to unmark it. Expected of a step is `done` or the refusal, then U, G, SUM,
//! MARKS and the first 2^n bytes of the present table, `-` where question 1 is
//! answered no. SUM is over all fields (`checksum`), and MARKS has a digit for
//! each name.

use reference::cases::facts::no_fact;
use reference::cases::sessions::{Change, Event};
use reference::{
    Choice, Contents, Count, Order, Reading, Refusal, Session, Solved, State, Step, Walk,
};
use std::fmt;

/// No line of either file is longer: two answer tables of 6,144 bytes and the numbers before them.
const LONGEST_LINE: usize = 12_400;
/// Every byte of a result buffer before the call.
const GARBAGE: u8 = 7;

#[derive(Default)]
pub struct Lines {
    pub input: Vec<u8>,
    pub output: Vec<u8>,
    longest: usize,
}

/// The fields of a line before A; those that a call does not use stay 0.
#[derive(Clone, Copy, Default)]
pub struct Numbers<'a> {
    pub u: u64,
    pub g: u64,
    pub x: u64,
    pub y: Y<'a>,
    pub size: usize,
    pub size2: usize,
}

/// A choice, an order or handed polynomials.
#[derive(Clone, Copy)]
pub enum Y<'a> {
    Choice(u64),
    Order(Order),
    Handed(&'a [u8]),
}

impl Default for Y<'_> {
    fn default() -> Self {
        Y::Choice(0)
    }
}

impl fmt::Display for Y<'_> {
    fn fmt(&self, f: &mut fmt::Formatter) -> fmt::Result {
        match self {
            Y::Choice(number) => write!(f, "{number}"),
            Y::Order(order) => f.write_str(&hexadecimal(&order.0)),
            Y::Handed(handed) => f.write_str(&digits(handed)),
        }
    }
}

impl Lines {
    pub fn count(&self) -> usize {
        self.input.iter().filter(|&&byte| byte == b'\n').count()
    }

    pub fn report(&self) -> String {
        let (input, output) = (self.input.len(), self.output.len());
        format!("{input} bytes in, {output} bytes out, longest line {}", self.longest)
    }

    fn add(&mut self, call: char, numbers: Numbers, a: &str, b: &[u8], expected: String) {
        let Numbers { u, g, x, y, size, size2 } = numbers;
        let mut line = format!("{call} {u} {g} {x} {y} {size} {size2} {a} ").into_bytes();
        line.extend_from_slice(b);
        self.put(line, Some(expected));
    }

    fn put(&mut self, line: Vec<u8>, expected: Option<String>) {
        let expected = expected.map(String::into_bytes);
        for (file, line) in [(&mut self.input, Some(line)), (&mut self.output, expected)] {
            let Some(line) = line else {
                continue;
            };
            self.longest = self.longest.max(line.len());
            assert!(line.len() <= LONGEST_LINE && !line.contains(&b'\n'));
            file.extend(line);
            file.push(b'\n');
        }
    }

    pub fn value(&mut self, u: u64, g: u64, state: u64, choice: u64, table: &[u8]) {
        let expected = match reference::value(u, g, table, State(state), Choice(choice)) {
            Ok(value) => format!("value {value}"),
            Err(Refusal(number)) => format!("refused {number}"),
        };
        let numbers = Numbers { u, g, x: state, y: Y::Choice(choice), ..Numbers::default() };
        self.add('v', numbers, &digits(table), b"-", expected);
    }

    /// A call with two tables and one result buffer: `+`, `*`, `s`, or `h` without a fact.
    pub fn tables(&mut self, call: char, u: u64, g: u64, a: &[u8], b: &[u8], size: usize) {
        if call == 'h' {
            return self.handed(u, g, &no_fact(u, g), a, b, size);
        }
        let mut buffer = vec![GARBAGE; size];
        let result = match call {
            '+' => reference::sum(u, g, a, b, &mut buffer),
            '*' => reference::product(u, g, a, b, &mut buffer),
            's' => reference::substitute(u, g, a, b, &mut buffer),
            _ => unreachable!("no call with two tables"),
        };
        let expected = format!("{} {}", done_with(result), digits(&buffer));
        let numbers = Numbers { u, g, size, ..Numbers::default() };
        self.add(call, numbers, &digits(a), digits(b).as_bytes(), expected);
    }

    pub fn handed(
        &mut self,
        u: u64,
        g: u64,
        fact: &[u8],
        condition: &[u8],
        handed: &[u8],
        size: usize,
    ) {
        let mut buffer = vec![GARBAGE; size];
        let result = reference::lowenheim_handed(u, g, fact, condition, handed, &mut buffer);
        let expected = format!("{} {}", done_with(result), digits(&buffer));
        let numbers = Numbers { u, g, y: Y::Handed(handed), size, ..Numbers::default() };
        self.add('h', numbers, &digits(fact), digits(condition).as_bytes(), expected);
    }

    pub fn derivative(&mut self, u: u64, g: u64, table: &[u8], s: u64, size: usize) {
        let mut buffer = vec![GARBAGE; size];
        let result = reference::derivative(u, g, table, s, &mut buffer);
        let expected = format!("{} {}", done(result), digits(&buffer));
        let numbers = Numbers { u, g, x: s, size, ..Numbers::default() };
        self.add('d', numbers, &digits(table), b"-", expected);
    }

    pub fn shorter(&mut self, u: u64, g: u64, boole: &[u8], lowenheim: &[u8]) {
        let expected = match reference::shorter(u, g, boole, lowenheim) {
            Ok(part) => {
                let is_boole = std::ptr::eq(part.as_ptr(), boole.as_ptr());
                let word = if is_boole { "boole" } else { "lowenheim" };
                format!("{word} 0 {} {}", part.len(), digits(part))
            }
            Err(Refusal(number)) => format!("refused {number} {number} 0 -"),
        };
        let numbers = Numbers { u, g, ..Numbers::default() };
        self.add('m', numbers, &digits(boole), digits(lowenheim).as_bytes(), expected);
    }

    pub fn text(&mut self, u: u64, g: u64, text: &[u8], size: usize) {
        let mut buffer = vec![GARBAGE; size];
        let result = reference::read_text(u, g, text, &mut buffer);
        let expected = format!("{} {}", done(result), digits(&buffer));
        self.add('t', Numbers { u, g, size, ..Numbers::default() }, "-", text, expected);
    }

    /// Boole, the particular solution or the own Löwenheim, `b`, `p` or `l`, without a fact.
    pub fn solution(
        &mut self,
        call: char,
        (u, g, order): (u64, u64, Order),
        condition: &[u8],
        size: usize,
    ) {
        self.solution_under(call, (u, g, order), &no_fact(u, g), condition, size);
    }

    /// The same under a fact.
    pub fn solution_under(
        &mut self,
        call: char,
        (u, g, order): (u64, u64, Order),
        fact: &[u8],
        condition: &[u8],
        size: usize,
    ) {
        let mut buffer = vec![GARBAGE; size];
        let result = match call {
            'b' => reference::boole(u, g, order, fact, condition, &mut buffer),
            'p' => reference::particular(u, g, order, fact, condition, &mut buffer),
            'l' => reference::lowenheim(u, g, order, fact, condition, &mut buffer),
            _ => unreachable!("no call that solves"),
        };
        let word = match result {
            Ok(Solved::Done { monomials }) => done_with(Ok(monomials)),
            Ok(Solved::None(State(state))) => format!("none {state}"),
            Err(refusal) => done_with(Err(refusal)),
        };
        let numbers = Numbers { u, g, y: Y::Order(order), size, ..Numbers::default() };
        let expected = format!("{word} {}", digits(&buffer));
        self.add(call, numbers, &digits(fact), digits(condition).as_bytes(), expected);
    }

    /// Writing without a fact.
    pub fn writing(
        &mut self,
        route: u64,
        (u, g, order): (u64, u64, Order),
        condition: &[u8],
        size: usize,
    ) {
        self.writing_under(route, (u, g, order), &no_fact(u, g), condition, size);
    }

    /// Writing under a fact.
    pub fn writing_under(
        &mut self,
        route: u64,
        (u, g, order): (u64, u64, Order),
        fact: &[u8],
        condition: &[u8],
        size: usize,
    ) {
        let mut buffer = vec![GARBAGE; size];
        let length = reference::write_entry(route, u, g, order, fact, condition, &mut buffer);
        let numbers = Numbers { u, g, x: route, y: Y::Order(order), size, ..Numbers::default() };
        let expected = format!("{} {}", done_with(length), hexadecimal(&buffer));
        self.add('w', numbers, &digits(fact), digits(condition).as_bytes(), expected);
    }

    /// Reading into a fact, a condition and an answer buffer of these lengths.
    pub fn reading(&mut self, bytes: &[u8], [x, size, size2]: [usize; 3]) {
        let mut order = Order([GARBAGE; 6]);
        let [mut fact, mut condition, mut answers] =
            [x, size, size2].map(|length| vec![GARBAGE; length]);
        let result =
            reference::read_entry(bytes, &mut order, &mut fact, &mut condition, &mut answers);
        let order = hexadecimal(&order.0);
        let (fact, condition, answers) = (digits(&fact), digits(&condition), digits(&answers));
        let expected = format!("{} {order} {fact} {condition} {answers}", reading(result));
        let numbers = Numbers { x: x as u64, size, size2, ..Numbers::default() };
        self.add('r', numbers, "-", hexadecimal(bytes).as_bytes(), expected);
    }

    pub fn audit(&mut self, bytes: &[u8]) {
        let expected = reading(reference::audit(bytes));
        self.add('a', Numbers::default(), "-", hexadecimal(bytes).as_bytes(), expected);
    }

    pub fn walk(&mut self, volume: &[u8], place: usize) {
        let expected = match (Walk { volume, place }).count() {
            Count::Whole(count) => format!("count {count}"),
            Count::Refused(Refusal(number), passed) => format!("refused {number} {passed}"),
        };
        let numbers = Numbers { x: place as u64, ..Numbers::default() };
        self.add('k', numbers, "-", hexadecimal(volume).as_bytes(), expected);
    }

    /// A session: a start and what happens after it.
    pub fn session(&mut self, events: &[Event]) {
        let mut session = Session::start(0, 0).session;
        for event in events {
            let after = event.apply(session);
            let expected = match event {
                Event::Change(_) => None,
                _ => Some(step(&after)),
            };
            self.put(line(event).into_bytes(), expected);
            session = after.session;
        }
    }
}

fn line(event: &Event) -> String {
    match event {
        Event::Start(u, g) => format!("s {u} {g}"),
        Event::Add(h) => format!("a 0 0 0 0 0 0 {}", digits(h)),
        Event::Mark(name) => format!("m 0 0 {name}"),
        Event::Return(name) => format!("r 0 0 {name}"),
        Event::Change(change) => match change {
            Change::Unknowns(unknowns) => format!("d 0 {unknowns} 0"),
            Change::Givens(givens) => format!("d 1 {givens} 0"),
            Change::Table { place, byte } => format!("d 2 {place} {byte}"),
            Change::State { name, place, byte } => format!("d {} {place} {byte}", 3 + name),
            Change::Marked { name, is_marked } => format!("d {} 0 {}", 7 + name, *is_marked as u8),
        },
    }
}

fn step(Step { session, answer }: &Step) -> String {
    let Session { unknowns, givens, table, states } = session;
    let marks = states.each_ref().map(|state| state.is_marked as u8);
    let length = match *unknowns <= 6 && *givens <= 8 && unknowns + givens <= 10 {
        true => 1 << (unknowns + givens),
        false => 0,
    };
    let (word, marks, table) = (done(*answer), digits(&marks), digits(&table[..length]));
    format!("{word} {unknowns} {givens} {} {marks} {table}", checksum(session))
}

/// Of every byte of the present table, then for each name its mark as 0 or 1 and every byte of its
/// table.
fn checksum(session: &Session) -> u64 {
    let states = session.states.iter();
    let marked = states.flat_map(|state| [&[state.is_marked as u8], &state.table[..]].concat());
    let bytes = session.table.into_iter().chain(marked);
    bytes.fold(0, |sum, byte| (sum * 31 + u64::from(byte)) % 4_294_967_291)
}

fn done(result: Result<(), Refusal>) -> String {
    match result {
        Ok(()) => "done".to_string(),
        Err(Refusal(number)) => format!("refused {number}"),
    }
}

/// A count of monomials, or a length.
fn done_with(result: Result<usize, Refusal>) -> String {
    match result {
        Ok(number) => format!("done {number}"),
        Err(Refusal(number)) => format!("refused {number}"),
    }
}

fn reading(result: Result<Reading, Refusal>) -> String {
    match result {
        Err(Refusal(number)) => format!("refused {number}"),
        Ok(Reading { route, unknowns, givens, contents, length }) => {
            let word = match contents {
                Contents::Solved => "solved".to_string(),
                Contents::None(State(state)) => format!("none {state}"),
            };
            format!("{word} {route} {unknowns} {givens} {length}")
        }
    }
}

/// One digit a byte, `?` for a byte over 9, `-` for no bytes.
fn digits(bytes: &[u8]) -> String {
    if bytes.is_empty() {
        return "-".to_string();
    }
    bytes.iter().map(|&byte| if byte < 10 { (b'0' + byte) as char } else { '?' }).collect()
}

/// Two lower-case hexadecimal digits a byte, `-` for no bytes.
fn hexadecimal(bytes: &[u8]) -> String {
    if bytes.is_empty() {
        return "-".to_string();
    }
    bytes.iter().map(|byte| format!("{byte:02x}")).collect()
}
