//! The archive entry: records, writing, reading, audit and the walk.
//! Masks are two bytes, low byte first.

use crate::calls::{ask_under_fact, fill};
use crate::polynomial::Polynomial;
use crate::questions::{
    ask, ask_fact, ask_length, ask_letters, ask_order, ask_route, Letters, Order, Refusal, State,
};
use crate::solution::{solve_boole, Solution, UnderFact};

/// One byte of kind, then a body whose length the kind fixes.
#[derive(Clone, Copy, Debug, PartialEq, Eq)]
pub enum Record {
    /// Kind 1: route, U, G.
    Start(u8, u8, u8),
    /// Kind 2: a monomial of the condition.
    Monomial(u16),
    /// Kind 3: unknown number, then a monomial of its answer.
    Answer(u8, u16),
    /// Kind 4: the route again, end of entry.
    End(u8),
    /// Kind 5: 'none', the state.
    None(u8),
    /// Kind 6: the order of elimination.
    Order(Order),
    /// Kind 7: a monomial of the fact.
    Fact(u16),
}

impl Record {
    pub fn bytes(self) -> Vec<u8> {
        match self {
            Record::Start(route, u, g) => vec![1, route, u, g],
            Record::Monomial(mask) => vec![2, mask as u8, (mask >> 8) as u8],
            Record::Answer(unknown, mask) => vec![3, unknown, mask as u8, (mask >> 8) as u8],
            Record::End(route) => vec![4, route],
            Record::None(state) => vec![5, state],
            Record::Order(order) => [&[6], &order.0[..]].concat(),
            Record::Fact(mask) => vec![7, mask as u8, (mask >> 8) as u8],
        }
    }

    pub fn length(self) -> usize {
        match self {
            Record::Start(..) | Record::Answer(..) => 4,
            Record::Monomial(_) | Record::Fact(_) => 3,
            Record::End(_) | Record::None(_) => 2,
            Record::Order(_) => 7,
        }
    }

    /// The record at the start of bytes: a kind 1 to 7 and a whole body, or nothing.
    fn first(bytes: &[u8]) -> Option<Record> {
        match *bytes {
            [1, route, u, g, ..] => Some(Record::Start(route, u, g)),
            [2, low, high, ..] => Some(Record::Monomial(u16::from_le_bytes([low, high]))),
            [3, unknown, low, high, ..] => {
                Some(Record::Answer(unknown, u16::from_le_bytes([low, high])))
            }
            [4, route, ..] => Some(Record::End(route)),
            [5, state, ..] => Some(Record::None(state)),
            [6, a, b, c, d, e, f, ..] => Some(Record::Order(Order([a, b, c, d, e, f]))),
            [7, low, high, ..] => Some(Record::Fact(u16::from_le_bytes([low, high]))),
            _ => None,
        }
    }
}

/// The records of the entry for a route and a condition under a fact, solved by Boole's method, the
/// unknowns going as an order that has passed question 17 says. Kind 6 is left out for 0, 1, 2 and so
/// on; kind 2 holds f, and not f*(1 + g).
pub fn entry_records(
    route: u8,
    letters: Letters,
    order: &[usize],
    asked: &UnderFact,
) -> Vec<Record> {
    let mut records = vec![Record::Start(route, letters.unknowns as u8, letters.givens as u8)];
    if !order.iter().copied().eq(0..letters.unknowns) {
        records.push(Record::Order(Order::of(order)));
    }
    records.extend(asked.fact.written().into_iter().map(Record::Fact));
    records.extend(asked.condition.written().into_iter().map(Record::Monomial));
    match solve_boole(letters, order, asked) {
        Solution::Answers(answers) => {
            for (unknown, answer) in answers.iter().enumerate() {
                let record = |mask| Record::Answer(unknown as u8, mask);
                records.extend(answer.written().into_iter().map(record));
            }
        }
        Solution::None(state) => records.push(Record::None(state.0 as u8)),
    }
    records.push(Record::End(route));
    records
}

/// Writes the entry of a condition, a fact and an order and gives its length.
/// Questions 1, 2, 17, 4, 8, 22, 23, 14.
pub fn write_entry(
    route: u64,
    u: u64,
    g: u64,
    order: Order,
    fact: &[u8],
    condition: &[u8],
    output: &mut [u8],
) -> Result<usize, Refusal> {
    let letters = ask_letters(u, g)?;
    ask_route(route)?;
    let unknowns = ask_order(letters, order)?;
    ask_length(fact, letters.table_length())?;
    ask_length(condition, letters.table_length())?;
    let asked = ask_under_fact(letters, fact, condition)?;
    let records = entry_records(route as u8, letters, &unknowns, &asked);
    let bytes: Vec<u8> = records.into_iter().flat_map(Record::bytes).collect();
    ask(14, output.len() >= bytes.len())?;
    output[..bytes.len()].copy_from_slice(&bytes);
    Ok(bytes.len())
}

/// Whether an entry is solved or 'none', and in which state.
#[derive(Clone, Copy, Debug, PartialEq, Eq)]
pub enum Contents {
    Solved,
    None(State),
}

/// What reading an entry gives, beside the order and the tables.
#[derive(Clone, Copy, Debug, PartialEq, Eq)]
pub struct Reading {
    pub route: u8,
    pub unknowns: u8,
    pub givens: u8,
    pub contents: Contents,
    pub length: usize,
}

/// An entry for which questions 10, 11, 1, 2, 12, 17, 22 and 23 are answered yes.
pub struct Entry {
    pub reading: Reading,
    pub letters: Letters,
    /// The unknowns, first eliminated first.
    pub order: Vec<usize>,
    pub asked: UnderFact,
    pub solution: Solution,
}

/// Reads an entry into the order and the three buffers. Questions 10, 11, 1, 2, 12, 17, 22, 23, 4.
/// A 'none' entry leaves the answer buffer untouched, but 4 is asked of it.
pub fn read_entry(
    bytes: &[u8],
    order: &mut Order,
    fact: &mut [u8],
    condition: &mut [u8],
    answers: &mut [u8],
) -> Result<Reading, Refusal> {
    let Entry { reading, letters, order: unknowns, asked, solution } = examine(bytes)?;
    ask_length(fact, letters.table_length())?;
    ask_length(condition, letters.table_length())?;
    ask_length(answers, letters.answer_length())?;
    *order = Order::of(&unknowns);
    fill(fact, letters, &[asked.fact]);
    fill(condition, letters, &[asked.condition]);
    if let Solution::Answers(polynomials) = solution {
        fill(answers, letters, &polynomials);
    }
    Ok(reading)
}

/// Reads an entry, solves its condition afresh under its fact and in its order, and compares.
/// Questions 10, 11, 1, 2, 12, 17, 22, 23, 13.
pub fn audit(bytes: &[u8]) -> Result<Reading, Refusal> {
    let entry = examine(bytes)?;
    let afresh = solve_boole(entry.letters, &entry.order, &entry.asked);
    ask(13, entry.solution == afresh)?;
    Ok(entry.reading)
}

/// Asks 10, 11, 1, 2, 12, 17, 22 and 23.
pub fn examine(bytes: &[u8]) -> Result<Entry, Refusal> {
    let records = records_to_end(bytes).ok_or(Refusal(10))?;
    let (route, unknowns, givens) = ask_kinds(&records)?;
    let letters = ask_letters(unknowns as u64, givens as u64)?;
    ask_route(route as u64)?;
    ask(12, are_numbers_right(letters, &records))?;
    let order = match records[1] {
        Record::Order(order) => ask_order(letters, order)?,
        _ => (0..letters.unknowns).collect(),
    };
    let asked = asked_of(&records);
    ask_fact(letters, &asked.fact)?;
    let solution = solution_of(letters, &records);
    let contents = match solution {
        Solution::None(state) => Contents::None(state),
        Solution::Answers(_) => Contents::Solved,
    };
    let length = records.iter().map(|record| record.length()).sum();
    let reading = Reading { route, unknowns, givens, contents, length };
    Ok(Entry { reading, letters, order, asked, solution })
}

/// 10. The records to the first kind 4, or nothing.
fn records_to_end(bytes: &[u8]) -> Option<Vec<Record>> {
    let mut records = Vec::new();
    let mut place = 0;
    loop {
        let record = Record::first(&bytes[place..])?;
        place += record.length();
        records.push(record);
        if let Record::End(_) = record {
            return Some(records);
        }
    }
}

/// 11: one kind 1; at most one kind 6; kind 7; kind 2; kind 3 or one kind 5; one kind 4; both routes
/// equal.
fn ask_kinds(records: &[Record]) -> Result<(u8, u8, u8), Refusal> {
    let [Record::Start(route, u, g), inner @ .., Record::End(again)] = records else {
        return Err(Refusal(11));
    };
    let inner = match inner {
        [Record::Order(_), others @ ..] => others,
        all => all,
    };
    let of_fact = inner.iter().take_while(|record| matches!(record, Record::Fact(_))).count();
    let inner = &inner[of_fact..];
    let of_f = inner.iter().take_while(|record| matches!(record, Record::Monomial(_))).count();
    let last = &inner[of_f..];
    let is_none = matches!(last, [Record::None(_)]);
    let are_answers = last.iter().all(|record| matches!(record, Record::Answer(..)));
    ask(11, (is_none || are_answers) && route == again)?;
    Ok((*route, *u, *g))
}

/// 12: masks below 2^n, unknowns below U, the state below 2^G, all in order, none twice; and no
/// kind 6 with the order 0, 1, 2 and so on.
fn are_numbers_right(letters: Letters, records: &[Record]) -> bool {
    let right = records.iter().all(|record| match *record {
        Record::Monomial(mask) | Record::Fact(mask) => (mask as usize) < letters.table_length(),
        Record::Answer(unknown, mask) => {
            (unknown as usize) < letters.unknowns && (mask as usize) < letters.table_length()
        }
        Record::None(state) => (state as u64) < letters.states(),
        Record::Order(order) => order != Order::default_for(letters.unknowns),
        Record::Start(..) | Record::End(_) => true,
    });
    right && records.windows(2).all(|pair| are_rising(pair[0], pair[1]))
}

/// By unknown, then fewer letters, then the smaller mask; other pairs of kinds pass.
fn are_rising(first: Record, second: Record) -> bool {
    let key = |mask: u16| (mask.count_ones(), mask);
    match (first, second) {
        (Record::Monomial(m), Record::Monomial(k)) => key(m) < key(k),
        (Record::Fact(m), Record::Fact(k)) => key(m) < key(k),
        (Record::Answer(x, m), Record::Answer(y, k)) => (x, key(m)) < (y, key(k)),
        _ => true,
    }
}

/// The fact that the kind 7 records hold, 0 where there are none, and the condition of kind 2.
fn asked_of(records: &[Record]) -> UnderFact {
    let mut asked = UnderFact { fact: Polynomial::zero(), condition: Polynomial::zero() };
    for record in records {
        match *record {
            Record::Fact(mask) => asked.fact.add(mask),
            Record::Monomial(mask) => asked.condition.add(mask),
            _ => {}
        }
    }
    asked
}

/// The answers that the kind 3 records hold, 0 where there are none, or kind 5's state.
fn solution_of(letters: Letters, records: &[Record]) -> Solution {
    let mut answers = vec![Polynomial::zero(); letters.unknowns];
    for record in records {
        match *record {
            Record::Answer(unknown, mask) => answers[unknown as usize].add(mask),
            Record::None(state) => return Solution::None(State(state as u64)),
            _ => {}
        }
    }
    Solution::Answers(answers)
}

/// A lent volume and a place in it.
#[derive(Clone, Copy, Debug)]
pub struct Walk<'a> {
    pub volume: &'a [u8],
    pub place: usize,
}

/// What a walk answers.
#[derive(Clone, Copy, Debug, PartialEq, Eq)]
pub enum Count {
    Whole(usize),
    /// The refusal, and the count of entries passed before it.
    Refused(Refusal, usize),
}

impl Walk<'_> {
    /// The count of entries from the place to the end: per entry the audit's questions, then 15.
    pub fn count(self) -> Count {
        self.count_by(audit)
    }

    /// The same, by a way of auditing.
    pub fn count_by(self, audit: fn(&[u8]) -> Result<Reading, Refusal>) -> Count {
        let mut rest = self.volume.get(self.place..).unwrap_or(&[]);
        let mut passed = 0;
        let mut before = 0;
        while !rest.is_empty() {
            match audit(rest) {
                Err(refusal) => return Count::Refused(refusal, passed),
                Ok(reading) if reading.route <= before => {
                    return Count::Refused(Refusal(15), passed)
                }
                Ok(reading) => {
                    before = reading.route;
                    rest = &rest[reading.length..];
                    passed += 1;
                }
            }
        }
        Count::Whole(passed)
    }
}
