//! The archive entry: records are written from tables in the written order, looked at in one pass
//! over the bytes for all questions, and read into tables in a second.

use super::fact::{self, UnderFact};
use super::solving::{ask_order, boole};
use super::table::Table;
use super::written::{Written, LETTERS};
use super::{for_blocks, Block};
use crate::entry::{Contents, Count, Reading, Walk};
use crate::questions::{
    ask, ask_length, ask_letters, ask_route, Letters, Order, Refusal, State, MOST_UNKNOWNS,
};

/// An entry whose answers are found, and whose masks are counted.
pub struct Entry<const K: usize> {
    route: u8,
    letters: Letters,
    order: Order,
    fact: Written<K>,
    condition: Written<K>,
    answers: Result<[Written<K>; MOST_UNKNOWNS as usize], State>,
}

impl<const K: usize> Entry<K> {
    /// From a condition under a fact, the values of f*(1 + g), and an order that has passed 17.
    pub fn new<B: Block>(
        route: u8,
        letters: Letters,
        order: Order,
        asked: &UnderFact<B, K>,
        values: Table<B, K>,
    ) -> Self {
        let answers = boole(&order.0[..letters.unknowns], values).map(|values| {
            let mut answers = [Written::NONE; MOST_UNKNOWNS as usize];
            for (answer, values) in answers.iter_mut().zip(&values[..letters.unknowns]) {
                *answer = Written::of(&values.transformed());
            }
            answers
        });
        let fact = asked.fact.as_ref().map_or(Written::NONE, Written::of);
        Entry { route, letters, order, fact, condition: Written::of(&asked.condition), answers }
    }

    fn has_kind_6(&self) -> bool {
        self.order != Order::default_for(self.letters.unknowns)
    }

    pub fn length<F: Format>(&self) -> usize {
        let found = match &self.answers {
            Ok(answers) => F::length(4) * answers.iter().map(|answer| answer.count).sum::<usize>(),
            Err(_) => F::length(2),
        };
        let order = if self.has_kind_6() { F::length(7) } else { 0 };
        let monomials = self.fact.count + self.condition.count;
        F::length(4) + order + F::length(3) * monomials + found + F::length(2)
    }

    /// Puts the records into room of their length.
    pub fn put<F: Format>(&self, mut room: &mut [u8]) {
        let Letters { unknowns, givens } = self.letters;
        F::put([1, self.route, unknowns as u8, givens as u8], &mut room);
        if self.has_kind_6() {
            let [a, b, c, d, e, f] = self.order.0;
            F::put([6, a, b, c, d, e, f], &mut room);
        }
        F::put_monomials(7, &self.fact, &mut room);
        F::put_monomials(2, &self.condition, &mut room);
        match &self.answers {
            Err(state) => F::put([5, state.0 as u8], &mut room),
            Ok(answers) => {
                for (answer, unknown) in answers.iter().zip(0..unknowns as u8) {
                    F::put_answer(unknown, answer, &mut room);
                }
            }
        }
        F::put([4, self.route], &mut room);
    }
}

/// What records look like.
pub trait Format {
    /// The length of a record of so many bytes.
    fn length(record: usize) -> usize;
    /// Puts a record at the front of the room, and leaves the rest of it.
    fn put<const N: usize>(record: [u8; N], room: &mut &mut [u8]);
    /// Records of a kind that holds a monomial and nothing else.
    fn put_monomials<const K: usize>(kind: u8, masks: &Written<K>, room: &mut &mut [u8]);
    fn put_answer<const K: usize>(unknown: u8, masks: &Written<K>, room: &mut &mut [u8]);
}

/// Puts a record for each mask, in the written order.
#[inline(always)]
pub fn put_each<const K: usize, const L: usize>(
    masks: &Written<K>,
    room: &mut &mut [u8],
    record: impl Fn(usize) -> [u8; L],
) {
    let records = room.split_off_mut(..L * masks.count).expect("room for the records");
    let (records, _) = records.as_chunks_mut();
    masks.each(|mask, place| records[place] = record(mask));
}

/// Records as they are archived.
struct Archived;

impl Format for Archived {
    fn length(record: usize) -> usize {
        record
    }

    fn put<const N: usize>(record: [u8; N], room: &mut &mut [u8]) {
        room.split_off_mut(..N).expect("room for the record").copy_from_slice(&record);
    }

    fn put_monomials<const K: usize>(kind: u8, masks: &Written<K>, room: &mut &mut [u8]) {
        put_each(masks, room, |mask| [kind, mask as u8, (mask >> 8) as u8]);
    }

    fn put_answer<const K: usize>(unknown: u8, masks: &Written<K>, room: &mut &mut [u8]) {
        put_each(masks, room, |mask| [3, unknown, mask as u8, (mask >> 8) as u8]);
    }
}

/// Writes the entry of a condition, a fact and an order and gives its length.
/// Questions 1, 2, 17, 4, 8, 22, 23, 14.
pub fn write_entry<B: Block>(
    route: u64,
    u: u64,
    g: u64,
    order: Order,
    fact: &[u8],
    condition: &[u8],
    output: &mut [u8],
) -> Result<usize, Refusal> {
    let letters = ask_letters(u, g)?;
    ask_route(route)?;
    ask_order(letters, &order)?;
    ask_length(fact, letters.table_length())?;
    ask_length(condition, letters.table_length())?;
    let lent = fact::Lent::ask(letters, fact, condition)?;
    for_blocks!(B, letters.count(), put_entry(route as u8, letters, order, lent, output))
}

fn put_entry<B: Block, const K: usize>(
    route: u8,
    letters: Letters,
    order: Order,
    lent: fact::Lent,
    output: &mut [u8],
) -> Result<usize, Refusal> {
    let asked = lent.tables::<B, K>(letters)?;
    let entry = Entry::new(route, letters, order, &asked, asked.values());
    let length = entry.length::<Archived>();
    ask(14, output.len() >= length)?;
    entry.put::<Archived>(&mut output[..length]);
    Ok(length)
}

/// An entry that has passed 10, 11, 1, 2, 12, 17, 22 and 23.
struct Examined<'a> {
    reading: Reading,
    letters: Letters,
    order: Order,
    has_fact: bool,
    /// Its records behind kind 1 and kind 6.
    records: &'a [u8],
}

/// Asks 10, 11, 1, 2, 12, 17, 22 and 23 in one pass over the records.
fn examine(bytes: &[u8]) -> Result<Examined<'_>, Refusal> {
    let (mut route, mut unknowns, mut givens) = (0, 0, 0);
    let (mut masks, mut states) = (0, 0);
    let mut contents = Contents::Solved;
    let mut order = None;
    // the letters of the fact, if it is there
    let mut fact = None;
    let (mut ordered, mut fits) = (true, true);
    let (mut kind, mut last, mut length) = (0, 0, 0);
    loop {
        let rest = &bytes[length..];
        let before = std::mem::replace(&mut kind, rest.first().copied().unwrap_or(0));
        match *rest {
            [2, low, high, ..] => {
                ordered &= matches!(before, 1 | 7 | 2);
                let mask = u16::from_le_bytes([low, high]) as u64;
                let place = place_of(1, mask);
                fits &= mask < masks && place > last;
                last = place;
                length += 3;
                // those behind it, as long as each passes 12: only the place changes
                while let [2, low, high, ..] = bytes[length..] {
                    let mask = u16::from_le_bytes([low, high]) as u64;
                    let place = place_of(1, mask);
                    if mask >= masks || place <= last {
                        break;
                    }
                    last = place;
                    length += 3;
                }
            }
            [3, unknown, low, high, ..] => {
                ordered &= before != 5 && before != 0;
                let mask = u16::from_le_bytes([low, high]) as u64;
                let place = place_of(2 + unknown as u64, mask);
                fits &= mask < masks && (unknown as u64) < unknowns && place > last;
                last = place;
                length += 4;
                while let [3, unknown, low, high, ..] = bytes[length..] {
                    let mask = u16::from_le_bytes([low, high]) as u64;
                    let place = place_of(2 + unknown as u64, mask);
                    if mask >= masks || unknown as u64 >= unknowns || place <= last {
                        break;
                    }
                    last = place;
                    length += 4;
                }
            }
            [1, first, u, g, ..] => {
                ordered &= before == 0;
                (route, unknowns, givens) = (first, u as u64, g as u64);
                // question 1 comes before 12, and refuses what cannot be shifted
                masks = 1u64.checked_shl((unknowns + givens) as u32).unwrap_or(0);
                states = 1u64.checked_shl(givens as u32).unwrap_or(0);
                length += 4;
            }
            [7, low, high, ..] => {
                ordered &= matches!(before, 1 | 7);
                let mask = u16::from_le_bytes([low, high]) as u64;
                let place = place_of(0, mask);
                fits &= mask < masks && place > last;
                fact = Some(fact.unwrap_or(0) | mask);
                last = place;
                length += 3;
            }
            [6, a, b, c, d, e, f, ..] => {
                ordered &= before == 1 && order.is_none();
                order = Some(Order([a, b, c, d, e, f]));
                // what may follow kind 1 may follow it, but for another kind 6
                kind = 1;
                length += 7;
            }
            [5, state, ..] => {
                ordered &= matches!(before, 1 | 7 | 2);
                fits &= (state as u64) < states;
                contents = Contents::None(State(state as u64));
                length += 2;
            }
            [4, again, ..] => {
                ordered &= before != 0 && again == route;
                length += 2;
                break;
            }
            _ => return Err(Refusal(10)),
        }
    }
    ask(11, ordered)?;
    let letters = ask_letters(unknowns, givens)?;
    ask_route(route as u64)?;
    let default = Order::default_for(letters.unknowns);
    ask(12, fits && order != Some(default))?;
    let start = if order.is_some() { 11 } else { 4 };
    let order = order.unwrap_or(default);
    ask_order(letters, &order)?;
    ask(22, fact.unwrap_or(0) & (letters.choices() - 1) == 0)?;
    // none is there twice, so that without a letter it is the monomial 1 alone
    ask(23, fact != Some(0))?;
    let reading =
        Reading { route, unknowns: unknowns as u8, givens: givens as u8, contents, length };
    let has_fact = fact.is_some();
    Ok(Examined { reading, letters, order, has_fact, records: &bytes[start..] })
}

/// One rising number, for a mask of at most ten letters: the table, then the written order. No
/// place is 0.
fn place_of(table: u64, mask: u64) -> u64 {
    table << 32 | (1 + LETTERS[mask as usize % 1024] as u64) << 16 | mask
}

/// The masks of the fact and of the condition, and the unknowns and masks of the answers, in the
/// records of an entry that has passed the questions.
fn each_monomial(
    records: &[u8],
    mut of_fact: impl FnMut(usize),
    mut of_condition: impl FnMut(usize),
    mut of_answer: impl FnMut(usize, usize),
) {
    let mut rest = records;
    while let [7, low, high, others @ ..] = rest {
        of_fact(u16::from_le_bytes([*low, *high]) as usize);
        rest = others;
    }
    while let [2, low, high, others @ ..] = rest {
        of_condition(u16::from_le_bytes([*low, *high]) as usize);
        rest = others;
    }
    while let [3, unknown, low, high, others @ ..] = rest {
        of_answer(*unknown as usize, u16::from_le_bytes([*low, *high]) as usize);
        rest = others;
    }
}

/// Reads an entry into the order and the three buffers. Questions 10, 11, 1, 2, 12, 17, 22, 23, 4.
pub fn read_entry<B: Block>(
    bytes: &[u8],
    order: &mut Order,
    fact: &mut [u8],
    condition: &mut [u8],
    answers: &mut [u8],
) -> Result<Reading, Refusal> {
    let Examined { reading, letters, order: found, records, .. } = examine(bytes)?;
    let length = letters.table_length();
    ask_length(fact, length)?;
    ask_length(condition, length)?;
    ask_length(answers, letters.answer_length())?;
    *order = found;
    fact[..length].fill(0);
    condition[..length].fill(0);
    if reading.contents == Contents::Solved {
        answers[..letters.answer_length()].fill(0);
    }
    each_monomial(
        records,
        |mask| fact[mask] = 1,
        |mask| condition[mask] = 1,
        |unknown, mask| answers[unknown * length + mask] = 1,
    );
    Ok(reading)
}

/// Reads an entry, solves its condition afresh under its fact and in its order, and compares.
/// Questions 10, 11, 1, 2, 12, 17, 22, 23, 13.
pub fn audit<B: Block>(bytes: &[u8]) -> Result<Reading, Refusal> {
    let entry = examine(bytes)?;
    ask(13, for_blocks!(B, entry.letters.count(), holds_afresh(&entry)))?;
    Ok(entry.reading)
}

fn holds_afresh<B: Block, const K: usize>(entry: &Examined) -> bool {
    let mut asked =
        UnderFact::<B, K> { fact: entry.has_fact.then_some(Table::ZERO), condition: Table::ZERO };
    let mut held = [Table::<B, K>::ZERO; MOST_UNKNOWNS as usize];
    each_monomial(
        entry.records,
        |mask| asked.fact.iter_mut().for_each(|fact| fact.set(mask)),
        |mask| asked.condition.set(mask),
        |unknown, mask| held[unknown].set(mask),
    );
    let order = &entry.order.0[..entry.letters.unknowns];
    match (entry.reading.contents, boole(order, asked.values())) {
        (Contents::Solved, Ok(afresh)) => {
            let pairs = held.iter().zip(&afresh).take(order.len());
            pairs.into_iter().all(|(held, afresh)| *held == afresh.transformed())
        }
        (Contents::None(state), Err(afresh)) => state == afresh,
        _ => false,
    }
}

/// The count of entries from a place to the end: per entry the audit's questions, then 15.
pub fn walk<B: Block>(volume: &[u8], place: usize) -> Count {
    Walk { volume, place }.count_by(audit::<B>)
}
