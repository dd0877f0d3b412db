//! What the calls are measured on: texts, tables, entries and a volume, from a fixed seed.

use reference::cases::facts::no_fact;
use reference::cases::{self, handed};
use reference::plain;
use reference::{Letters, Order, Solved, LONGEST_ENTRY};
use std::iter;

/// So many of each.
const COUNT: usize = 8;

pub const LONGEST_TEXT: usize = 200;

/// A small xorshift.
pub struct Random(u64);

impl Random {
    pub fn new(seed: u64) -> Random {
        Random(0x9e37_79b9_7f4a_7c15 ^ seed << 20)
    }

    pub fn below(&mut self, bound: usize) -> usize {
        self.0 ^= self.0 << 13;
        self.0 ^= self.0 >> 7;
        self.0 ^= self.0 << 17;
        ((self.0 >> 11) % bound as u64) as usize
    }

    fn table(&mut self, length: usize) -> Vec<u8> {
        (0..length).map(|_| self.below(2) as u8).collect()
    }
}

#[derive(Clone, Copy, PartialEq)]
pub enum Kind {
    /// Texts as a designer writes them, and the conditions that they are read into.
    Typical,
    /// Texts of as many letters as fit; tables in which every second monomial is present, in a fact
    /// every second without an unknown.
    Dense,
}

pub struct Inputs {
    pub letters: Letters,
    pub texts: Vec<Vec<u8>>,
    /// Conditions that have a solution.
    pub conditions: Vec<Vec<u8>>,
    /// A fact for each condition, none of them 0.
    pub facts: Vec<Vec<u8>>,
    /// Two tables each.
    pub pairs: Vec<(Vec<u8>, Vec<u8>)>,
    /// A condition and polynomials to be handed over.
    pub handed: Vec<(Vec<u8>, Vec<u8>)>,
    pub entries: Vec<Vec<u8>>,
    /// The entries end to end.
    pub volumes: Vec<Vec<u8>>,
}

impl Inputs {
    pub fn new(letters: Letters, kind: Kind) -> Inputs {
        let mut random = Random::new(letters.table_length() as u64);
        let texts = (0..COUNT).map(|_| text(letters, kind, &mut random)).collect();
        let conditions: Vec<_> = (0..COUNT).map(|_| solvable(letters, kind, &mut random)).collect();
        let next = |place: usize| conditions[(place + 1) % COUNT].clone();
        let pairs = (0..COUNT).map(|place| (conditions[place].clone(), next(place))).collect();
        let handed =
            (0..COUNT).map(|place| (conditions[place].clone(), answers(letters, &next(place))));
        let handed =
            handed.map(|(condition, answers)| (condition, answers.expect("a solution"))).collect();
        let facts = (0..COUNT).map(|_| fact(letters, kind, &mut random)).collect();
        let mut inputs = Inputs {
            letters,
            texts,
            conditions,
            facts,
            pairs,
            handed,
            entries: vec![],
            volumes: vec![],
        };
        inputs.entries = entries(letters, &inputs.without_facts());
        inputs.volumes = vec![inputs.entries.concat()];
        inputs
    }

    /// The fact 0 and each condition.
    pub fn without_facts(&self) -> Vec<(Vec<u8>, Vec<u8>)> {
        let (u, g) = counts(self.letters);
        self.conditions.iter().map(|condition| (no_fact(u, g), condition.clone())).collect()
    }

    /// Each condition behind its fact.
    pub fn under_facts(&self) -> Vec<(Vec<u8>, Vec<u8>)> {
        self.facts.iter().cloned().zip(self.conditions.iter().cloned()).collect()
    }

    /// The entries of the conditions under their facts.
    pub fn entries_under_facts(&self) -> Vec<Vec<u8>> {
        entries(self.letters, &self.under_facts())
    }

    /// Boole's and Löwenheim's answers to each condition.
    pub fn answers(&self) -> Vec<(Vec<u8>, Vec<u8>)> {
        let (u, g) = counts(self.letters);
        let (order, fact) = (default_order(self.letters), no_fact(u, g));
        let both = |condition: &Vec<u8>| {
            let mut lowenheim = vec![0; self.letters.answer_length()];
            plain::lowenheim::<u64>(u, g, order, &fact, condition, &mut lowenheim)
                .expect("a condition");
            (answers(self.letters, condition).expect("a solution"), lowenheim)
        };
        self.conditions.iter().map(both).collect()
    }

    /// Each condition and dense polynomials that make it zero: at each state and choice they lead to
    /// any choice that solves.
    pub fn solving(&self) -> Vec<(Vec<u8>, Vec<u8>)> {
        let (u, g) = counts(self.letters);
        let random = &mut cases::Random::new('h');
        let solution =
            |condition: &Vec<u8>| random.handed(handed::Kind::OverLetters, u, g, condition);
        self.conditions.iter().cloned().zip(self.conditions.iter().map(solution)).collect()
    }

    /// The same with one monomial changed, so that they no longer do.
    pub fn nearly_solving(&self) -> Vec<(Vec<u8>, Vec<u8>)> {
        let (u, g) = counts(self.letters);
        let random = &mut cases::Random::new('n');
        let mut pairs = self.solving();
        for (condition, handed) in &mut pairs {
            let mut answers = vec![0; handed.len()];
            let changed = iter::repeat_with(|| {
                let mut changed = handed.clone();
                random.change_monomial(&mut changed);
                changed
            });
            let mut refused = changed.filter(|changed| {
                let fact = no_fact(u, g);
                plain::lowenheim_handed::<u64>(u, g, &fact, condition, changed, &mut answers)
                    .is_err()
            });
            *handed = refused.next().expect("there is always one more");
        }
        pairs
    }
}

/// U and G for a number of letters: half of them and one more are unknowns, six of ten.
pub fn letters_of(count: usize) -> Letters {
    let unknowns = count / 2 + 1;
    Letters { unknowns, givens: count - unknowns }
}

/// The counts as the calls take them.
pub fn counts(letters: Letters) -> (u64, u64) {
    (letters.unknowns as u64, letters.givens as u64)
}

/// The order 0, 1, 2 and so on, in which every row is measured that names no other.
pub fn default_order(letters: Letters) -> Order {
    Order::default_for(letters.unknowns)
}

/// The same backwards.
pub fn reverse_order(letters: Letters) -> Order {
    Order::of(&(0..letters.unknowns).rev().collect::<Vec<_>>())
}

fn text(letters: Letters, kind: Kind, random: &mut Random) -> Vec<u8> {
    match kind {
        Kind::Typical => route_condition(letters, random),
        Kind::Dense => crowded_text(letters, random),
    }
}

/// Products of a few letters, some of them negated or in brackets, joined mostly by `|`, as far
/// as 200 bytes go.
pub fn route_condition(letters: Letters, random: &mut Random) -> Vec<u8> {
    let mut text = Vec::new();
    loop {
        let mut term = Vec::new();
        if !text.is_empty() {
            term.push(b"||+"[random.below(3)]);
        }
        for factor in 0..2 + random.below(3) {
            if factor > 0 {
                term.push(b'*');
            }
            push_factor(letters, factor == 0, random, &mut term);
        }
        if text.len() + term.len() > LONGEST_TEXT {
            return text;
        }
        text.extend(term);
    }
}

fn push_factor(letters: Letters, of_unknown: bool, random: &mut Random, term: &mut Vec<u8>) {
    if random.below(3) == 0 {
        term.push(b'!');
    }
    if of_unknown {
        term.push(b'u' + random.below(letters.unknowns) as u8);
    } else if random.below(4) > 0 {
        term.push(any_letter(letters, random));
    } else {
        let join = b"+|"[random.below(2)];
        term.extend([b'(', any_letter(letters, random), join, any_letter(letters, random), b')']);
    }
}

fn any_letter(letters: Letters, random: &mut Random) -> u8 {
    let letter = random.below(letters.unknowns + letters.givens);
    match letter < letters.unknowns {
        true => b'u' + letter as u8,
        false => b'a' + (letter - letters.unknowns) as u8,
    }
}

/// A letter, then a sign and a letter over and over: 199 bytes.
fn crowded_text(letters: Letters, random: &mut Random) -> Vec<u8> {
    let mut text = vec![any_letter(letters, random)];
    while text.len() + 2 <= LONGEST_TEXT {
        text.extend([b"+|*"[random.below(3)], any_letter(letters, random)]);
    }
    text
}

fn solvable(letters: Letters, kind: Kind, random: &mut Random) -> Vec<u8> {
    let (u, g) = counts(letters);
    if kind == Kind::Dense {
        let mut values = random.table(letters.table_length());
        for state in values.chunks_exact_mut(1 << letters.unknowns) {
            state[random.below(1 << letters.unknowns)] = 0;
        }
        return plain::transform(&values);
    }
    loop {
        let mut condition = vec![0; letters.table_length()];
        let text = route_condition(letters, random);
        plain::read_text::<u64>(u, g, &text, &mut condition).expect("a text of the grammar");
        if answers(letters, &condition).is_some() {
            return condition;
        }
    }
}

/// Pairs of givens that exclude each other, as contacts of the same points do; or about every second
/// monomial of the givens, the one with all of them among these.
fn fact(letters: Letters, kind: Kind, random: &mut Random) -> Vec<u8> {
    let (u, g) = counts(letters);
    let mut fact = no_fact(u, g);
    if kind == Kind::Dense {
        for masks in fact.chunks_exact_mut(1 << letters.unknowns) {
            masks[0] = random.below(2) as u8;
        }
        fact[letters.table_length() - (1 << letters.unknowns)] = 1;
        return fact;
    }
    let mut givens: Vec<u8> = (0..letters.givens as u8).map(|i| b'a' + i).collect();
    for place in (1..givens.len()).rev() {
        givens.swap(place, random.below(place + 1));
    }
    let mut text = Vec::new();
    for (place, given) in givens.into_iter().enumerate() {
        if place > 0 {
            text.push(b"|*"[place % 2]);
        }
        text.push(given);
    }
    plain::read_text::<u64>(u, g, &text, &mut fact).expect("a text of the grammar");
    fact
}

/// Boole's answers, if there are any.
fn answers(letters: Letters, condition: &[u8]) -> Option<Vec<u8>> {
    let (u, g) = counts(letters);
    let (order, fact) = (default_order(letters), no_fact(u, g));
    let mut answers = vec![0; letters.answer_length()];
    let solved = plain::boole::<u64>(u, g, order, &fact, condition, &mut answers);
    matches!(solved, Ok(Solved::Done { .. })).then_some(answers)
}

/// The entries of conditions under facts, routes rising from 1.
fn entries(letters: Letters, asked: &[(Vec<u8>, Vec<u8>)]) -> Vec<Vec<u8>> {
    let (u, g) = counts(letters);
    let order = default_order(letters);
    let entry = |(route, (fact, condition)): (u64, &(Vec<u8>, Vec<u8>))| {
        let mut entry = vec![0; LONGEST_ENTRY];
        let written = plain::write_entry::<u64>(route, u, g, order, fact, condition, &mut entry);
        entry.truncate(written.expect("an entry"));
        entry
    };
    (1..).zip(asked).map(entry).collect()
}
