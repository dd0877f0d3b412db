//! The questions of documents 01 and 02 that more than one call asks, their numbers,
//! and the letters, states, choices and orders that they speak of.

use crate::polynomial::Polynomial;

/// U counts the unknowns, 0 to 6.
pub const MOST_UNKNOWNS: u64 = 6;
/// G counts the givens, 0 to 8.
pub const MOST_GIVENS: u64 = 8;
/// n = U + G, at most 10.
pub const MOST_LETTERS: u64 = 10;
/// The route is 1 to 250.
pub const LAST_ROUTE: u64 = 250;
/// The text has 1 to 200 bytes.
pub const LONGEST_TEXT: usize = 200;
/// The bytes of a table of ten letters; no table is longer.
pub const LONGEST_TABLE: usize = 1 << MOST_LETTERS;
/// The bound on an entry.
pub const LONGEST_ENTRY: usize = 27_709;
/// Stands in the places of an order that no unknown needs.
pub const UNUSED: u8 = 255;
/// The names of design states.
pub const NAMES: [u8; 4] = *b"ABCD";

/// The number of the first question answered no.
#[derive(Clone, Copy, Debug, PartialEq, Eq)]
pub struct Refusal(pub u8);

/// A number below 2^G: bit i is the value of given i.
#[derive(Clone, Copy, Debug, PartialEq, Eq)]
pub struct State(pub u64);

/// A number below 2^U: bit j is the value of unknown j.
#[derive(Clone, Copy, Debug, PartialEq, Eq)]
pub struct Choice(pub u64);

/// Six bytes: the unknown numbers, first eliminated first, then 255 in unused places. Question 17
/// asks whether they are that, so any bytes may stand here.
#[derive(Clone, Copy, Debug, PartialEq, Eq)]
pub struct Order(pub [u8; MOST_UNKNOWNS as usize]);

impl Order {
    /// The bytes for unknowns, first eliminated first.
    pub fn of(unknowns: &[usize]) -> Order {
        let mut bytes = [UNUSED; MOST_UNKNOWNS as usize];
        for (byte, &unknown) in bytes.iter_mut().zip(unknowns) {
            *byte = unknown as u8;
        }
        Order(bytes)
    }

    /// The order 0, 1, 2 and so on.
    pub fn default_for(unknowns: usize) -> Order {
        Order(std::array::from_fn(|place| if place < unknowns { place as u8 } else { UNUSED }))
    }
}

/// Counts of unknowns and givens for which question 1 is answered yes.
#[derive(Clone, Copy, Debug, PartialEq, Eq)]
pub struct Letters {
    pub unknowns: usize,
    pub givens: usize,
}

impl Letters {
    /// n = U + G.
    pub fn count(self) -> usize {
        self.unknowns + self.givens
    }

    /// The bytes of one table: 2^n.
    pub fn table_length(self) -> usize {
        1 << self.count()
    }

    /// The bytes of an answer table: U times 2^n.
    pub fn answer_length(self) -> usize {
        self.unknowns * self.table_length()
    }

    pub fn states(self) -> u64 {
        1 << self.givens
    }

    pub fn choices(self) -> u64 {
        1 << self.unknowns
    }

    /// The monomial of unknown j alone.
    pub fn unknown(self, j: usize) -> u16 {
        1 << j
    }

    /// The monomial of given i alone.
    pub fn given(self, i: usize) -> u16 {
        1 << (self.unknowns + i)
    }

    /// The letters that are 1 at a state and a choice, as a mask.
    pub fn point(self, state: State, choice: Choice) -> u16 {
        (choice.0 | state.0 << self.unknowns) as u16
    }

    /// The states, smallest first.
    pub fn all_states(self) -> impl Iterator<Item = State> {
        (0..self.states()).map(State)
    }

    /// Whether a fact over the givens is 0 in a state, so that the state counts.
    pub fn is_counted(self, fact: &Polynomial, state: State) -> bool {
        fact.value(self.point(state, Choice(0))) == 0
    }
}

/// Yes, or the number of the question.
pub fn ask(number: u8, yes: bool) -> Result<(), Refusal> {
    if yes {
        Ok(())
    } else {
        Err(Refusal(number))
    }
}

/// 1. Are U at most 6, G at most 8, n at most 10?
pub fn ask_letters(unknowns: u64, givens: u64) -> Result<Letters, Refusal> {
    let yes =
        unknowns <= MOST_UNKNOWNS && givens <= MOST_GIVENS && unknowns + givens <= MOST_LETTERS;
    ask(1, yes)?;
    Ok(Letters { unknowns: unknowns as usize, givens: givens as usize })
}

/// 2. Is the route 1 to 250?
pub fn ask_route(route: u64) -> Result<(), Refusal> {
    ask(2, (1..=LAST_ROUTE).contains(&route))
}

/// 3. Has the text 1 to 200 bytes?
pub fn ask_text_length(text: &[u8]) -> Result<(), Refusal> {
    ask(3, (1..=LONGEST_TEXT).contains(&text.len()))
}

/// 4, of one buffer: has it that many bytes or more?
pub fn ask_length(buffer: &[u8], length: usize) -> Result<(), Refusal> {
    ask(4, buffer.len() >= length)
}

/// 8, of one table: is each byte, as far as the length, 0 or 1?
pub fn ask_bytes(table: &[u8], length: usize) -> Result<(), Refusal> {
    ask(8, table[..length].iter().all(|&byte| byte <= 1))
}

/// 17. Does the order hold each unknown once and then only 255?
///
/// Answers the unknowns, first eliminated first.
pub fn ask_order(letters: Letters, order: Order) -> Result<Vec<usize>, Refusal> {
    let (used, unused) = order.0.split_at(letters.unknowns);
    let once = |unknown: usize| used.iter().filter(|&&byte| byte as usize == unknown).count() == 1;
    ask(17, (0..letters.unknowns).all(once) && unused.iter().all(|&byte| byte == UNUSED))?;
    Ok(used.iter().map(|&byte| byte as usize).collect())
}

/// 18. Is the name a byte `A` to `D`?
///
/// Answers its place among the names.
pub fn ask_name(name: u64) -> Result<usize, Refusal> {
    NAMES.iter().position(|&byte| u64::from(byte) == name).ok_or(Refusal(18))
}

/// 20. Has S only declared letters?
///
/// Answers them as a mask.
pub fn ask_mask(letters: Letters, s: u64) -> Result<u16, Refusal> {
    ask(20, s >> letters.count() == 0)?;
    Ok(s as u16)
}

/// 21. Does the handed substitution make the condition zero?
pub fn ask_makes_zero(condition: &Polynomial, handed: &[Polynomial]) -> Result<(), Refusal> {
    ask(21, condition.substitute(handed).is_zero())
}

/// 22. Has g no unknown? Then 23. Is g 0 in some state?
pub fn ask_fact(letters: Letters, fact: &Polynomial) -> Result<(), Refusal> {
    let has_unknown = |mask: u16| (0..letters.unknowns).any(|j| mask & letters.unknown(j) != 0);
    ask(22, !fact.masks().any(has_unknown))?;
    ask(23, letters.all_states().any(|state| letters.is_counted(fact, state)))
}
