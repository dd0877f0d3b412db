//! What test cases are made from: random numbers, tables, bounds, orders, facts, handed polynomials,
//! answers, sessions and bench rows.

pub mod answers;
pub mod entries;
pub mod facts;
pub mod handed;
pub mod orders;
pub mod sessions;
pub mod texts;

use crate::plain::transform;
use crate::questions::{Choice, State};

/// A small xorshift.
pub struct Random(u64);

impl Random {
    pub fn new(call: char) -> Random {
        Random(0x9e37_79b9_7f4a_7c15 ^ (call as u64) << 20)
    }

    pub fn number(&mut self) -> u64 {
        self.0 ^= self.0 << 13;
        self.0 ^= self.0 >> 7;
        self.0 ^= self.0 << 17;
        self.0 >> 11
    }

    pub fn below(&mut self, bound: usize) -> usize {
        (self.number() % bound as u64) as usize
    }

    /// True once in so many.
    pub fn once_in(&mut self, many: usize) -> bool {
        self.below(many) == 0
    }

    pub fn pick<T: Copy>(&mut self, from: &[T]) -> T {
        from[self.below(from.len())]
    }

    /// A table with each monomial present once in so many.
    pub fn table(&mut self, length: usize, many: usize) -> Vec<u8> {
        (0..length).map(|_| self.once_in(many) as u8).collect()
    }

    /// A table of few monomials, of many, or of about half.
    pub fn any_table(&mut self, length: usize) -> Vec<u8> {
        let many = self.pick(&[1 + length / 3, 3, 2, 2]);
        self.table(length, many)
    }

    /// A condition with a solution: in each state some choice has the value 0.
    pub fn solvable(&mut self, u: u64, g: u64) -> Vec<u8> {
        let mut values = self.values(u, g);
        for state in 0..1 << g {
            let choice = self.below(1 << u);
            values[state << u | choice] = 0;
        }
        transform(&values)
    }

    /// A condition with 1 at every choice of one state, and of others perhaps.
    pub fn blocked(&mut self, u: u64, g: u64, state: usize) -> Vec<u8> {
        let mut values = transform(&self.solvable(u, g));
        for other in state..1 << g {
            if other == state || self.once_in(4) {
                values[other << u..(other + 1) << u].fill(1);
            }
        }
        transform(&values)
    }

    /// The values of a condition: about half 1, most 1, or all.
    fn values(&mut self, u: u64, g: u64) -> Vec<u8> {
        let most = self.pick(&[2, 4, 100]);
        (0..1 << (u + g)).map(|_| !self.once_in(most) as u8).collect()
    }

    /// Sets one byte of the first `length` to a byte that is neither 0 nor 1.
    pub fn spoil(&mut self, table: &mut [u8], length: usize) {
        if length > 0 {
            let place = self.pick(&[0, length / 2, length - 1]);
            table[place.min(length - 1)] = self.pick(&[2, 3, 7, 9]);
        }
    }

    /// Makes a table longer by garbage, one byte shorter or empty; mostly leaves it.
    pub fn fit(&mut self, table: &mut Vec<u8>) {
        match self.below(12) {
            0 => table.push(1),
            1 => table.extend([7, 0, 9]),
            2 => drop(table.pop()),
            3 => table.clear(),
            _ => {}
        }
    }

    /// A buffer size: mostly exact, else longer, one byte too short or empty.
    pub fn size(&mut self, exact: usize) -> usize {
        match self.below(12) {
            0 => exact + 1,
            1 => exact + 5,
            2 => exact.saturating_sub(1),
            3 => 0,
            _ => exact,
        }
    }
}

/// Every table of so many bytes.
pub fn every_table(length: usize) -> impl Iterator<Item = Vec<u8>> {
    (0..1usize << length).map(move |bits| (0..length).map(|m| (bits >> m & 1) as u8).collect())
}

/// The bytes that are 1, counted one by one: the monomials present in tables.
pub fn ones(tables: &[u8]) -> usize {
    tables.iter().filter(|&&byte| byte == 1).count()
}

/// The tables of texts one after another.
pub fn tables_of(u: u64, g: u64, texts: &[&str]) -> Vec<u8> {
    let table = |text: &&str| {
        let mut table = vec![0; 1 << (u + g)];
        crate::read_text(u, g, text.as_bytes(), &mut table).expect("a text of the grammar");
        table
    };
    texts.iter().flat_map(table).collect()
}

/// The value of a table at each point, one call for each. The low U bits of a point are a choice,
/// those above a state.
pub fn values_of(u: u64, g: u64, table: &[u8]) -> Vec<u8> {
    let at = |point: u64| {
        let (state, choice) = (State(point >> u), Choice(point & ((1 << u) - 1)));
        crate::value(u, g, table, state, choice).expect("a value")
    };
    (0..1 << (u + g)).map(at).collect()
}

/// Every (U, G) for which question 1 is answered yes, with n in the range.
pub fn pairs(least: u64, most: u64) -> Vec<(u64, u64)> {
    let all = (0..=6).flat_map(|u| (0..=8).map(move |g| (u, g)));
    all.filter(|(u, g)| (least..=most).contains(&(u + g))).collect()
}

/// (U, G) for which question 1 is answered no; sums that wrap in 64 bits too.
pub const TOO_LARGE: [(u64, u64); 22] = [
    (7, 0),
    (0, 9),
    (7, 3),
    (1, 9),
    (3, 8),
    (4, 7),
    (5, 6),
    (6, 5),
    (6, 8),
    (7, 9),
    (10, 0),
    (0, 10),
    (64, 0),
    (0, 64),
    (256, 1),
    (1, 256),
    (4_294_967_296, 4_294_967_296),
    (9_223_372_036_854_775_808, 9_223_372_036_854_775_808),
    (18_446_744_073_709_551_615, 1),
    (1, 18_446_744_073_709_551_615),
    (18_446_744_073_709_551_610, 8),
    (18_446_744_073_709_551_615, 18_446_744_073_709_551_615),
];

/// Sets of letters for which question 20 is answered no whatever is declared; cut to fewer bits,
/// some of them hold only declared letters, or none.
pub const UNDECLARED: [u64; 11] = [
    1_024,
    1_025,
    2_047,
    65_536,
    65_539,
    4_294_967_296,
    4_294_967_297,
    9_223_372_036_854_775_808,
    9_223_372_036_854_775_809,
    18_446_744_073_709_550_592,
    18_446_744_073_709_551_615,
];

/// The rows of the bench table that a text can show, starred and others.
pub const BENCH: [(u64, u64, &str); 13] = [
    (0, 0, "0"),
    (0, 0, "1"),
    (1, 0, "u"),
    (1, 0, "!u"),
    (2, 0, "u+v"),
    (2, 0, "u*v"),
    (2, 0, "u+v+1"),
    (1, 1, "u+a"),
    (1, 1, "a"),
    (1, 2, "a*u+b*u+b"),
    (2, 0, "(v+1)*(u+v)+(v+1)*u"),
    (2, 0, "w"),
    (2, 0, "()"),
];

/// The bench rows with a table, and texts for the slips to shut out.
pub fn bench_tables() -> Vec<(u64, u64, Vec<u8>)> {
    let slips =
        [(2, 0, "u|v"), (1, 0, "u+u+u"), (2, 1, "u*v+a"), (1, 2, "a*b"), (2, 1, "(u+a)|(v+u)")];
    let mut rows = Vec::new();
    for (u, g, text) in BENCH.into_iter().chain(slips) {
        let mut table = vec![0; 1 << (u + g)];
        if crate::read_text(u, g, text.as_bytes(), &mut table).is_ok() {
            rows.push((u, g, table));
        }
    }
    rows
}
