//! Random tables and orders from a fixed seed, and the counts of letters.

use reference::{plain, Letters, Order};

pub struct Random(pub u64);

impl Random {
    pub fn below(&mut self, bound: usize) -> usize {
        self.0 ^= self.0 << 13;
        self.0 ^= self.0 >> 7;
        self.0 ^= self.0 << 17;
        ((self.0 >> 11) % bound as u64) as usize
    }

    pub fn table(&mut self, length: usize) -> Vec<u8> {
        let many = [2, 2, 3, 1 + length / 3][self.below(4)];
        (0..length).map(|_| (self.below(many) == 0) as u8).collect()
    }

    /// Any order of the unknowns.
    pub fn order(&mut self, letters: Letters) -> Order {
        let mut unknowns: Vec<usize> = (0..letters.unknowns).collect();
        for place in (1..unknowns.len()).rev() {
            unknowns.swap(place, self.below(place + 1));
        }
        Order::of(&unknowns)
    }

    /// A condition with a solution in each state.
    pub fn solvable(&mut self, letters: Letters) -> Vec<u8> {
        let mut values = self.table(letters.table_length());
        for state in 0..1 << letters.givens {
            values[state << letters.unknowns | self.below(1 << letters.unknowns)] = 0;
        }
        plain::transform(&values)
    }
}

pub fn all_letters(most: usize) -> Vec<Letters> {
    let pairs =
        (0..=6).flat_map(|unknowns| (0..=8).map(move |givens| Letters { unknowns, givens }));
    pairs.filter(|letters| letters.unknowns + letters.givens <= most).collect()
}
