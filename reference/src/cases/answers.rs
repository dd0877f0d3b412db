//! Two answer tables as a test case: the shorter is to be found.

use super::handed::Kind;
use super::Random;

impl Random {
    /// Boole's and Löwenheim's answers to a condition, or the two exchanged; two of any densities; or
    /// two whose totals tie, or differ by one.
    pub fn two_answers(&mut self, u: u64, g: u64) -> [Vec<u8>; 2] {
        let length = u as usize * (1 << (u + g));
        match self.below(4) {
            turn @ 0..2 => {
                let condition = self.solvable(u, g);
                let mut answers = self.solved_both_ways(u, g, &condition);
                answers.rotate_left(turn);
                answers
            }
            2 => [self.any_table(length), self.any_table(length)],
            _ => {
                let first = self.any_table(length);
                let mut second = first.clone();
                second.rotate_left(self.below(length + 1));
                if self.once_in(2) {
                    self.change_monomial(&mut second);
                }
                [first, second]
            }
        }
    }

    /// Boole's and Löwenheim's answers to a condition, each in any order; zeros where it has no
    /// solution.
    pub fn solved_both_ways(&mut self, u: u64, g: u64, condition: &[u8]) -> [Vec<u8>; 2] {
        [Kind::Boole, Kind::Lowenheim].map(|kind| self.handed(kind, u, g, condition))
    }
}
