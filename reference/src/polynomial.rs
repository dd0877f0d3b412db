//! A polynomial as the set of its monomials, and the operations on it.
//! A monomial is a mask of letters; mask 0 is the monomial 1.
//! Adding a monomial that is present takes it away: equal ones cancel in pairs.

use crate::questions::MOST_LETTERS;
use std::collections::BTreeSet;

#[derive(Clone, Debug, Default, PartialEq, Eq)]
pub struct Polynomial(BTreeSet<u16>);

impl Polynomial {
    pub fn zero() -> Polynomial {
        Polynomial::default()
    }

    pub fn one() -> Polynomial {
        Polynomial::monomial(0)
    }

    pub fn monomial(mask: u16) -> Polynomial {
        Polynomial(BTreeSet::from([mask]))
    }

    /// The monomials whose bytes are 1 in a table.
    pub fn from_table(table: &[u8]) -> Polynomial {
        let present = |&mask: &u16| table[mask as usize] == 1;
        Polynomial((0..table.len() as u16).filter(present).collect())
    }

    /// The table of that length: byte m is 1 if monomial m is present, else 0.
    pub fn to_table(&self, length: usize) -> Vec<u8> {
        (0..length as u16).map(|mask| self.0.contains(&mask) as u8).collect()
    }

    pub fn is_zero(&self) -> bool {
        self.0.is_empty()
    }

    /// The number of monomials present.
    pub fn count(&self) -> usize {
        self.0.len()
    }

    pub fn masks(&self) -> impl Iterator<Item = u16> + '_ {
        self.0.iter().copied()
    }

    /// The monomials in written order: fewer letters first, then the smaller mask.
    pub fn written(&self) -> Vec<u16> {
        let mut masks: Vec<u16> = self.masks().collect();
        masks.sort_by_key(|&mask| (mask.count_ones(), mask));
        masks
    }

    /// Adds one monomial.
    pub fn add(&mut self, mask: u16) {
        if !self.0.remove(&mask) {
            self.0.insert(mask);
        }
    }

    /// 1 if the number of present monomials whose letters are all 1 is odd, else 0.
    pub fn value(&self, point: u16) -> u8 {
        (self.masks().filter(|mask| mask & point == *mask).count() % 2) as u8
    }

    pub fn sum(&self, other: &Polynomial) -> Polynomial {
        Polynomial(self.0.symmetric_difference(&other.0).copied().collect())
    }

    /// Each monomial of one with each of the other, over unions of masks.
    pub fn product(&self, other: &Polynomial) -> Polynomial {
        let mut odd = [false; 1 << MOST_LETTERS];
        for left in self.masks() {
            for right in other.masks() {
                odd[(left | right) as usize] ^= true;
            }
        }
        Polynomial::from_odd(&odd)
    }

    /// The monomials that are there an odd number of times.
    fn from_odd(odd: &[bool]) -> Polynomial {
        Polynomial((0..odd.len() as u16).filter(|&mask| odd[mask as usize]).collect())
    }

    /// The polynomial with 0 put for a letter.
    pub fn with_zero(&self, letter: u16) -> Polynomial {
        Polynomial(self.masks().filter(|mask| mask & letter == 0).collect())
    }

    /// The polynomial with 1 put for a letter.
    pub fn with_one(&self, letter: u16) -> Polynomial {
        let mut result = Polynomial::zero();
        for mask in self.masks() {
            result.add(mask & !letter);
        }
        result
    }

    /// The polynomial with 1 + x put for every letter x of a set, all at once. Multiplied out, a
    /// monomial gives one for each choice of 1 or x for each of its letters in the set.
    pub fn inverted(&self, set: u16) -> Polynomial {
        let mut odd = [false; 1 << MOST_LETTERS];
        for mask in self.masks() {
            let (kept, replaced) = (mask & !set, mask & set);
            for chosen in (0..=replaced).filter(|chosen| chosen & !replaced == 0) {
                odd[(kept | chosen) as usize] ^= true;
            }
        }
        Polynomial::from_odd(&odd)
    }

    /// The polynomial with all unknowns replaced at once; givens keep their place.
    pub fn substitute(&self, handed: &[Polynomial]) -> Polynomial {
        self.substitute_from(0, handed)
    }

    /// Unknowns below `first` are gone: self is x*p + q, with x the unknown `first`.
    fn substitute_from(&self, first: usize, handed: &[Polynomial]) -> Polynomial {
        if first == handed.len() || self.is_zero() {
            return self.clone();
        }
        let letter = 1 << first;
        let holds = |mask: &u16| mask & letter != 0;
        let p = Polynomial(self.masks().filter(holds).map(|mask| mask & !letter).collect());
        let q = self.with_zero(letter);
        let replaced = handed[first].product(&p.substitute_from(first + 1, handed));
        replaced.sum(&q.substitute_from(first + 1, handed))
    }
}
