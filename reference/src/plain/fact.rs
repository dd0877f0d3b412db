//! A condition under a fact. A fact of 0 is seen with question 8 and costs nothing more.

use super::calls::ask_bits;
use super::table::Table;
use super::Block;
use crate::questions::{ask, Letters, Refusal};

/// A lent condition and the fact that it stands under, each cut to its length; none if it is 0.
#[derive(Clone, Copy)]
pub struct Lent<'a> {
    fact: Option<&'a [u8]>,
    condition: &'a [u8],
}

impl<'a> Lent<'a> {
    /// 8, of both; they have passed 4.
    pub fn ask(letters: Letters, fact: &'a [u8], condition: &'a [u8]) -> Result<Self, Refusal> {
        let length = letters.table_length();
        let (fact, condition) = (&fact[..length], &condition[..length]);
        let is_there = ask_bits(fact)?;
        ask_bits(condition)?;
        Ok(Lent { fact: is_there.then_some(fact), condition })
    }

    /// 22 and 23.
    pub fn tables<B: Block, const K: usize>(
        self,
        letters: Letters,
    ) -> Result<UnderFact<B, K>, Refusal> {
        let fact = self.fact.map(Table::from_bytes);
        if let Some(fact) = &fact {
            ask_fact(letters, fact)?;
        }
        Ok(UnderFact { fact, condition: Table::from_bytes(self.condition) })
    }
}

/// Every unknown lies within a block. A fact that is 1 in every state is the monomial 1 alone.
fn ask_fact<B: Block, const K: usize>(letters: Letters, fact: &Table<B, K>) -> Result<(), Refusal> {
    let unknowns = B::LOW[..letters.unknowns].iter().fold(B::ZERO, |all, &letter| all | letter);
    let present = fact.0.iter().fold(B::ZERO, |all, &block| all | block);
    ask(22, present & unknowns == B::ZERO)?;
    let mut one = Table::ZERO;
    one.set(0);
    ask(23, *fact != one)
}

/// The coefficients of a condition and of the fact that it stands under, none if that is 0.
pub struct UnderFact<B, const K: usize> {
    pub fact: Option<Table<B, K>>,
    pub condition: Table<B, K>,
}

impl<B: Block, const K: usize> UnderFact<B, K> {
    /// The values of f*(1 + g).
    pub fn values(&self) -> Table<B, K> {
        let mut values = self.condition.transformed();
        if let Some(fact) = &self.fact {
            values.multiply_by(&fact.transformed().0, true);
        }
        values
    }
}
