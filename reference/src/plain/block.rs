//! What a table is made of: blocks of 64 points, as a word of 64 bits or as 64 bytes. The six
//! lowest letters lie within a block, the others between blocks. A table of fewer than six letters
//! fills its block over and over with values, and has no coefficient behind its end.

use super::table::Table;
use std::ops::{BitAnd, BitOr, BitXor};

/// The letters that lie within a block.
pub const LOW_LETTERS: usize = 6;
pub const POINTS: usize = 1 << LOW_LETTERS;
/// The blocks of ten letters.
pub const MOST_BLOCKS: usize = 16;

/// What a factor may be without brackets: each of ten letters, 0 and 1.
pub type Operands<B> = [[B; MOST_BLOCKS]; 12];
pub const OPERAND_ZERO: usize = 10;
pub const OPERAND_ONE: usize = 11;

/// The operations in which the two forms differ.
pub trait Block:
    Copy + PartialEq + BitAnd<Output = Self> + BitOr<Output = Self> + BitXor<Output = Self> + 'static
{
    /// No value is 1; every value is 1.
    const ZERO: Self;
    const ONE: Self;
    /// The letters within a block, at its points.
    const LOW: [Self; LOW_LETTERS];
    /// At the points of ten letters; fewer letters have the front of it.
    const OPERANDS: &'static Operands<Self>;

    /// At each point the value at the point with letter j, of the lowest, turned over.
    fn turned(self, j: usize) -> Self;
    /// Coefficients to values, or values to coefficients, of the lowest letters.
    fn transformed(self) -> Self;
    /// The number of coefficients that are 1, in the blocks of a table.
    fn count(blocks: &[Self]) -> usize;
    /// Puts coefficients, and gives the number of those that are 1.
    #[inline(always)]
    fn put_counted<const K: usize>(table: &Table<Self, K>, bytes: &mut [u8]) -> usize {
        table.put(bytes);
        Self::count(&table.0)
    }
    /// From at most 64 bytes, and back.
    fn pack(bytes: &[u8]) -> Self;
    fn unpack(self, bytes: &mut [u8]);
    fn set(&mut self, point: usize);
    /// Bit i is the value at point i.
    fn bits(self) -> u64;
    /// The values of `whole` at each point of block k, its lowest letters having the values of `parts`
    /// there.
    fn look_up<const K: usize>(whole: &Table<Self, K>, parts: &[Table<Self, K>], k: usize) -> Self;
    /// Whether all of these are 0.
    fn is_zero_there<const K: usize>(
        whole: &Table<Self, K>,
        parts: &[Table<Self, K>],
        k: usize,
    ) -> bool {
        Self::look_up(whole, parts, k) == Self::ZERO
    }
    /// The table of f plus f with every letter of a mask inverted. On coefficients: per letter, the
    /// half with it is added to the half without it.
    fn derivative<const K: usize>(table: &[u8], mask: usize, result: &mut [u8]);
}

/// The operands of a form: a constant function of a trait is not to be had.
macro_rules! operands {
    ($B:ty) => {{
        let mut operands = [[<$B as Block>::ZERO; MOST_BLOCKS]; 12];
        let mut k = 0;
        while k < MOST_BLOCKS {
            let mut j = 0;
            while j < 10 {
                if j < LOW_LETTERS {
                    operands[j][k] = <$B as Block>::LOW[j];
                } else if k >> (j - LOW_LETTERS) & 1 == 1 {
                    operands[j][k] = <$B as Block>::ONE;
                }
                j += 1;
            }
            operands[OPERAND_ONE][k] = <$B as Block>::ONE;
            k += 1;
        }
        operands
    }};
}
pub(super) use operands;
