//! Tables of a number of blocks that the compiler knows, in either form.

use super::block::{Block, LOW_LETTERS, POINTS};
use std::array;

/// Values at all points, or coefficients of all masks.
#[derive(Clone, Copy, PartialEq)]
pub struct Table<B, const K: usize>(pub [B; K]);

impl<B: Block, const K: usize> Table<B, K> {
    pub const ZERO: Self = Table([B::ZERO; K]);
    pub const ONE: Self = Table([B::ONE; K]);

    /// Whole blocks, so that their length is known, apart from the part of one that fewer than six
    /// letters fill.
    pub fn from_bytes(bytes: &[u8]) -> Self {
        let (whole, part) = bytes.as_chunks::<POINTS>();
        let mut table = Table::ZERO;
        if let Some(block) = table.0.get_mut(whole.len()) {
            *block = B::pack(part);
        }
        table.0.iter_mut().zip(whole).for_each(|(block, bytes)| *block = B::pack(bytes));
        table
    }

    pub fn put(&self, bytes: &mut [u8]) {
        let (whole, part) = bytes.as_chunks_mut::<POINTS>();
        if let Some(block) = self.0.get(whole.len()) {
            block.unpack(part);
        }
        self.0.iter().zip(whole).for_each(|(block, bytes)| block.unpack(bytes));
    }

    /// Puts coefficients, and gives the number of those that are 1. Counted in the blocks, so that no
    /// byte is looked at again.
    pub fn put_counted(&self, bytes: &mut [u8]) -> usize {
        B::put_counted(self, bytes)
    }

    pub fn set(&mut self, point: usize) {
        self.0[point / POINTS].set(point % POINTS);
    }

    pub fn first_one(&self) -> Option<usize> {
        let k = self.0.iter().position(|block| *block != B::ZERO)?;
        Some(k * POINTS + self.0[k].bits().trailing_zeros() as usize)
    }

    #[inline(always)]
    fn change(&mut self, to: impl Fn(B, usize) -> B) {
        self.0.iter_mut().enumerate().for_each(|(k, block)| *block = to(*block, k));
    }

    pub fn add(&mut self, other: &Self) {
        self.change(|block, k| block ^ other.0[k]);
    }

    pub fn multiply(&mut self, other: &Self) {
        self.change(|block, k| block & other.0[k]);
    }

    /// Multiplies by the front of other blocks, or by its negation, without a branch.
    #[inline(always)]
    pub fn multiply_by(&mut self, blocks: &[B], is_negated: bool) {
        let negation = if is_negated { B::ONE } else { B::ZERO };
        let blocks = &blocks[..K];
        self.change(|block, k| block & (blocks[k] ^ negation));
    }

    pub fn join(&mut self, other: &Self) {
        self.change(|block, k| block | other.0[k]);
    }

    pub fn add_letter(&mut self, j: usize) {
        let letter = &B::OPERANDS[j];
        self.change(|block, k| block ^ letter[k]);
    }

    /// Coefficients to values, or values to coefficients: per letter, the half without it is added
    /// to the half with it.
    pub fn transformed(mut self) -> Self {
        self.change(|block, _| block.transformed());
        let mut width = 1;
        while width < K {
            for k in (0..K).filter(|k| k & width != 0) {
                self.0[k] = self.0[k] ^ self.0[k - width];
            }
            width *= 2;
        }
        self
    }

    /// The product of the two cases of letter j.
    pub fn both_cases(&self, j: usize) -> Self {
        self.with_turned(j, |block, turned, _| block & turned)
    }

    /// With `values` put for letter j.
    pub fn put_for(&self, j: usize, values: &Self) -> Self {
        let letter = &B::OPERANDS[j];
        self.with_turned(j, |block, turned, k| {
            block ^ ((values.0[k] ^ letter[k]) & (block ^ turned))
        })
    }

    /// With the values of `parts` put for the lowest letters, all at once.
    pub fn put_for_lowest(&self, parts: &[Self]) -> Self {
        Table(array::from_fn(|k| B::look_up(self, parts, k)))
    }

    /// Whether that is zero at every point; looks no further than the first block where it is not.
    pub fn is_made_zero_by(&self, parts: &[Self]) -> bool {
        (0..K).all(|k| B::is_zero_there(self, parts, k))
    }

    /// Each block changed by itself and by the block at the points with letter j turned over. A
    /// branch for each letter within a block, so that its shifts are known.
    #[inline(always)]
    fn with_turned(&self, j: usize, to: impl Fn(B, B, usize) -> B) -> Self {
        let mut result = *self;
        match j {
            0 => result.change(|block, k| to(block, block.turned(0), k)),
            1 => result.change(|block, k| to(block, block.turned(1), k)),
            2 => result.change(|block, k| to(block, block.turned(2), k)),
            3 => result.change(|block, k| to(block, block.turned(3), k)),
            4 => result.change(|block, k| to(block, block.turned(4), k)),
            5 => result.change(|block, k| to(block, block.turned(5), k)),
            _ => result.change(|block, k| to(block, self.0[(k ^ 1 << (j - LOW_LETTERS)) % K], k)),
        }
        result
    }
}
