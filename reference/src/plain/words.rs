//! Sixty-four values to a word.

use std::array;

use super::block::{operands, Block, Operands, LOW_LETTERS, MOST_BLOCKS, OPERAND_ONE, POINTS};
use super::table::Table;

static OPERANDS: Operands<u64> = operands!(u64);

/// The word with letters 0 to 2 and 3 to 5 exchanged: bit 8 * i + j goes to 8 * j + i. Eight bytes of a
/// table are then one shifted load or store.
#[inline(always)]
fn cross(mut word: u64) -> u64 {
    for (shift, mask) in
        [(7, 0x00aa_00aa_00aa_00aa), (14, 0x0000_cccc_0000_cccc), (28, 0xf0f0_f0f0)]
    {
        let moved = (word ^ word >> shift) & mask;
        word ^= moved ^ moved << shift;
    }
    word
}

/// At most 64 bytes as a word that is crossed.
fn gather(bytes: &[u8]) -> u64 {
    let eights = bytes.chunks_exact(8);
    let mut crossed = 0;
    for (i, &byte) in eights.remainder().iter().enumerate() {
        crossed |= (byte as u64) << (8 * i);
    }
    for (i, eight) in eights.enumerate() {
        crossed |= u64::from_le_bytes(eight.try_into().expect("eight bytes")) << i;
    }
    crossed
}

/// A word that is crossed as bytes.
fn scatter(crossed: u64, bytes: &mut [u8]) {
    let mut eights = bytes.chunks_exact_mut(8);
    for (i, eight) in (&mut eights).enumerate() {
        eight.copy_from_slice(&(crossed >> i & 0x0101_0101_0101_0101).to_le_bytes());
    }
    for (i, byte) in eights.into_remainder().iter_mut().enumerate() {
        *byte = (crossed >> (8 * i) & 1) as u8;
    }
}

impl Block for u64 {
    const ZERO: u64 = 0;
    const ONE: u64 = !0;
    const LOW: [u64; LOW_LETTERS] = [
        0xaaaa_aaaa_aaaa_aaaa,
        0xcccc_cccc_cccc_cccc,
        0xf0f0_f0f0_f0f0_f0f0,
        0xff00_ff00_ff00_ff00,
        0xffff_0000_ffff_0000,
        0xffff_ffff_0000_0000,
    ];

    const OPERANDS: &'static Operands<u64> = &OPERANDS;

    #[inline(always)]
    fn turned(self, j: usize) -> u64 {
        (self & Self::LOW[j]) >> (1 << j) | self << (1 << j) & Self::LOW[j]
    }

    #[inline(always)]
    fn transformed(mut self) -> u64 {
        for (j, with) in Self::LOW.into_iter().enumerate() {
            self ^= self << (1 << j) & with;
        }
        self
    }

    #[inline(always)]
    fn count(blocks: &[u64]) -> usize {
        blocks.iter().map(|word| word.count_ones() as usize).sum()
    }

    /// Each word is counted as it is unpacked.
    fn put_counted<const K: usize>(table: &Table<u64, K>, bytes: &mut [u8]) -> usize {
        let (whole, part) = bytes.as_chunks_mut::<POINTS>();
        let mut found = 0;
        if let Some(word) = table.0.get(whole.len()) {
            word.unpack(part);
            found = word.count_ones();
        }
        for (word, bytes) in table.0.iter().zip(whole) {
            word.unpack(bytes);
            found += word.count_ones();
        }
        found as usize
    }

    fn pack(bytes: &[u8]) -> u64 {
        cross(gather(bytes))
    }

    fn unpack(self, bytes: &mut [u8]) {
        scatter(cross(self), bytes);
    }

    fn set(&mut self, point: usize) {
        *self |= 1 << point;
    }

    #[inline(always)]
    fn bits(self) -> u64 {
        self
    }

    /// By choices: the two lowest letters at once, by what stands for each four bits, then the others
    /// from the last on, halving the words.
    fn look_up<const K: usize>(whole: &Table<u64, K>, parts: &[Table<u64, K>], k: usize) -> u64 {
        // the unknowns are among the letters within a word; every other stands for itself
        let put = |j: usize| parts.get(j).map_or(Self::LOW[j], |part| part.0[k]);
        let (first, second) = (put(0), put(1));
        let fours: [u64; 16] = array::from_fn(|bits| {
            let full = |place: usize| (bits as u64 >> place & 1).wrapping_neg();
            pick(second, pick(first, full(0), full(1)), pick(first, full(2), full(3)))
        });
        let mut words: [u64; 16] = array::from_fn(|q| fours[(whole.0[k] >> (4 * q) & 15) as usize]);
        for (j, half) in [(5, 8), (4, 4), (3, 2), (2, 1)] {
            let (chooses, (zero, one)) = (put(j), words.split_at_mut(half));
            for (zero, &one) in zero.iter_mut().zip(&*one) {
                *zero = pick(chooses, *zero, one);
            }
        }
        words[0]
    }

    /// The words stay crossed: that only names the letters within them anew.
    fn derivative<const K: usize>(table: &[u8], mask: usize, result: &mut [u8]) {
        let mut f = [0; K];
        for (word, bytes) in f.iter_mut().zip(table.chunks(POINTS)) {
            *word = gather(bytes);
        }
        let mut words = f;
        for (j, with) in Self::LOW.into_iter().enumerate() {
            if mask >> ((j + 3) % LOW_LETTERS) & 1 == 1 {
                words.iter_mut().for_each(|word| *word ^= (*word & with) >> (1 << j));
            }
        }
        let mut width = 1;
        while width < K {
            if mask >> LOW_LETTERS & width != 0 {
                for k in (0..K).filter(|k| k & width == 0) {
                    words[k] ^= words[k + width];
                }
            }
            width *= 2;
        }
        for ((word, f), bytes) in words.iter().zip(&f).zip(result.chunks_mut(POINTS)) {
            scatter(word ^ f, bytes);
        }
    }
}

/// Of two words, point by point the one that the first chooses.
#[inline(always)]
fn pick(chooses: u64, zero: u64, one: u64) -> u64 {
    zero ^ chooses & (zero ^ one)
}
