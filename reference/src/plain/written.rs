//! The written order. The masks present are counted by their numbers of letters, which gives each
//! its place, and then go to their places in one pass: only masks that are present cost time.

use super::block::POINTS;
use super::table::Table;
use super::Block;

/// The number of letters of each mask: plain x86-64 has no instruction that counts bits.
pub static LETTERS: [u8; 1024] = letters();

const fn letters() -> [u8; 1024] {
    let mut letters = [0; 1024];
    let mut mask = 0usize;
    while mask < 1024 {
        letters[mask] = mask.count_ones() as u8;
        mask += 1;
    }
    letters
}

/// The bits of each byte, eight masks of three letters: how many of no letter, one, two and three,
/// a byte each.
static COUNTS: [u64; 256] = counts();

const fn counts() -> [u64; 256] {
    let mut counts = [0; 256];
    let mut byte = 0usize;
    while byte < 256 {
        let mut mask = 0usize;
        while mask < 8 {
            counts[byte] += ((byte >> mask & 1) as u64) << (8 * mask.count_ones());
            mask += 1;
        }
        byte += 1;
    }
    counts
}

/// The masks present in a table, and where those of each number of letters begin.
#[derive(Clone, Copy)]
pub struct Written<const K: usize> {
    masks: [u64; K],
    starts: [u16; 16],
    pub count: usize,
}

impl<const K: usize> Written<K> {
    pub const NONE: Self = Written { masks: [0; K], starts: [0; 16], count: 0 };

    pub fn of<B: Block>(table: &Table<B, K>) -> Self {
        let masks = table.0.map(B::bits);
        // a byte for each number of letters, of a block and of blocks with the same number
        let mut counts = [0; 5];
        for (k, bits) in masks.iter().enumerate() {
            let of = |i: usize| COUNTS[(bits >> (8 * i)) as usize & 255];
            counts[k.count_ones() as usize] += of(0)
                + ((of(1) + of(2) + of(4)) << 8)
                + ((of(3) + of(5) + of(6)) << 16)
                + (of(7) << 24);
        }
        // at most 252 masks of ten letters have the same number
        let counts =
            counts.into_iter().rev().fold(0u128, |all, counts| (all << 8) + counts as u128);
        let (mut starts, mut count) = ([0; 16], 0);
        for (start, masks) in starts.iter_mut().zip(counts.to_le_bytes()) {
            *start = count;
            count += masks as u16;
        }
        Written { masks, starts, count: count as usize }
    }

    /// Shows each mask present, from the smallest on, with its place in the written order.
    #[inline(always)]
    pub fn each(&self, mut see: impl FnMut(usize, usize)) {
        let mut places = self.starts;
        for (k, bits) in self.masks.iter().enumerate() {
            let mut rest = *bits;
            while rest != 0 {
                let mask = k * POINTS + rest.trailing_zeros() as usize;
                let place = &mut places[LETTERS[mask % 1024] as usize % 16];
                see(mask, *place as usize);
                *place += 1;
                rest &= rest - 1;
            }
        }
    }
}
