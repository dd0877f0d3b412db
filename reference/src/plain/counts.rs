//! Counts of the bytes that are 1, a counter for each of 32 lanes, so that a loop goes by whole
//! vectors. No call counts more than six tables of 1,024 bytes, so that none passes 192.

use crate::questions::{ask, Refusal};

const LANES: usize = 32;

/// The sum of two tables, which have its length; gives the number of its monomials.
pub fn put_sum(a: &[u8], b: &[u8], sum: &mut [u8]) -> usize {
    let (blocks, rest) = sum.as_chunks_mut::<LANES>();
    let (a_blocks, a) = a.as_chunks::<LANES>();
    let (b_blocks, b) = b.as_chunks::<LANES>();
    let mut counts = [0; LANES];
    for ((block, a), b) in blocks.iter_mut().zip(a_blocks).zip(b_blocks) {
        for i in 0..LANES {
            block[i] = a[i] ^ b[i];
            counts[i] += block[i];
        }
    }
    let mut more = 0;
    for ((byte, a), b) in rest.iter_mut().zip(a).zip(b) {
        *byte = a ^ b;
        more += *byte;
    }
    total(counts, more)
}

/// 8 of an answer table; gives the total of its monomials. One pass for both: a byte over 1 may make
/// a count wrong, and is then refused.
pub fn ask_bits_counted(tables: &[u8]) -> Result<usize, Refusal> {
    let (blocks, rest) = tables.as_chunks::<LANES>();
    let (mut all, mut counts) = ([0; LANES], [0u8; LANES]);
    for block in blocks {
        for i in 0..LANES {
            all[i] |= block[i];
            counts[i] = counts[i].wrapping_add(block[i]);
        }
    }
    let (mut any, mut more) = (0, 0u8);
    for &byte in rest {
        any |= byte;
        more = more.wrapping_add(byte);
    }
    ask(8, all.iter().fold(any, |any, byte| any | byte) <= 1)?;
    Ok(total(counts, more))
}

fn total(counts: [u8; LANES], more: u8) -> usize {
    counts.iter().map(|&count| count as usize).sum::<usize>() + more as usize
}
