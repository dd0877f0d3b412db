//! The written order by the method that the engine had and by the one that it has: plain Rust ports
//! of both, side by side, since the first no longer stands in the engine.

use crate::timing::{compare, Compared, Effort};
use std::hint::black_box;

/// The sides, in the order in which their times stand: ratios are after by before.
pub const AFTER: usize = 0;
pub const BEFORE: usize = 1;

/// So many calls in a pass, so that reading the clock is a small part of it.
const CALLS: usize = 32;

const MOST_LETTERS: usize = 10;
const MASKS: usize = 1 << MOST_LETTERS;

/// How many masks for n letters have k: row n, entry k.
static COUNTS: [[u8; 11]; 11] = [
    [1, 0, 0, 0, 0, 0, 0, 0, 0, 0, 0],
    [1, 1, 0, 0, 0, 0, 0, 0, 0, 0, 0],
    [1, 2, 1, 0, 0, 0, 0, 0, 0, 0, 0],
    [1, 3, 3, 1, 0, 0, 0, 0, 0, 0, 0],
    [1, 4, 6, 4, 1, 0, 0, 0, 0, 0, 0],
    [1, 5, 10, 10, 5, 1, 0, 0, 0, 0, 0],
    [1, 6, 15, 20, 15, 6, 1, 0, 0, 0, 0],
    [1, 7, 21, 35, 35, 21, 7, 1, 0, 0, 0],
    [1, 8, 28, 56, 70, 56, 28, 8, 1, 0, 0],
    [1, 9, 36, 84, 126, 126, 84, 36, 9, 1, 0],
    [1, 10, 45, 120, 210, 252, 210, 120, 45, 10, 1],
];

/// Before: every mask from counts of letters, group by group.
fn from_counts(n: usize, out: &mut [u16; MASKS]) {
    let (mut at, mut k, mut r) = (0, 0, 0);
    while k <= n {
        if r < COUNTS[n][k] as usize {
            out[at] = mask_at(k, r) as u16;
            at += 1;
            r += 1;
        } else {
            k += 1;
            r = 0;
        }
    }
}

/// Number r of the masks that have k letters. From the last letter down, the masks without it come
/// first; once none comes before, the letters left are the first ones.
fn mask_at(k: usize, r: usize) -> usize {
    let (mut mask, mut left, mut rest, mut n) = (0, k, r, MOST_LETTERS);
    while 0 < rest {
        n -= 1;
        let without = COUNTS[n][left] as usize;
        if without <= rest {
            mask += 1 << n;
            rest -= without;
            left -= 1;
        }
    }
    mask + ((1 << left) - 1)
}

/// The masks of ten letters, and those of six.
static ORDER: [u16; MASKS] = order();
static ORDER_SIX: [u16; 64] = order();

const fn order<const N: usize>() -> [u16; N] {
    let (mut order, mut at, mut k) = ([0; N], 0, 0);
    while at < N {
        let mut mask = 0;
        while mask < N as u16 {
            if mask.count_ones() == k {
                order[at] = mask;
                at += 1;
            }
            mask += 1;
        }
        k += 1;
    }
    order
}

/// Where the masks that have so many letters begin there; behind them, its end.
static STARTS: [u16; 12] = [0, 1, 11, 56, 176, 386, 638, 848, 968, 1013, 1023, 1024];
static STARTS_SIX: [u16; 8] = [0, 1, 7, 22, 42, 57, 63, 64];

/// How many letters each mask below 32 has.
static LETTERS: [u8; 32] = [
    0, 1, 1, 2, 1, 2, 2, 3, 1, 2, 2, 3, 2, 3, 3, 4, 1, 2, 2, 3, 2, 3, 3, 4, 2, 3, 3, 4, 3, 4, 4, 5,
];

/// After: ten letters are a copy, fewer skip. The engine's compiler lays a constant out on the
/// stack wherever it is read, so that up to six letters have a small table.
fn from_table(n: usize, out: &mut [u16; MASKS]) {
    if n <= 6 {
        let masks = ORDER_SIX;
        skip_large(n, black_box(&masks), &STARTS_SIX, out);
        return;
    }
    let masks = ORDER;
    let masks = black_box(&masks);
    if n == MOST_LETTERS {
        out.copy_from_slice(masks);
        return;
    }
    skip_large(n, masks, &STARTS, out);
}

/// From the first mask that is too large on, all that have as many letters are, and are passed at
/// once.
fn skip_large(n: usize, masks: &[u16], starts: &[u16], out: &mut [u16; MASKS]) {
    let size = 1 << n;
    let (mut at, mut place) = (0, 0);
    while at < size {
        let mask = masks[place];
        if (mask as usize) < size {
            out[at] = mask;
            at += 1;
            place += 1;
        } else {
            let letters = LETTERS[mask as usize % 32] + LETTERS[mask as usize / 32];
            place = starts[letters as usize + 1] as usize;
        }
    }
}

/// Fills a buffer with the masks for each number of letters, again and again.
pub fn compare_methods(effort: Effort) -> Vec<(usize, Compared<2>)> {
    assert_same();
    let (mut after, mut before) = ([7; MASKS], [7; MASKS]);
    let mut times = |n| {
        compare(
            effort,
            &[n; CALLS],
            [
                &mut |&n: &usize| from_table(black_box(n), black_box(&mut after)),
                &mut |&n: &usize| from_counts(black_box(n), black_box(&mut before)),
            ],
        )
    };
    (0..=MOST_LETTERS).map(|n| (n, times(n))).collect()
}

/// Both methods give the masks as they are sorted, and leave what is behind them.
fn assert_same() {
    for n in 0..=MOST_LETTERS {
        let mut sorted: Vec<u16> = (0..1 << n).collect();
        sorted.sort_by_key(|mask| mask.count_ones());
        sorted.resize(MASKS, 7);
        for method in [from_counts, from_table] {
            let mut out = [7; MASKS];
            method(n, &mut out);
            assert!(out[..] == sorted, "the written order of {n} letters");
        }
    }
}
