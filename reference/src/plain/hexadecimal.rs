//! Records in hexadecimal, two lower-case digits a byte, one record on a line.

use super::entry::{put_each, Format};
use super::written::Written;

pub struct Hexadecimal;

static DIGITS: [[u8; 2]; 256] = digits();
/// The two bytes of each mask, low byte first.
static MASKS: [[u8; 4]; 1024] = masks();

const fn digits() -> [[u8; 2]; 256] {
    let mut digits = [[0; 2]; 256];
    let mut byte = 0;
    while byte < 256 {
        digits[byte] = [digit(byte >> 4), digit(byte & 15)];
        byte += 1;
    }
    digits
}

const fn digit(value: usize) -> u8 {
    b"0123456789abcdef"[value]
}

const fn masks() -> [[u8; 4]; 1024] {
    let mut masks = [[0; 4]; 1024];
    let mut mask = 0;
    while mask < 1024 {
        let (low, high) = (digits()[mask & 255], digits()[mask >> 8]);
        masks[mask] = [low[0], low[1], high[0], high[1]];
        mask += 1;
    }
    masks
}

impl Format for Hexadecimal {
    fn length(record: usize) -> usize {
        2 * record + 1
    }

    fn put<const N: usize>(record: [u8; N], room: &mut &mut [u8]) {
        let line = room.split_off_mut(..Self::length(N)).expect("room for the line");
        for (digits, byte) in line.chunks_exact_mut(2).zip(record) {
            digits.copy_from_slice(&DIGITS[byte as usize]);
        }
        line[2 * N] = b'\n';
    }

    fn put_monomials<const K: usize>(kind: u8, masks: &Written<K>, room: &mut &mut [u8]) {
        put_each(masks, room, |mask| line::<2, 7>(DIGITS[kind as usize], &MASKS[mask]));
    }

    fn put_answer<const K: usize>(unknown: u8, masks: &Written<K>, room: &mut &mut [u8]) {
        let [j, k] = DIGITS[unknown as usize];
        put_each(masks, room, |mask| line::<4, 9>([b'0', b'3', j, k], &MASKS[mask]));
    }
}

/// The digits of a monomial's record.
#[inline(always)]
fn line<const N: usize, const L: usize>(start: [u8; N], mask: &[u8; 4]) -> [u8; L] {
    let mut line = [b'\n'; L];
    line[..N].copy_from_slice(&start);
    line[N..N + 4].copy_from_slice(mask);
    line
}
