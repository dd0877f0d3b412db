//! One byte a value, eight bytes to a number.

use super::block::{operands, Block, Operands, LOW_LETTERS, MOST_BLOCKS, OPERAND_ONE, POINTS};
use super::table::Table;
use std::ops::{BitAnd, BitOr, BitXor};

/// Byte i of number e is the value at the point 8 * e + i of a block.
#[derive(Clone, Copy, PartialEq)]
pub struct Bytes([u64; 8]);

const ONES: u64 = 0x0101_0101_0101_0101;
/// The bytes, of eight, whose place has letter j.
const WITH: [u64; 3] = [0xff00_ff00_ff00_ff00, 0xffff_0000_ffff_0000, 0xffff_ffff_0000_0000];

/// Coefficients to values, or values to coefficients, of a table of at most ten letters.
pub fn transform(table: &[u8]) -> Vec<u8> {
    let mut result = vec![0; table.len()];
    Table::<Bytes, 16>::from_bytes(table).transformed().put(&mut result);
    result
}

impl Bytes {
    #[inline(always)]
    fn each(self, to: impl Fn(usize, u64) -> u64) -> Bytes {
        let mut eights = self.0;
        for (e, eight) in eights.iter_mut().enumerate() {
            *eight = to(e, *eight);
        }
        Bytes(eights)
    }

    fn to_bytes(self) -> [u8; POINTS] {
        let mut bytes = [0; POINTS];
        for (bytes, eight) in bytes.chunks_exact_mut(8).zip(self.0) {
            bytes.copy_from_slice(&eight.to_le_bytes());
        }
        bytes
    }
}

impl BitXor for Bytes {
    type Output = Bytes;
    #[inline(always)]
    fn bitxor(self, other: Bytes) -> Bytes {
        self.each(|e, eight| eight ^ other.0[e])
    }
}

impl BitAnd for Bytes {
    type Output = Bytes;
    #[inline(always)]
    fn bitand(self, other: Bytes) -> Bytes {
        self.each(|e, eight| eight & other.0[e])
    }
}

impl BitOr for Bytes {
    type Output = Bytes;
    #[inline(always)]
    fn bitor(self, other: Bytes) -> Bytes {
        self.each(|e, eight| eight | other.0[e])
    }
}

/// Changes bytes as numbers of eight; fewer than eight as the front of one.
#[inline(always)]
fn change_eights(bytes: &mut [u8], to: impl Fn(u64) -> u64) {
    let mut eights = bytes.chunks_exact_mut(8);
    for eight in &mut eights {
        let number = u64::from_le_bytes((&*eight).try_into().expect("eight bytes"));
        eight.copy_from_slice(&to(number).to_le_bytes());
    }
    let fewer = eights.into_remainder();
    let mut eight = [0; 8];
    eight[..fewer.len()].copy_from_slice(fewer);
    fewer.copy_from_slice(&to(u64::from_le_bytes(eight)).to_le_bytes()[..fewer.len()]);
}

#[inline(always)]
fn add(bytes: &mut [u8], other: &[u8]) {
    bytes.iter_mut().zip(other).for_each(|(byte, other)| *byte ^= other);
}

/// For each point of block k, the point with the values of `parts` as its lowest letters.
#[inline(always)]
fn points_led_to<const K: usize>(parts: &[Table<Bytes, K>], k: usize) -> [u8; POINTS] {
    let mut choices = Bytes::ZERO;
    for (j, part) in parts.iter().enumerate() {
        choices = choices.each(|e, choice| choice | part.0[k].0[e] << j);
    }
    let mut points = choices.to_bytes();
    for (point, byte) in points.iter_mut().enumerate() {
        *byte |= (point >> parts.len() << parts.len()) as u8;
    }
    points
}

static OPERANDS: Operands<Bytes> = operands!(Bytes);

impl Block for Bytes {
    const ZERO: Bytes = Bytes([0; 8]);
    const ONE: Bytes = Bytes([ONES; 8]);
    const LOW: [Bytes; LOW_LETTERS] = [
        Bytes([ONES & WITH[0]; 8]),
        Bytes([ONES & WITH[1]; 8]),
        Bytes([ONES & WITH[2]; 8]),
        Bytes([0, ONES, 0, ONES, 0, ONES, 0, ONES]),
        Bytes([0, 0, ONES, ONES, 0, 0, ONES, ONES]),
        Bytes([0, 0, 0, 0, ONES, ONES, ONES, ONES]),
    ];

    const OPERANDS: &'static Operands<Bytes> = &OPERANDS;

    #[inline(always)]
    fn turned(self, j: usize) -> Bytes {
        match j {
            0 => self.each(|_, x| (x & WITH[0]) >> 8 | x << 8 & WITH[0]),
            1 => self.each(|_, x| (x & WITH[1]) >> 16 | x << 16 & WITH[1]),
            2 => self.each(|_, x| x.rotate_left(32)),
            3 => self.each(|e, _| self.0[e ^ 1]),
            4 => self.each(|e, _| self.0[e ^ 2]),
            _ => self.each(|e, _| self.0[e ^ 4]),
        }
    }

    #[inline(always)]
    fn transformed(self) -> Bytes {
        let within = self.each(|_, mut x| {
            x ^= x << 8 & WITH[0];
            x ^= x << 16 & WITH[1];
            x ^ x << 32
        });
        let [a, b, c, d, e, f, g, h] = within.0;
        let [b, d, f, h] = [b ^ a, d ^ c, f ^ e, h ^ g];
        let [c, d, g, h] = [c ^ a, d ^ b, g ^ e, h ^ f];
        Bytes([a, b, c, d, e ^ a, f ^ b, g ^ c, h ^ d])
    }

    /// Byte by byte, as numbers of eight: 16 blocks of eight numbers leave at most 128 in a byte.
    #[inline(always)]
    fn count(blocks: &[Bytes]) -> usize {
        let mut counts = [0; 8];
        for block in blocks {
            for (count, eight) in counts.iter_mut().zip(block.0) {
                *count += eight;
            }
        }
        let bytes = counts.iter().sum::<u64>().to_le_bytes();
        bytes.iter().map(|&byte| byte as usize).sum()
    }

    fn pack(bytes: &[u8]) -> Bytes {
        let mut whole = [0; POINTS];
        whole[..bytes.len()].copy_from_slice(bytes);
        let mut eights = [0; 8];
        for (eight, bytes) in eights.iter_mut().zip(whole.chunks_exact(8)) {
            *eight = u64::from_le_bytes(bytes.try_into().expect("eight bytes"));
        }
        Bytes(eights)
    }

    fn unpack(self, bytes: &mut [u8]) {
        bytes.copy_from_slice(&self.to_bytes()[..bytes.len()]);
    }

    fn set(&mut self, point: usize) {
        self.0[point / 8] |= 1 << (8 * (point % 8));
    }

    /// A product puts the lowest bits of eight bytes side by side.
    #[inline(always)]
    fn bits(self) -> u64 {
        let byte = |eight: u64| (eight.wrapping_mul(0x0102_0408_1020_4080) >> 56) as u8;
        u64::from_le_bytes(self.0.map(byte))
    }

    /// Point by point.
    fn look_up<const K: usize>(
        whole: &Table<Bytes, K>,
        parts: &[Table<Bytes, K>],
        k: usize,
    ) -> Bytes {
        let whole = whole.0[k].to_bytes();
        Bytes::pack(&points_led_to(parts, k).map(|point| whole[point as usize % POINTS]))
    }

    /// Nothing is put together but the union of the values.
    fn is_zero_there<const K: usize>(
        whole: &Table<Bytes, K>,
        parts: &[Table<Bytes, K>],
        k: usize,
    ) -> bool {
        let whole = whole.0[k].to_bytes();
        let points = points_led_to(parts, k);
        points.iter().fold(0, |any, &point| any | whole[point as usize % POINTS]) == 0
    }

    /// In the bytes of the result.
    fn derivative<const K: usize>(table: &[u8], mask: usize, result: &mut [u8]) {
        result.copy_from_slice(table);
        for (j, with) in WITH.into_iter().enumerate() {
            if mask >> j & 1 == 1 {
                change_eights(result, |x| x ^ (x & with) >> (8 << j));
            }
        }
        let mut width = 8;
        while width < result.len() {
            if mask & width != 0 {
                for halves in result.chunks_exact_mut(2 * width) {
                    let (without, with) = halves.split_at_mut(width);
                    add(without, with);
                }
            }
            width *= 2;
        }
        add(result, table);
    }
}
