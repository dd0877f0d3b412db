//! A product whose monomials are counted or not: its questions, and the work behind them out of the
//! archive of `crates/measured`, which is the code of the library. Both sides are one function, but for a
//! branch at the end of the work, since where its loops fall in a line of the cache moves the time of a
//! product by more than its count does.

use reference::Refusal;

extern "C" {
    fn measured_product(
        n: usize,
        a: *const u8,
        a_length: usize,
        b: *const u8,
        b_length: usize,
        out: *mut u8,
        out_length: usize,
        counts: bool,
    ) -> usize;
}

/// The product of two tables, under questions 1, 4 and 8. The number is that of its monomials, 0 unless
/// it counts them.
#[inline(never)]
pub fn product(
    u: usize,
    g: usize,
    a: &[u8],
    b: &[u8],
    out: &mut [u8],
    counts: bool,
) -> Result<usize, Refusal> {
    if u > 6 || g > 8 || u + g > 10 {
        return Err(Refusal(1));
    }
    let length = 1 << (u + g);
    if a.len() < length || b.len() < length || out.len() < length {
        return Err(Refusal(4));
    }
    let (a, b, out) = (&a[..length], &b[..length], &mut out[..length]);
    if !are_bits(a) || !are_bits(b) {
        return Err(Refusal(8));
    }
    // SAFETY: all three are lent for the call, with their lengths, and are as the contract requires.
    let count = unsafe {
        measured_product(
            u + g,
            a.as_ptr(),
            length,
            b.as_ptr(),
            length,
            out.as_mut_ptr(),
            length,
            counts,
        )
    };
    Ok(count)
}

fn are_bits(table: &[u8]) -> bool {
    table.iter().fold(0, |union, byte| union | byte) <= 1
}
