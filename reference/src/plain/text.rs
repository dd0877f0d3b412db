//! Reading a text: decoded once, then the readers work the signs out at all points at once. No
//! branch hangs on which letter it is, nor on whether a factor is negated.

use super::block::{OPERAND_ONE, OPERAND_ZERO};
use super::table::Table;
use super::Block;
use crate::questions::{ask, Letters, Refusal};

/// What a byte of a text says.
#[derive(Clone, Copy)]
struct Sign {
    /// An operand is its number, a given without the unknowns before it; others are their own byte.
    symbol: u8,
    /// All ones for a given: the number of unknowns is to be added.
    is_given: u8,
    /// 1 for `!`, which is counted onto the symbol behind it.
    negation: u8,
    /// 0 for `!` and for a space, which leave no symbol of their own, else 1.
    length: u8,
    /// The bit of a letter, or that of a byte that is no sign.
    seen: u16,
}

/// No sign's own byte.
const END: u8 = 255;
/// In `seen` the unknowns begin at bit 0, the givens here.
const GIVENS: usize = 6;
const FOREIGN: u16 = 1 << 15;

static SIGNS: [Sign; 256] = signs();

const fn signs() -> [Sign; 256] {
    let foreign = Sign { symbol: END, is_given: 0, negation: 0, length: 1, seen: FOREIGN };
    let mut signs = [foreign; 256];
    let mut byte = 0;
    while byte < 256 {
        let own = Sign { symbol: byte as u8, seen: 0, ..foreign };
        signs[byte] = match byte as u8 {
            b'u'..=b'z' => {
                let j = byte - b'u' as usize;
                Sign { symbol: j as u8, seen: 1 << j, ..own }
            }
            b'a'..=b'h' => {
                let i = byte - b'a' as usize;
                Sign { symbol: i as u8, is_given: !0, seen: 1 << (GIVENS + i), ..own }
            }
            b'0' => Sign { symbol: OPERAND_ZERO as u8, ..own },
            b'1' => Sign { symbol: OPERAND_ONE as u8, ..own },
            b'+' | b'|' | b'*' | b'(' | b')' => own,
            b'!' => Sign { negation: 1, length: 0, ..own },
            b' ' => Sign { length: 0, ..own },
            _ => foreign,
        };
        byte += 1;
    }
    signs
}

/// The values of a text of at most 200 bytes, or the first no of questions 5, 6 and 7.
pub fn text_values<B: Block, const K: usize>(
    letters: Letters,
    text: &[u8],
) -> Result<Table<B, K>, Refusal> {
    // as long as an index of eight bits reaches
    let mut symbols = [Symbol { symbol: END, negations: 0 }; 256];
    let (mut count, mut negations, mut seen) = (0u8, 0, 0);
    for &byte in text {
        let sign = SIGNS[byte as usize];
        let symbol = sign.symbol + (sign.is_given & letters.unknowns as u8);
        symbols[count as usize] = Symbol { symbol, negations };
        count += sign.length;
        // none is left behind a symbol
        negations = (negations + sign.negation) & sign.length.wrapping_sub(1);
        seen |= sign.seen;
    }
    symbols[count as usize] = Symbol { symbol: END, negations };
    let declared = ((1 << letters.unknowns) - 1) | ((1 << letters.givens) - 1) << GIVENS;
    ask(5, seen & FOREIGN == 0)?;
    ask(6, seen & !declared == 0)?;
    let mut reader = Reader { symbols, at: 0 };
    let mut values = Table::ZERO;
    let is_read = reader.read_sum(&mut values).is_some();
    ask(7, is_read && reader.is_next(END))?;
    Ok(values)
}

/// A symbol and how many `!` stand before it.
#[derive(Clone, Copy, PartialEq)]
struct Symbol {
    symbol: u8,
    negations: u8,
}

/// The symbols, and the place of the next. Readers answer nothing where the grammar fails.
struct Reader {
    symbols: [Symbol; 256],
    at: u8,
}

impl Reader {
    /// Whether the next symbol is the one asked for, with no `!` before it.
    #[inline(always)]
    fn is_next(&self, symbol: u8) -> bool {
        self.symbols[self.at as usize] == Symbol { symbol, negations: 0 }
    }

    /// Goes past the next symbol if it is the one asked for.
    #[inline(always)]
    fn skips(&mut self, symbol: u8) -> bool {
        let is_next = self.is_next(symbol);
        if is_next {
            self.at += 1;
        }
        is_next
    }

    fn read_sum<B: Block, const K: usize>(&mut self, sum: &mut Table<B, K>) -> Option<()> {
        self.read_product(sum)?;
        let mut product = Table::ZERO;
        loop {
            if self.skips(b'|') {
                self.read_product(&mut product)?;
                sum.join(&product);
            } else if self.skips(b'+') {
                self.read_product(&mut product)?;
                sum.add(&product);
            } else {
                return Some(());
            }
        }
    }

    #[inline(always)]
    fn read_product<B: Block, const K: usize>(&mut self, product: &mut Table<B, K>) -> Option<()> {
        *product = Table::ONE;
        self.multiply_by_factor(product)?;
        while self.skips(b'*') {
            self.multiply_by_factor(product)?;
        }
        Some(())
    }

    #[inline(always)]
    fn multiply_by_factor<B: Block, const K: usize>(
        &mut self,
        product: &mut Table<B, K>,
    ) -> Option<()> {
        let Symbol { symbol, negations } = self.symbols[self.at as usize];
        let is_negated = negations % 2 == 1;
        self.at += 1;
        if let Some(operand) = B::OPERANDS.get(symbol as usize) {
            product.multiply_by(operand, is_negated);
        } else if symbol == b'(' {
            let mut sum = Table::<B, K>::ZERO;
            self.read_sum(&mut sum)?;
            product.multiply_by(&sum.0, is_negated);
            return self.skips(b')').then_some(());
        } else {
            return None;
        }
        Some(())
    }
}
