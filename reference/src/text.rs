//! The notation: symbols, the three readers, and the tree of a text.
//!
//! sum: a product, then any number of (`+` or `|`, product), from the left
//! product: a factor, then any number of (`*`, factor)
//! factor: `0`, `1`, a letter, `!` and a factor, or `(` sum `)`

use crate::polynomial::Polynomial;
use crate::questions::{ask, Letters, Refusal};

#[derive(Clone, Debug, PartialEq, Eq)]
pub enum Tree {
    Constant(bool),
    /// A declared letter, as the mask of it alone.
    Letter(u16),
    Not(Box<Tree>),
    Sum(Box<Tree>, Box<Tree>),
    Or(Box<Tree>, Box<Tree>),
    Product(Box<Tree>, Box<Tree>),
}

impl Tree {
    /// `!t` is t + 1, `s|t` is s + t + s*t.
    pub fn polynomial(&self) -> Polynomial {
        match self {
            Tree::Constant(false) => Polynomial::zero(),
            Tree::Constant(true) => Polynomial::one(),
            Tree::Letter(mask) => Polynomial::monomial(*mask),
            Tree::Not(t) => t.polynomial().sum(&Polynomial::one()),
            Tree::Sum(s, t) => s.polynomial().sum(&t.polynomial()),
            Tree::Or(s, t) => {
                let (s, t) = (s.polynomial(), t.polynomial());
                s.sum(&t).sum(&s.product(&t))
            }
            Tree::Product(s, t) => s.polynomial().product(&t.polynomial()),
        }
    }

    /// The value at a point, straight from the signs' meaning.
    pub fn value(&self, point: u16) -> bool {
        match self {
            Tree::Constant(value) => *value,
            Tree::Letter(mask) => point & mask != 0,
            Tree::Not(t) => !t.value(point),
            Tree::Sum(s, t) => s.value(point) != t.value(point),
            Tree::Or(s, t) => s.value(point) || t.value(point),
            Tree::Product(s, t) => s.value(point) && t.value(point),
        }
    }
}

#[derive(Clone, Copy, PartialEq)]
enum Symbol {
    Unknown(usize),
    Given(usize),
    Sign(u8),
}

/// The tree of a text, or the first no of questions 5, 6 and 7, each put to the
/// whole text before the next.
pub fn read_tree(letters: Letters, text: &[u8]) -> Result<Tree, Refusal> {
    let mut symbols = Vec::new();
    for &byte in text.iter().filter(|&&byte| byte != b' ') {
        symbols.push(decode(byte).ok_or(Refusal(5))?);
    }
    ask(6, symbols.iter().all(|&symbol| is_declared(letters, symbol)))?;
    let mut reader = Reader { letters, rest: &symbols };
    let tree = reader.read_sum().ok_or(Refusal(7))?;
    ask(7, reader.rest.is_empty())?;
    Ok(tree)
}

fn decode(byte: u8) -> Option<Symbol> {
    match byte {
        b'u'..=b'z' => Some(Symbol::Unknown((byte - b'u') as usize)),
        b'a'..=b'h' => Some(Symbol::Given((byte - b'a') as usize)),
        b'0' | b'1' | b'+' | b'|' | b'*' | b'!' | b'(' | b')' => Some(Symbol::Sign(byte)),
        _ => None,
    }
}

fn is_declared(letters: Letters, symbol: Symbol) -> bool {
    match symbol {
        Symbol::Unknown(j) => j < letters.unknowns,
        Symbol::Given(i) => i < letters.givens,
        Symbol::Sign(_) => true,
    }
}

/// The symbols not yet read. Each reader answers nothing where the grammar fails.
struct Reader<'a> {
    letters: Letters,
    rest: &'a [Symbol],
}

impl Reader<'_> {
    /// Takes the next symbol if it is that sign.
    fn take(&mut self, sign: u8) -> bool {
        let found = self.rest.first() == Some(&Symbol::Sign(sign));
        if found {
            self.rest = &self.rest[1..];
        }
        found
    }

    fn read_sum(&mut self) -> Option<Tree> {
        let mut tree = self.read_product()?;
        loop {
            if self.take(b'+') {
                tree = Tree::Sum(Box::new(tree), Box::new(self.read_product()?));
            } else if self.take(b'|') {
                tree = Tree::Or(Box::new(tree), Box::new(self.read_product()?));
            } else {
                return Some(tree);
            }
        }
    }

    fn read_product(&mut self) -> Option<Tree> {
        let mut tree = self.read_factor()?;
        while self.take(b'*') {
            tree = Tree::Product(Box::new(tree), Box::new(self.read_factor()?));
        }
        Some(tree)
    }

    fn read_factor(&mut self) -> Option<Tree> {
        let (&symbol, rest) = self.rest.split_first()?;
        self.rest = rest;
        match symbol {
            Symbol::Unknown(j) => Some(Tree::Letter(self.letters.unknown(j))),
            Symbol::Given(i) => Some(Tree::Letter(self.letters.given(i))),
            Symbol::Sign(b'0') => Some(Tree::Constant(false)),
            Symbol::Sign(b'1') => Some(Tree::Constant(true)),
            Symbol::Sign(b'!') => Some(Tree::Not(Box::new(self.read_factor()?))),
            Symbol::Sign(b'(') => {
                let tree = self.read_sum()?;
                self.take(b')').then_some(tree)
            }
            Symbol::Sign(_) => None,
        }
    }
}
