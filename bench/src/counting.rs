//! What counting costs a product. The product call always counts, so that a product of the engine's own
//! code is measured with the count and without it, and both forms of plain Rust as well.

use crate::calls::engine_letters;
use crate::inputs::{counts, letters_of, Inputs, Kind};
use crate::measured::product;
use crate::timing::{compare, Compared, Effort};
use reference::plain::{self, Bytes};
use std::hint::black_box;
use std::ops::RangeInclusive;

/// The sides, in the order in which their times stand: ratios are with the count by without it.
pub const WITH: usize = 0;
pub const WITHOUT: usize = 1;

pub struct Counting {
    /// The engine, at each number of letters.
    pub engine: Vec<(usize, Compared<2>)>,
    /// Both forms of plain Rust, at the most letters.
    pub bytes: Compared<2>,
    pub words: Compared<2>,
}

impl Counting {
    /// What was measured with the count and without it.
    pub fn products(&self) -> Vec<(String, Compared<2>)> {
        let engine = |&(count, times): &(usize, Compared<2>)| {
            (format!("the engine, {count} letters"), times)
        };
        let plain = [("plain Rust on bytes", self.bytes), ("plain Rust on words", self.words)]
            .map(|(name, times)| (format!("{name}, 10 letters"), times));
        self.engine.iter().map(engine).chain(plain).collect()
    }

    /// What the engine takes at the most letters with the count, by what it takes without it.
    pub fn ratio(&self) -> f64 {
        self.engine.last().map_or(1.0, |(_, times)| times.ratios[WITHOUT])
    }
}

/// Two tables.
type Pair = (Vec<u8>, Vec<u8>);

pub fn compare_counting(letters: RangeInclusive<usize>, effort: Effort) -> Counting {
    let inputs = |count| Inputs::new(letters_of(count), Kind::Typical);
    let most = inputs(*letters.end());
    let (u, g) = counts(most.letters);
    Counting {
        engine: letters.map(|count| (count, compare_engine(&inputs(count), effort))).collect(),
        bytes: compare_forms(
            effort,
            &most.pairs,
            |(a, b), out| plain::product::<Bytes>(u, g, a, b, out),
            |(a, b), out| plain::product_uncounted::<Bytes>(u, g, a, b, out),
        ),
        words: compare_forms(
            effort,
            &most.pairs,
            |(a, b), out| plain::product::<u64>(u, g, a, b, out),
            |(a, b), out| plain::product_uncounted::<u64>(u, g, a, b, out),
        ),
    }
}

fn compare_engine(inputs: &Inputs, effort: Effort) -> Compared<2> {
    let (u, g) = engine_counts(inputs);
    assert_same(inputs);
    compare_forms(
        effort,
        &inputs.pairs,
        |(a, b), out| product(u, g, a, b, out, true),
        |(a, b), out| product(u, g, a, b, out, false),
    )
}

fn engine_counts(inputs: &Inputs) -> (usize, usize) {
    (inputs.letters.unknowns, inputs.letters.givens)
}

/// Both sides make the product that the library makes, and the one that counts gives its count.
fn assert_same(inputs: &Inputs) {
    let (letters, (u, g)) = (engine_letters(inputs.letters), engine_counts(inputs));
    let [mut library, mut with, mut without] = [(); 3].map(|()| vec![7; letters.table_length()]);
    for (a, b) in &inputs.pairs {
        let count = layodegi::product(letters, a, b, &mut library).expect("two tables");
        let ones = library.iter().filter(|&&byte| byte == 1).count();
        assert!(count == ones, "the library's count");
        assert!(product(u, g, a, b, &mut with, true) == Ok(count), "the count");
        assert!(product(u, g, a, b, &mut without, false) == Ok(0), "no count");
        assert!([&with, &without] == [&library; 2], "the product");
    }
}

/// A product with the count and without it, by the same method.
fn compare_forms<C, D>(
    effort: Effort,
    pairs: &[Pair],
    with: impl Fn(&Pair, &mut [u8]) -> C,
    without: impl Fn(&Pair, &mut [u8]) -> D,
) -> Compared<2> {
    let [mut with_out, mut without_out] = [(); 2].map(|()| vec![7; pairs[0].0.len()]);
    for pair in pairs {
        with(pair, &mut with_out);
        without(pair, &mut without_out);
        assert!(with_out == without_out, "both make the same product");
    }
    compare(
        effort,
        pairs,
        [
            &mut |pair: &Pair| drop(black_box(with(black_box(pair), black_box(&mut with_out)))),
            &mut |pair: &Pair| {
                drop(black_box(without(black_box(pair), black_box(&mut without_out))))
            },
        ],
    )
}
