//! Letters, states, choices, orders and masks, the fact 0, and the lengths of buffers for them.

use std::fmt;

/// No text is longer, in bytes.
pub const LONGEST_TEXT: usize = 200;
/// No table is longer, in bytes.
pub const LONGEST_TABLE: usize = 1_024;
/// No answer table is longer, in bytes.
pub const LONGEST_ANSWERS: usize = 6_144;
/// No entry is longer, in bytes.
pub const LONGEST_ENTRY: usize = 27_709;
/// The last route; the first is 1.
pub const LAST_ROUTE: usize = 250;

/// The fact 0, for routes where every state counts: zeros as long as any table, so that it serves for
/// all letters.
///
/// ```
/// # use layodegi::{boole, Letters, Order, Solution, State, NO_FACT};
/// let letters = Letters { unknowns: 1, givens: 1 };
/// let (order, a) = (Order::default_for(1), [0, 0, 1, 0]);
/// assert_eq!(boole(letters, order, NO_FACT, &a, &mut [0; 4]), Ok(Solution::None(State(1))));
/// ```
pub const NO_FACT: &[u8; LONGEST_TABLE] = &[0; LONGEST_TABLE];

/// The counts of declared letters: unknowns `u` to `z`, givens `a` to `h`.
/// Every call asks itself whether they are permitted, so any numbers may stand here.
#[derive(Clone, Copy, Debug, PartialEq, Eq, Hash)]
pub struct Letters {
    /// U: the first U of `u v w x y z` are declared.
    pub unknowns: usize,
    /// G: the first G of `a b c d e f g h` are declared.
    pub givens: usize,
}

impl Letters {
    /// Question 1: are U at most 6, G at most 8, n at most 10?
    ///
    /// ```
    /// # use layodegi::Letters;
    /// assert!(Letters { unknowns: 2, givens: 8 }.are_permitted());
    /// assert!(!Letters { unknowns: 3, givens: 8 }.are_permitted());
    /// ```
    pub fn are_permitted(self) -> bool {
        self.unknowns <= 6 && self.givens <= 8 && self.unknowns + self.givens <= 10
    }

    /// The bytes of a table, 2^n. Letters that are not permitted have no table: 0.
    ///
    /// ```
    /// # use layodegi::Letters;
    /// assert_eq!(Letters { unknowns: 6, givens: 4 }.table_length(), 1024);
    /// assert_eq!(Letters { unknowns: 6, givens: 5 }.table_length(), 0);
    /// ```
    pub fn table_length(self) -> usize {
        if self.are_permitted() {
            1 << (self.unknowns + self.givens)
        } else {
            0
        }
    }

    /// The bytes of an answer table, or of handed polynomials: U times 2^n.
    ///
    /// ```
    /// # use layodegi::Letters;
    /// assert_eq!(Letters { unknowns: 6, givens: 4 }.answers_length(), 6144);
    /// assert_eq!(Letters { unknowns: 0, givens: 4 }.answers_length(), 0);
    /// ```
    pub fn answers_length(self) -> usize {
        // where U is too large for the product there is no table
        self.unknowns * self.table_length()
    }
}

/// The order in which the unknowns are eliminated: six bytes, the unknown numbers, first
/// eliminated first, then 255 in unused places. An unknown is expressed by those that go after it,
/// so the circuit that an office would rather express by the others goes first.
/// Every call asks itself (question 17) whether the order is right, so any bytes may stand here.
///
/// ```
/// # use layodegi::{boole, Letters, Order, NO_FACT};
/// let letters = Letters { unknowns: 2, givens: 0 };
/// let mut answers = [7; 8];
/// let u_plus_v = [0, 1, 1, 0];
///
/// let u_first = Order::default_for(2);
/// boole(letters, u_first, NO_FACT, &u_plus_v, &mut answers)?;
/// assert_eq!(answers, [0, 0, 1, 0, 0, 0, 1, 0]); // u = v, v = v
///
/// let v_first = Order::of(&[1, 0]).unwrap();
/// boole(letters, v_first, NO_FACT, &u_plus_v, &mut answers)?;
/// assert_eq!(answers, [0, 1, 0, 0, 0, 1, 0, 0]); // u = u, v = u
/// # Ok::<(), layodegi::Refusal>(())
/// ```
#[derive(Clone, Copy, Debug, PartialEq, Eq, Hash)]
pub struct Order(pub [u8; 6]);

impl Order {
    /// Stands in the places that no unknown needs.
    pub const UNUSED: u8 = 255;

    /// The order 0, 1, 2 and so on of so many unknowns, of six if there are more.
    ///
    /// ```
    /// # use layodegi::Order;
    /// assert_eq!(Order::default_for(2), Order([0, 1, 255, 255, 255, 255]));
    /// ```
    pub fn default_for(unknowns: usize) -> Order {
        Order(std::array::from_fn(
            |place| if place < unknowns { place as u8 } else { Order::UNUSED },
        ))
    }

    /// The order of at most six unknown numbers, first eliminated first, 255 behind them. Nothing
    /// for more. Whether each unknown of a condition is there once, its call asks.
    ///
    /// ```
    /// # use layodegi::Order;
    /// assert_eq!(Order::of(&[2, 0, 1]), Some(Order([2, 0, 1, 255, 255, 255])));
    /// assert_eq!(Order::of(&[0; 7]), None);
    /// ```
    pub fn of(unknowns: &[u8]) -> Option<Order> {
        let mut bytes = [Order::UNUSED; 6];
        bytes.get_mut(..unknowns.len())?.copy_from_slice(unknowns);
        Some(Order(bytes))
    }

    /// The bytes before the first 255: the unknown numbers, first eliminated first.
    ///
    /// ```
    /// # use layodegi::Order;
    /// assert_eq!(Order([1, 0, 255, 255, 255, 255]).unknowns(), [1, 0]);
    /// ```
    pub fn unknowns(&self) -> &[u8] {
        let unused = self.0.iter().position(|&byte| byte == Order::UNUSED);
        &self.0[..unused.unwrap_or(6)]
    }
}

/// The values of the givens: a number below 2^G, bit i for given i.
#[derive(Clone, Copy, Debug, PartialEq, Eq, Hash)]
pub struct State(pub usize);

/// The values of the unknowns: a number below 2^U, bit j for unknown j.
#[derive(Clone, Copy, Debug, PartialEq, Eq, Hash)]
pub struct Choice(pub usize);

/// A set of letters, as in a monomial: bit j for unknown j, bit U + i for given i. The call that takes
/// it asks whether all of them are declared, so any number may stand here.
#[derive(Clone, Copy, Debug, PartialEq, Eq, Hash)]
pub struct Mask(pub usize);

impl fmt::Display for State {
    fn fmt(&self, f: &mut fmt::Formatter) -> fmt::Result {
        write!(f, "state {}", self.0)
    }
}

impl fmt::Display for Order {
    fn fmt(&self, f: &mut fmt::Formatter) -> fmt::Result {
        f.write_str("order")?;
        self.0.iter().try_for_each(|byte| write!(f, " {byte}"))
    }
}

impl fmt::Display for Choice {
    fn fmt(&self, f: &mut fmt::Formatter) -> fmt::Result {
        write!(f, "choice {}", self.0)
    }
}

impl fmt::Display for Mask {
    fn fmt(&self, f: &mut fmt::Formatter) -> fmt::Result {
        write!(f, "mask {}", self.0)
    }
}
