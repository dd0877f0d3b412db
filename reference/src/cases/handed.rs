//! Handed polynomials as test cases: those that make a condition zero, and those that nearly do.
//! Most are made from the choice that they lead to at each point, which is a state and a choice.

use super::facts::no_fact;
use super::Random;
use crate::plain::{self, transform};
use crate::questions::{Order, Refusal};
use crate::solution::Solved;

type Method = fn(u64, u64, Order, &[u8], &[u8], &mut [u8]) -> Result<Solved, Refusal>;

/// How handed polynomials are made for a condition.
#[derive(Clone, Copy, Debug, PartialEq, Eq)]
pub enum Kind {
    /// The particular solution, over the givens alone.
    Particular,
    /// Boole's answers, which mention unknowns.
    Boole,
    /// The own Löwenheim answers.
    Lowenheim,
    /// In each state any choice that solves there, over the givens alone.
    OverGivens,
    /// At each point any choice that solves in its state.
    OverLetters,
    /// `OverLetters` with one monomial changed.
    ButOneMonomial,
    /// `OverLetters` but at one point, where it leads to a choice that does not solve.
    ButOnePoint,
    /// `OverGivens` but in one state, where it leads to a choice that does not solve.
    ButOneState,
    /// A choice that solves where all unknowns are 0, and elsewhere one that does not.
    UnknownsAtZero,
    /// A solution of another condition.
    OfAnother,
}

/// Those that make a condition zero wherever it has a solution.
pub const SOLVING: [Kind; 5] =
    [Kind::Particular, Kind::Boole, Kind::Lowenheim, Kind::OverGivens, Kind::OverLetters];

/// Those that mostly do not.
pub const NEARLY: [Kind; 5] = [
    Kind::ButOneMonomial,
    Kind::ButOnePoint,
    Kind::ButOneState,
    Kind::UnknownsAtZero,
    Kind::OfAnother,
];

impl Random {
    /// Any kind; every second is one that solves.
    pub fn kind(&mut self) -> Kind {
        match self.once_in(2) {
            true => self.pick(&SOLVING),
            false => self.pick(&NEARLY),
        }
    }

    /// Handed polynomials for a condition. In a state without a choice that solves, or without one
    /// that does not, any choice stands for it.
    pub fn handed(&mut self, kind: Kind, u: u64, g: u64, condition: &[u8]) -> Vec<u8> {
        match kind {
            Kind::Particular => self.solved(u, g, condition, plain::particular::<u64>),
            Kind::Boole => self.solved(u, g, condition, plain::boole::<u64>),
            Kind::Lowenheim => self.solved(u, g, condition, plain::lowenheim::<u64>),
            Kind::ButOneMonomial => {
                let mut handed = self.handed(Kind::OverLetters, u, g, condition);
                self.change_monomial(&mut handed);
                handed
            }
            Kind::OfAnother => {
                let other = self.solvable(u, g);
                self.handed(Kind::OverLetters, u, g, &other)
            }
            _ => tables_to(u, &self.choices(kind, u, &transform(condition))),
        }
    }

    /// What a method of solving answers in any order, zeros where it says 'none'.
    fn solved(&mut self, u: u64, g: u64, condition: &[u8], method: Method) -> Vec<u8> {
        let mut answers = vec![0; u as usize * condition.len()];
        let order = self.order(u);
        method(u, g, order, &no_fact(u, g), condition, &mut answers).expect("right arguments");
        answers
    }

    /// The choice to which a kind leads at each point, from the values of a condition.
    fn choices(&mut self, kind: Kind, u: u64, values: &[u8]) -> Vec<usize> {
        let mut choices = Vec::new();
        for state in values.chunks(1 << u) {
            let first = self.choice_with(0, state);
            choices.push(first);
            choices.extend(state[1..].iter().map(|_| match kind {
                Kind::OverGivens | Kind::ButOneState => first,
                Kind::UnknownsAtZero => self.choice_with(1, state),
                _ => self.choice_with(0, state),
            }));
        }
        let ones: Vec<usize> = (0..values.len()).filter(|&point| values[point] == 1).collect();
        if !ones.is_empty() {
            let one = self.pick(&ones);
            let (start, wrong) = (one >> u << u, one % (1 << u));
            match kind {
                Kind::ButOnePoint => choices[start + self.below(1 << u)] = wrong,
                Kind::ButOneState => choices[start..start + (1 << u)].fill(wrong),
                _ => {}
            }
        }
        choices
    }

    /// Any choice with a value in a state; any at all if none has it.
    fn choice_with(&mut self, value: u8, state: &[u8]) -> usize {
        let choices: Vec<usize> =
            (0..state.len()).filter(|&choice| state[choice] == value).collect();
        match choices.is_empty() {
            true => self.below(state.len()),
            false => self.pick(&choices),
        }
    }

    /// Adds a monomial to one of the polynomials, or takes it away.
    pub fn change_monomial(&mut self, handed: &mut [u8]) {
        if !handed.is_empty() {
            handed[self.below(handed.len())] ^= 1;
        }
    }

    /// Constants, letters, or sums of a few monomials.
    pub fn simple(&mut self, u: u64, g: u64) -> Vec<u8> {
        let length = 1 << (u + g);
        let mut handed = vec![0; u as usize * length];
        let sort = self.below(3);
        for table in handed.chunks_exact_mut(length) {
            match sort {
                0 => table[0] = self.below(2) as u8,
                1 => table[1 << self.below((u + g) as usize)] = 1,
                _ => (0..3).for_each(|_| table[self.below(length)] ^= 1),
            }
        }
        handed
    }

    /// A condition that handed polynomials make zero: 0 at the choices that they lead to, others
    /// mostly 1.
    pub fn made_zero_by(&mut self, u: u64, g: u64, handed: &[u8]) -> Vec<u8> {
        let mut values = self.values(u, g);
        for (point, choice) in choices_of(u, g, handed).into_iter().enumerate() {
            values[point >> u << u | choice] = 0;
        }
        transform(&values)
    }
}

/// The choice to which handed polynomials lead at each point.
pub fn choices_of(u: u64, g: u64, handed: &[u8]) -> Vec<usize> {
    let mut choices = vec![0; 1 << (u + g)];
    for (j, table) in handed.chunks(choices.len()).enumerate() {
        choices.iter_mut().zip(transform(table)).for_each(|(c, value)| *c |= (value as usize) << j);
    }
    choices
}

/// The polynomials that lead to a choice at each point.
pub fn tables_to(u: u64, choices: &[usize]) -> Vec<u8> {
    let values = |j| choices.iter().map(|choice| (choice >> j & 1) as u8).collect::<Vec<_>>();
    (0..u).flat_map(|j| transform(&values(j))).collect()
}

/// U, G, a condition, handed polynomials, and the answers: none where question 21 is answered no.
pub type Row = (u64, u64, &'static str, &'static [&'static str], Option<&'static [&'static str]>);

/// Worked out by hand.
pub const ROWS: [Row; 34] = [
    (0, 0, "0", &[], Some(&[])),
    (0, 0, "1", &[], None),
    (0, 1, "0", &[], Some(&[])),
    (0, 1, "a", &[], None),
    (0, 2, "a*b", &[], None),
    (1, 0, "0", &["1+u"], Some(&["u"])),
    (1, 0, "u", &["0"], Some(&["0"])),
    // solves where u is 0, and the formula's answer would be u
    (1, 0, "u", &["u"], None),
    // solves where u is 1, and the formula's answer would be 0, which solves
    (1, 0, "u", &["1+u"], None),
    (1, 0, "u", &["1"], None),
    (1, 0, "!u", &["1"], Some(&["1"])),
    (1, 0, "!u", &["u"], None),
    (1, 0, "1", &["u"], None),
    (1, 1, "u+a", &["a"], Some(&["a"])),
    // each solves in one state only
    (1, 1, "u+a", &["0"], None),
    (1, 1, "u+a", &["1"], None),
    // solves at one choice of each state only
    (1, 1, "u+a", &["u"], None),
    (1, 1, "u*!a", &["a"], Some(&["u*a"])),
    (1, 1, "a", &["0"], None),
    (1, 1, "a", &["a"], None),
    (1, 1, "a", &["1+u+a"], None),
    // solves in every state but the one that is blocked
    (1, 2, "a*u+b*u+b", &["b"], None),
    (2, 0, "u+v", &["v", "v"], Some(&["v", "v"])),
    (2, 0, "u+v", &["0", "0"], Some(&["u*v", "u*v"])),
    (2, 0, "u+v", &["1", "1"], Some(&["u|v", "u|v"])),
    // put for u and only then for v, it would give 1
    (2, 0, "u+v", &["1+v", "1+v"], Some(&["u", "u"])),
    // put for one unknown after the other, they would give 0
    (2, 0, "u*!v", &["v", "u"], None),
    (2, 0, "u+v+1", &["1+v", "1+u"], None),
    (2, 0, "u*v", &["u", "1+u"], Some(&["u", "v+u*v"])),
    (2, 0, "u*v", &["u", "v"], None),
    (2, 1, "(u+a)|(v+u)", &["a", "a"], Some(&["a", "a"])),
    (2, 1, "(u+a)|(v+u)", &["a", "u"], None),
    (2, 1, "u*v+a", &["a", "1"], Some(&["u+u*v+u*v*a+u*a+a", "v+v*a+a"])),
    (2, 1, "u*v+a", &["v", "u"], None),
];
