//! Solving "condition = 0" in the states where a fact is 0: Boole's elimination,
//! the particular solution and Löwenheim's formula, on polynomials.

use crate::polynomial::Polynomial;
use crate::questions::{Choice, Letters, State};

/// The answers, unknown 0 first, or 'none' and the state.
#[derive(Clone, Debug, PartialEq, Eq)]
pub enum Solution {
    Answers(Vec<Polynomial>),
    None(State),
}

/// What a solving call gives when it is not refused.
#[derive(Clone, Copy, Debug, PartialEq, Eq)]
pub enum Solved {
    /// The total of monomials in the answers.
    Done { monomials: usize },
    /// The no of question 9.
    None(State),
}

/// An unknown x that goes: f with x = 1 and f with x = 0.
struct Step {
    unknown: usize,
    r: Polynomial,
    s: Polynomial,
}

/// A condition f and a fact g, which has passed questions 22 and 23.
pub struct UnderFact {
    pub fact: Polynomial,
    pub condition: Polynomial,
}

impl UnderFact {
    /// What is solved, f*(1 + g): it is f in the states that count and 0 in the others.
    pub fn counted(&self) -> Polynomial {
        self.condition.product(&self.fact.sum(&Polynomial::one()))
    }
}

/// The unknowns go in the order given; the answers are found from the last that went back.
pub fn solve_boole(letters: Letters, order: &[usize], asked: &UnderFact) -> Solution {
    let mut steps = Vec::new();
    let mut current = asked.counted();
    for &unknown in order {
        let x = letters.unknown(unknown);
        let step = Step { unknown, r: current.with_one(x), s: current.with_zero(x) };
        current = step.r.product(&step.s);
        steps.push(step);
    }
    if !current.is_zero() {
        return Solution::None(blocked_state(letters, asked));
    }
    Solution::Answers(go_back(letters, &steps))
}

/// x*(r + s + 1) + s, with the answers already found put into r and s.
fn go_back(letters: Letters, steps: &[Step]) -> Vec<Polynomial> {
    // An unknown that has gone is in no later r or s; it stands for itself.
    let itself = |j| Polynomial::monomial(letters.unknown(j));
    let mut answers: Vec<Polynomial> = (0..letters.unknowns).map(itself).collect();
    for step in steps.iter().rev() {
        let r = step.r.substitute(&answers);
        let s = step.s.substitute(&answers);
        let factor = r.sum(&s).sum(&Polynomial::one());
        answers[step.unknown] = itself(step.unknown).product(&factor).sum(&s);
    }
    answers
}

/// The smallest of the states with g = 0 in which every choice gives f the value 1.
fn blocked_state(letters: Letters, UnderFact { fact, condition }: &UnderFact) -> State {
    let blocked = |state: &State| {
        (0..letters.choices()).all(|c| condition.value(letters.point(*state, Choice(c))) == 1)
    };
    let mut counted = letters.all_states().filter(|&state| letters.is_counted(fact, state));
    counted.find(blocked).expect("a remainder that is not 0 is 1 in some state")
}

/// Boole's answer with 0 put for all parameters.
pub fn solve_particular(letters: Letters, order: &[usize], asked: &UnderFact) -> Solution {
    match solve_boole(letters, order, asked) {
        Solution::Answers(answers) => {
            let zeros = vec![Polynomial::zero(); letters.unknowns];
            Solution::Answers(answers.iter().map(|answer| answer.substitute(&zeros)).collect())
        }
        none => none,
    }
}

/// Löwenheim's formula with the particular solution.
pub fn solve_lowenheim(letters: Letters, order: &[usize], asked: &UnderFact) -> Solution {
    match solve_particular(letters, order, asked) {
        Solution::Answers(b) => Solution::Answers(formula(letters, &asked.counted(), &b)),
        none => none,
    }
}

/// The answer for unknown x is x + f*(x + b of x).
pub fn formula(letters: Letters, f: &Polynomial, b: &[Polynomial]) -> Vec<Polynomial> {
    let answer = |j: usize| {
        let x = Polynomial::monomial(letters.unknown(j));
        x.sum(&f.product(&x.sum(&b[j])))
    };
    (0..letters.unknowns).map(answer).collect()
}
