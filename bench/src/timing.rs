//! Times of the engine and of both forms of plain Rust, or of other sides, measured in turns within
//! one run.

use crate::processor_time;
use std::time::Duration;

/// Of all rounds, in nanoseconds for one call.
#[derive(Clone, Copy)]
pub struct Times {
    pub best: f64,
    pub median: f64,
}

impl Times {
    fn of(mut times: Vec<f64>) -> Times {
        times.sort_by(f64::total_cmp);
        Times { best: times[0], median: times[times.len() / 2] }
    }

    /// What is left without other times, best without best and median without median: the best of
    /// the differences would be that of the round whose other time was worst.
    fn without(self, other: Times) -> Times {
        Times { best: self.best - other.best, median: self.median - other.median }
    }

    fn unrest(self) -> f64 {
        self.median / self.best
    }
}

/// The sides that are meant where no others are named, in the order in which their times stand.
pub const SIDES: usize = 3;
pub const ENGINE: usize = 0;
pub const BYTES: usize = 1;
pub const WORDS: usize = 2;

/// On a quiet machine the median is at most this much of the best.
const QUIET: f64 = 1.2;
/// A measurement on a machine that was not quiet is made again, so often.
const TRIES: usize = 6;

#[derive(Clone, Copy)]
pub struct Compared<const N: usize = SIDES> {
    pub times: [Times; N],
    /// The medians of the rounds' ratios, the first side by each: below 1 the first is ahead. All
    /// sides of a round follow one another, so that a change of the processor's speed falls on all.
    pub ratios: [f64; N],
}

impl<const N: usize> Compared<N> {
    /// From the times of each side, round by round.
    pub fn of_rounds(rounds: [Vec<f64>; N]) -> Self {
        let ratios = rounds.each_ref().map(|side| {
            let ratios = rounds[0].iter().zip(side).map(|(first, side)| first / side);
            Times::of(ratios.collect()).median
        });
        Compared { times: rounds.map(Times::of), ratios }
    }

    /// From the times of each side and the times that are to be taken off, round by round.
    pub fn of_rounds_without(rounds: &[Vec<f64>; N], off: &[Vec<f64>; N]) -> Self {
        let net = std::array::from_fn(|side| {
            rounds[side].iter().zip(&off[side]).map(|(time, off)| time - off).collect()
        });
        let times = std::array::from_fn(|side| {
            Times::of(rounds[side].clone()).without(Times::of(off[side].clone()))
        });
        Compared { times, ..Compared::of_rounds(net) }
    }

    fn unrest(&self) -> f64 {
        self.times.iter().map(|times| times.unrest()).fold(1.0, f64::max)
    }

    pub fn is_quiet(&self) -> bool {
        self.unrest() <= QUIET
    }
}

/// Measures until the machine was quiet by the times to be judged, and takes the quietest
/// measurement.
pub fn quietly<T, const N: usize>(
    mut measure: impl FnMut() -> T,
    judged: impl Fn(&T) -> &Compared<N>,
) -> T {
    let mut found = measure();
    for _ in 1..TRIES {
        if judged(&found).is_quiet() {
            break;
        }
        let again = measure();
        if judged(&again).unrest() < judged(&found).unrest() {
            found = again;
        }
    }
    found
}

/// How many rounds, and how long the calls of one side in one round take.
#[derive(Clone, Copy)]
pub struct Effort {
    pub rounds: usize,
    pub round: Duration,
}

/// Calls each side on every input, so often that a round takes its time. The first round of each
/// side is a warm-up; the side that goes first changes from round to round.
pub fn compare<I, const N: usize>(
    effort: Effort,
    inputs: &[I],
    mut sides: [&mut dyn FnMut(&I); N],
) -> Compared<N> {
    let measure = || {
        let mut rounds = [const { Vec::new() }; N];
        let passes: Vec<usize> =
            sides.iter_mut().map(|side| passes(effort, inputs, *side)).collect();
        for round in 0..effort.rounds {
            for turn in 0..N {
                let side = (round + turn) % N;
                rounds[side].push(time_round(passes[side], inputs, sides[side]));
            }
        }
        Compared::of_rounds(rounds)
    };
    quietly(measure, |compared| compared)
}

/// The number of passes over all inputs that a round takes.
fn passes<I>(effort: Effort, inputs: &[I], call: &mut dyn FnMut(&I)) -> usize {
    let end = processor_time::of_this_thread() + effort.round.as_nanos() as f64;
    let mut passes = 0;
    while processor_time::of_this_thread() < end {
        time_round(1, inputs, call);
        passes += 1;
    }
    passes
}

/// The processor time of one call, in nanoseconds.
fn time_round<I>(passes: usize, inputs: &[I], call: &mut dyn FnMut(&I)) -> f64 {
    let start = processor_time::of_this_thread();
    for _ in 0..passes {
        for input in inputs {
            call(input);
        }
    }
    (processor_time::of_this_thread() - start) / (passes * inputs.len()) as f64
}
