//! How many cases each call had, and how they ended.

use std::collections::BTreeMap;

/// No call may have fewer cases, and no question that it asks fewer noes.
const LEAST_CASES: usize = 4_000;
const LEAST_NOES: usize = 50;

/// The calls, with the questions that each asks, in the papers' order.
pub const QUESTIONS: [(&str, &[u8]); 19] = [
    ("read_text", &[1, 3, 4, 5, 6, 7]),
    ("value", &[1, 4, 8, 16]),
    ("sum", &[1, 4, 8]),
    ("product", &[1, 4, 8]),
    ("substitute", &[1, 4, 8]),
    ("derivative", &[1, 4, 8, 20]),
    ("boole", &[1, 17, 4, 8, 22, 23, 9]),
    ("particular", &[1, 17, 4, 8, 22, 23, 9]),
    ("lowenheim", &[1, 17, 4, 8, 22, 23, 9]),
    ("lowenheim_handed", &[1, 4, 8, 22, 23, 21]),
    ("shorter", &[1, 4, 8]),
    ("write_entry", &[1, 2, 17, 4, 8, 22, 23, 14]),
    ("read_entry", &[10, 11, 1, 2, 12, 17, 22, 23, 4]),
    ("audit", &[10, 11, 1, 2, 12, 17, 22, 23, 13]),
    ("walk", &[10, 11, 1, 2, 12, 17, 22, 23, 13, 15]),
    ("session_start", &[1]),
    // 8 of the session, and again of the table
    ("session_add", &[1, 8, 4]),
    ("session_mark", &[1, 8, 18]),
    ("session_return", &[1, 8, 18, 19]),
];

/// For each call and each number of a first no, 0 where there is none, the count of cases.
#[derive(Default)]
pub struct Tally(BTreeMap<(&'static str, u8), usize>);

impl Tally {
    pub fn add(&mut self, call: &'static str, number: u8) {
        *self.0.entry((call, number)).or_default() += 1;
    }

    pub fn join(&mut self, other: Tally) {
        for (key, count) in other.0 {
            *self.0.entry(key).or_default() += count;
        }
    }

    /// Prints the counts and says whether there are enough.
    pub fn report(&self) -> bool {
        let mut enough = true;
        println!("{:<16} {:>7} {:>7}  first no: cases", "call", "cases", "yes");
        for (call, questions) in QUESTIONS {
            let count = |number: u8| self.0.get(&(call, number)).copied().unwrap_or_default();
            let noes: Vec<String> =
                questions.iter().map(|&number| format!("{number}: {}", count(number))).collect();
            let cases = self.cases(call);
            println!("{call:<16} {cases:>7} {:>7}  {}", count(0), noes.join(", "));
            let few = questions.iter().any(|&number| count(number) < LEAST_NOES);
            if few || count(0) < LEAST_NOES || cases < LEAST_CASES {
                println!("{call}: too few");
                enough = false;
            }
        }
        println!("{:<16} {:>7}", "total", self.0.values().sum::<usize>());
        enough
    }

    fn cases(&self, call: &str) -> usize {
        self.0.iter().filter(|((name, _), _)| *name == call).map(|(_, count)| count).sum()
    }
}
