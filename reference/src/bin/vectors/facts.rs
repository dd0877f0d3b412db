//! Cases for facts in the calls that solve and in writing: right facts of every density, those that
//! questions 22 and 23 refuse, and facts beside other wrong things.

use crate::lines::Lines;
use reference::cases::facts::{counted, no_fact, wrong_facts, ROWS};
use reference::cases::{every_table, pairs, tables_of, Random};
use reference::Order;

/// A call by its letter, `b`, `p`, `l`, `h` or `w`, and where its lines go.
struct Facts<'a> {
    lines: &'a mut Lines,
    call: char,
    random: &'a mut Random,
}

pub fn add_facts(lines: &mut Lines, call: char) {
    let random = &mut Random::new(call.to_ascii_uppercase());
    let mut facts = Facts { lines, call, random };
    for (u, g, fact, condition, _) in ROWS {
        facts.add(u, g, &tables_of(u, g, &[fact]), &tables_of(u, g, &[condition]));
    }
    facts.add_every_small_one();
    for (u, g) in pairs(0, 4) {
        if u + g < 4 || call == 'b' {
            facts.add_wrong(u, g);
        }
        for _ in 0..if u + g < 4 { 6 } else { 2 } {
            let (fact, condition) = facts.random.under_fact(u, g);
            facts.add(u, g, &fact, &condition);
        }
    }
    facts.add_large();
}

impl Facts<'_> {
    /// Handed are polynomials that make f*(1 + g) zero, or nearly do, if the tables are right.
    fn add(&mut self, u: u64, g: u64, fact: &[u8], condition: &[u8]) {
        let handed = match self.call {
            'h' => {
                let kind = self.random.kind();
                self.random.handed(kind, u, g, &counted(fact, condition))
            }
            _ => vec![],
        };
        let order = self.random.order(u);
        self.put((u, g, order), fact, condition, &handed, 0);
    }

    /// One call, with so many bytes too few in its result buffer.
    fn put(
        &mut self,
        (u, g, order): (u64, u64, Order),
        fact: &[u8],
        condition: &[u8],
        handed: &[u8],
        missing: usize,
    ) {
        let answers = (u as usize * (1 << (u + g))).saturating_sub(missing);
        match self.call {
            'h' => self.lines.handed(u, g, fact, condition, handed, answers),
            'w' => {
                let mut room = [0; 2_000];
                let length = reference::write_entry(9, u, g, order, fact, condition, &mut room);
                let size = length.unwrap_or(20) - missing;
                self.lines.writing_under(9, (u, g, order), fact, condition, size);
            }
            call => self.lines.solution_under(call, (u, g, order), fact, condition, answers),
        }
    }

    /// Every condition with every table as its fact, over at most one letter; over an unknown and a
    /// given too by Boole, by others a sample.
    fn add_every_small_one(&mut self) {
        for (u, g) in [(0, 0), (0, 1), (1, 0), (1, 1)] {
            let length = 1 << (u + g);
            for fact in every_table(length) {
                for condition in every_table(length) {
                    if u + g < 2 || self.call == 'b' || self.random.once_in(6) {
                        self.add(u, g, &fact, &condition);
                    }
                }
            }
        }
    }

    /// Facts with an unknown and the fact 1, by themselves and beside one more wrong thing; facts
    /// that are too short, too long, or have a byte that is no bit.
    fn add_wrong(&mut self, u: u64, g: u64) {
        let random = &mut *self.random;
        let (right, condition) = (random.fact(u, g), random.solvable(u, g));
        let none = random.blocked(u, g, 0);
        let length = condition.len();
        let handed = vec![0; u as usize * length];
        let (mut spoiled_fact, mut spoiled) = (right.clone(), condition.clone());
        random.spoil(&mut spoiled_fact, length);
        random.spoil(&mut spoiled, length);
        let mut wrong = wrong_facts(u, g);
        let order = (u, g, random.order(u));
        let first = wrong.swap_remove(random.below(wrong.len()));
        let longer = [&right[..], &[7, 1, 9]].concat();
        for (fact, condition, missing) in [
            (&longer[..], &condition[..], 0),
            (&right[1..], &condition, 0),
            (&[], &condition, 0),
            (&spoiled_fact, &condition, 0),
            (&spoiled_fact[1..], &spoiled, 0),
            (&spoiled_fact, &condition[1..], 0),
            (&spoiled_fact, &none, 1),
            (&first, &condition, 0),
            (&first, &none, 0),
            (&first, &spoiled, 0),
            (&first, &condition[1..], 0),
            (&first, &condition, 1),
        ] {
            self.put(order, fact, condition, &handed, missing);
        }
        self.put((u, g, Order([u as u8; 6])), &first, &spoiled, &handed, 0);
        for fact in wrong {
            if self.random.once_in(4) {
                self.put(order, &fact, &none, &handed, 0);
            }
        }
    }

    /// Five letters, and eight to ten; those of writing stand with its other large ones.
    fn add_large(&mut self) {
        let large = match self.call {
            'w' => &[(1, 4), (3, 2), (2, 3)][..],
            'b' => &[(1, 4), (3, 2), (2, 3), (2, 6), (5, 4), (2, 8)],
            _ => &[(1, 4), (3, 2), (2, 6), (1, 8)],
        };
        for &(u, g) in large {
            let (fact, condition) = self.random.under_fact(u, g);
            self.add(u, g, &fact, &condition);
        }
        // seen by 22 in its last byte alone
        let mut last = no_fact(2, 6);
        last[255] = 1;
        let (condition, order) = (self.random.solvable(2, 6), self.random.order(2));
        self.put((2, 6, order), &last, &condition, &[0; 512], 0);
    }
}
