//! Cases for the walk over a volume.

use crate::calls::Calls;
use crate::entries::{damaged, rerouted};
use crate::making::garbage;
use reference::cases::entries::{built, damaged_entries, entry, entry_under};
use reference::cases::facts::wrong_facts;
use reference::cases::{pairs, Random};

pub fn run() -> Calls {
    let mut calls = Calls::new('K');
    let random = &mut Random::new('k');
    for place in [0, 1, 2, 65_536, usize::MAX] {
        calls.walk(&[], place);
    }
    for many in (0..300).map(|k| 1 + k % 12) {
        let entries = volume(random, many, 4);
        walks(&mut calls, random, &entries);
    }
    for many in [100, 249, 250, 251, 260] {
        let entries = volume(random, many, 2);
        walks(&mut calls, random, &entries);
    }
    for many in [5, 40] {
        let entries = volume(random, many, 10);
        walks(&mut calls, random, &entries);
    }
    let (before, after) = (entry(2, 1, 0, &[0, 1]), entry(250, 1, 1, &[0, 0, 1, 0]));
    for bytes in damaged_entries(random) {
        let volume = [&before[..], &bytes, &after].concat();
        calls.walk(&volume, random.pick(&[0, 0, before.len()]));
    }
    for (u, g) in pairs(0, 6) {
        for fact in wrong_facts(u, g) {
            let (order, table) = (random.order(u), random.solvable(u, g));
            let wrong = built(order, 7, u, g, &fact, &table, &[]);
            calls.walk(&[&before[..], &wrong, &after].concat(), 0);
            calls.walk(&[&wrong[..], &after].concat(), 0);
        }
    }
    calls
}

/// Entries end to end: routes mostly rising by one or more, over at most so many letters.
fn volume(random: &mut Random, many: usize, letters: u64) -> Vec<Vec<u8>> {
    let letters = pairs(0, letters);
    let mut route = 0;
    let mut entries = Vec::new();
    for _ in 0..many {
        route += match many {
            100.. => 1,
            _ => random.pick(&[1, 1, 1, 2, 10]),
        };
        if random.once_in(40 + 2 * many) {
            route = 1 + random.below(250);
        }
        let (u, g) = random.pick(&letters);
        let (fact, table) = random.under_fact(u, g);
        let order = random.order(u);
        let route = (1 + (route - 1) % 250) as u64;
        entries.push(entry_under(order, route, u, g, &fact, &table));
    }
    entries
}

/// Walks from each kind of place, of the volume as it is and damaged.
fn walks(calls: &mut Calls, random: &mut Random, entries: &[Vec<u8>]) {
    let volume = entries.concat();
    let mut starts = vec![0];
    for bytes in entries {
        starts.push(starts[starts.len() - 1] + bytes.len());
    }
    for _ in 0..5 {
        let start = random.pick(&starts);
        calls.walk(&volume, start);
        calls.walk(&volume, start.saturating_add(1 + random.below(4)));
        calls.walk(&volume, random.below(volume.len()));
    }
    let end = volume.len();
    for place in [0, end - 2, end - 1, end, end + 1, 1 << 32, usize::MAX - 1, usize::MAX] {
        calls.walk(&volume, place);
    }
    for _ in 0..8 {
        let bytes = damaged(random, &volume);
        calls.walk(&bytes, 0);
        let mut parts = entries.to_vec();
        let place = random.below(parts.len());
        parts[place] = damaged(random, &parts[place]);
        calls.walk(&parts.concat(), 0);
        parts[place] = entries[random.below(entries.len())].clone();
        calls.walk(&parts.concat(), 0);
        parts[place] = rerouted(&entries[place], random.pick(&[0, 1, 250, 251, 255]));
        calls.walk(&parts.concat(), 0);
    }
    calls.walk(&[&volume[..], &garbage(random, 3)].concat(), 0);
    calls.walk(&[&volume[..], &[4, 7, 0]].concat(), 0);
}
