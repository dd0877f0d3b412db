//! Cases for reading a text.

use crate::calls::Calls;
use crate::making::{garbage, result, wrong_letters};
use reference::cases::texts::{any_signs, derived_text};
use reference::cases::{pairs, Random, BENCH};

pub fn run() -> Calls {
    let mut calls = Calls::new('T');
    let random = &mut Random::new('t');
    for (u, g) in wrong_letters(random) {
        let (text, table) = (derived_text(random, 2, 2), result(random, 16));
        calls.read_text(u, g, &text, &table);
        calls.read_text(u, g, &[], &[]);
    }
    for (u, g, text) in BENCH {
        for _ in 0..10 {
            calls.read_text(u, g, text.as_bytes(), &result(random, 1 << (u + g)));
        }
    }
    every_byte(&mut calls, random);
    for (u, g) in pairs(0, 10) {
        lengths(&mut calls, random, u, g);
        for _ in 0..120 {
            let text = derived_text(random, u, g);
            calls.read_text(u, g, &text, &result(random, 1 << (u + g)));
            let text = damaged(random, text);
            calls.read_text(u, g, &text, &result(random, 1 << (u + g)));
        }
        for _ in 0..40 {
            let text = long_text(random, u, g);
            calls.read_text(u, g, &text, &result(random, 1 << (u + g)));
            calls.read_text(u, g, &any_signs(random), &result(random, 1 << (u + g)));
        }
    }
    calls
}

/// Every byte value alone and at each place of two texts.
fn every_byte(calls: &mut Calls, random: &mut Random) {
    for byte in 0..=255 {
        for (u, g) in [(0, 0), (1, 1), (6, 4), (2, 8)] {
            calls.read_text(u, g, &[byte], &garbage(random, 1 << (u + g)));
        }
        for text in [&b" (u+a)*!v"[..], b"0|(u)"] {
            for place in 0..text.len() {
                let mut text = text.to_vec();
                text[place] = byte;
                calls.read_text(2, 1, &text, &garbage(random, 8));
            }
        }
    }
}

/// Texts of no byte, of 200 and of more, of spaces, brackets and other signs.
fn lengths(calls: &mut Calls, random: &mut Random, u: u64, g: u64) {
    for length in [0, 1, 199, 200, 201, 255, 256, 257, 300, 65_536 + 5] {
        for part in ["1+", "!", "(", " ", "0|1*", "#"] {
            let mut text = part.as_bytes().repeat(length);
            text.truncate(length);
            calls.read_text(u, g, &text, &result(random, 1 << (u + g)));
            if let Some(last) = text.last_mut() {
                *last = b'1';
                calls.read_text(u, g, &text, &result(random, 1 << (u + g)));
            }
        }
    }
    for depth in [98, 99, 100] {
        let text = ["(".repeat(depth), "1".to_string(), ")".repeat(depth)].concat();
        calls.read_text(u, g, text.as_bytes(), &result(random, 1 << (u + g)));
    }
}

/// Texts joined by signs, to at most 200 bytes.
fn long_text(random: &mut Random, u: u64, g: u64) -> Vec<u8> {
    let mut text = derived_text(random, u, g);
    for _ in 0..40 {
        let part = derived_text(random, u, g);
        if text.len() + 3 + part.len() <= 200 {
            text.push(random.pick(b"+|*"));
            text.extend([b"(", &part[..], b")"].concat());
        }
    }
    text
}

/// A text with one byte or two changed, left out, put in or exchanged.
fn damaged(random: &mut Random, mut text: Vec<u8>) -> Vec<u8> {
    for _ in 0..1 + random.below(2) {
        let place = random.below(text.len());
        let byte = match random.below(3) {
            0 => random.number() as u8,
            _ => random.pick(b"uvwxyzabcdefgh01+|*!() "),
        };
        match random.below(4) {
            0 => text[place] = byte,
            1 => text.insert(place, byte),
            2 if text.len() > 1 => drop(text.remove(place)),
            _ => text.swap(place, 0),
        }
    }
    text
}
