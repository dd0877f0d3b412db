//! Cases for reading a text.

use crate::lines::Lines;
use reference::cases::texts::{any_signs, derived_text};
use reference::cases::{pairs, Random, BENCH, TOO_LARGE};

/// Every sign of the notation over one unknown and one given, and the space.
const SIGNS: &[u8] = b"ua01+|*!() ";

pub fn add_texts(lines: &mut Lines) {
    let random = &mut Random::new('t');
    for (u, g, text) in BENCH {
        let exact = 1 << (u + g);
        for size in [exact, exact + 3, exact - 1, 0] {
            lines.text(u, g, text.as_bytes(), size);
        }
    }
    add_two_wrong_things(lines);
    add_letters(lines);
    add_long_texts(lines);
    add_short_texts(lines);
    add_every_byte(lines);
    add_meanings(lines);
    for (u, g) in pairs(0, 4) {
        for _ in 0..90 {
            add_derived_text(lines, random, u, g);
        }
        for _ in 0..12 {
            lines.text(u, g, &any_signs(random), 1 << (u + g));
        }
    }
    for (u, g) in pairs(5, 10) {
        add_derived_text(lines, random, u, g);
    }
    add_full_tables(lines);
}

/// The first no counts: 1, 3, 4, 5, 6, 7.
fn add_two_wrong_things(lines: &mut Lines) {
    for (u, g) in TOO_LARGE {
        lines.text(u, g, b"u", 4);
        lines.text(u, g, b"", 0);
        lines.text(u, g, b"#w(", 0);
    }
    for size in [0, 1, 2, 3] {
        lines.text(1, 0, b"", size);
        lines.text(1, 0, &[b'u'; 201], size);
        lines.text(1, 0, &[b'#'; 201], size);
        lines.text(1, 0, b" ", size);
    }
    let texts: [&[u8]; 20] = [
        b"#", b"#w", b"w#", b"(#", b"w(", b")w", b"w)#", b"u#(", b"w", b"w+", b"+w", b"w w", b"u(",
        b"u)", b"U", b"u+2", b"i", b"t", b"((w", b"u\t+v",
    ];
    for text in texts {
        for size in [4, 5, 3, 0] {
            lines.text(2, 0, text, size);
        }
    }
}

/// Each letter alone, declared or not, and the last one under other signs.
fn add_letters(lines: &mut Lines) {
    for (u, g) in [(0, 0), (1, 0), (0, 1), (2, 1), (1, 3), (3, 1), (6, 0), (0, 8), (5, 1)] {
        for letter in b"uvwxyzabcdefgh" {
            lines.text(u, g, &[*letter], 1 << (u + g));
        }
    }
    for letter in 0..=255u8 {
        if letter.is_ascii_alphanumeric() {
            lines.text(1, 2, &[b'!', letter], 8);
        }
    }
    for text in ["w+(", "u*w", "(b)", "!c+a", "a+h", "z|u", "c c", "1 w", "(w", "+c"] {
        lines.text(2, 2, text.as_bytes(), 16);
    }
}

/// Spaces count among the 200 bytes; brackets nest as deep as the text allows.
fn add_long_texts(lines: &mut Lines) {
    for length in [1, 2, 3, 199, 200, 201, 202, 256, 257] {
        lines.text(1, 0, &vec![b' '; length], 2);
        lines.text(1, 0, &[vec![b' '; length - 1], vec![b'u']].concat(), 2);
        lines.text(1, 0, &[vec![b'u'], vec![b' '; length - 1]].concat(), 2);
        lines.text(1, 0, &[vec![b'!'; length - 1], vec![b'u']].concat(), 2);
        lines.text(1, 0, &cycle(b"u+", length), 2);
        lines.text(1, 0, &cycle(b"u*", length), 2);
        lines.text(1, 0, &cycle(b"u|", length), 2);
        lines.text(1, 0, &cycle(b"1+", length), 2);
        lines.text(1, 0, &cycle(b"(", length), 2);
        lines.text(1, 0, &cycle(b")", length), 2);
        lines.text(1, 0, &cycle(b"! ", length), 2);
    }
    for depth in [1, 2, 50, 98, 99, 100] {
        lines.text(1, 0, &nested(b"(", b"u", b")", depth), 2);
        lines.text(1, 0, &nested(b"(", b"", b")", depth), 2);
        lines.text(1, 0, &nested(b"(", b"u", b")", depth)[1..], 2);
        lines.text(1, 0, &nested(b"(", b"u ", b")", depth)[..2 * depth + 1], 2);
    }
    for depth in [1, 10, 32, 33, 66] {
        lines.text(1, 1, &nested(b"!(", b"a*u", b")", depth), 4);
        lines.text(1, 1, &nested(b"(u+", b"a", b")|a", depth), 4);
        lines.text(1, 1, &nested(b"(", b"u", b")*a", depth), 4);
        lines.text(2, 1, &nested(b"u+(v*", b"a", b")", depth), 8);
        lines.text(2, 1, &nested(b"u|!(", b"a*v", b")", depth), 8);
    }
}

fn cycle(part: &[u8], length: usize) -> Vec<u8> {
    part.iter().copied().cycle().take(length).collect()
}

fn nested(before: &[u8], inner: &[u8], after: &[u8], depth: usize) -> Vec<u8> {
    [before.repeat(depth), inner.to_vec(), after.repeat(depth)].concat()
}

/// Every text of one, two and three of the signs.
fn add_short_texts(lines: &mut Lines) {
    for &first in SIGNS {
        lines.text(1, 1, &[first], 4);
        for &second in SIGNS {
            lines.text(1, 1, &[first, second], 4);
            for &third in SIGNS {
                lines.text(1, 1, &[first, second, third], 4);
            }
        }
    }
}

/// Every byte value but the line feed at every place of two texts of three bytes.
fn add_every_byte(lines: &mut Lines) {
    for text in [b"u+a", b"(a)"] {
        for place in 0..text.len() {
            for byte in (0..=255).filter(|&byte| byte != b'\n') {
                let mut changed = text.to_vec();
                changed[place] = byte;
                lines.text(1, 1, &changed, 4);
            }
        }
    }
}

/// Texts that tell readings of the signs apart.
fn add_meanings(lines: &mut Lines) {
    let texts = [
        "u|v",
        "u|u",
        "u|1",
        "u|0",
        "u+v|v",
        "u|v+v",
        "u|v|w",
        "u+v|w",
        "u|v+w",
        "u|v*w",
        "u*v|w",
        "u*(v|w)",
        "!u*v",
        "!(u*v)",
        "!!u",
        "!!!u",
        "!u+v",
        "!u|v",
        "!0",
        "!1",
        "u+u",
        "u+u+u",
        "u*u*u",
        "u*v+v*u",
        "u*v+v*u+u*v",
        "u+v*w",
        "(u+v)*w",
        "u|v+u|v",
        "1+1",
        "1+1+1",
        "0*u",
        "1*u",
        "1|1",
        "u*!u",
        "u|!u",
        "u+!u",
        "!u*!v*!w",
        "!(u|v|w)",
        "(u)",
        "((u+v))*(w)",
        " u ",
        "u +v",
        "u+ v",
        "( u ) * ( v )",
        "! u",
        "!  ( u | v )",
        "   u   +   v   ",
        "u v",
        "u  v",
        "(u)(v)",
        "u!v",
        "u!",
        "!",
        "u++v",
        "u+*v",
        "*u",
        "u*",
        "()",
        "( )",
        "(u",
        "u)",
        "(u))",
        "((u)",
        "01",
        "10",
        "1 1",
        "u0",
        ")u(",
        "u+()",
        "!()",
        "u+v)",
        "(u+v",
    ];
    for text in texts {
        lines.text(3, 0, text.as_bytes(), 8);
    }
    for text in ["u+a", "u|a", "a*u+b*u+b", "!a*u", "a*b*u", "(u+a)*(u+b)", "u*(a|b)", "a|b|u"] {
        lines.text(1, 2, text.as_bytes(), 9);
        lines.text(2, 2, text.as_bytes(), 16);
    }
}

fn add_derived_text(lines: &mut Lines, random: &mut Random, u: u64, g: u64) {
    let text = derived_text(random, u, g);
    let exact = 1 << (u + g);
    let size = if u + g > 4 { exact } else { random.size(exact) };
    lines.text(u, g, &text, size);
}

/// Conditions over eight, nine and ten letters.
fn add_full_tables(lines: &mut Lines) {
    let cases = [
        (0, 8, "a*b*c*d*e*f*g*h"),
        (0, 8, "a|b|c|d|e|f|g|h"),
        (1, 8, "!u*!a*!b*!c*!d*!e*!f*!g*!h"),
        (2, 8, "(u+a*b)|(v+c*d)|(e+f*g*h)"),
        (3, 5, "(u|a)*(v|b)*(w|c)*(d|e)"),
        (4, 6, "(u+a)*(v+b)*(w+c)*(x+d)*(e|f)"),
        (6, 4, "u*v*w*x*y*z*a*b*c*d"),
        (6, 4, "u|v|w|x|y|z|a|b|c|d"),
        (6, 2, "!(u+v)*!(w+x)*!(y+z)*!(a+b)"),
    ];
    for (u, g, text) in cases {
        lines.text(u, g, text.as_bytes(), 1 << (u + g));
    }
    lines.text(6, 4, b"z*d", 1023);
    lines.text(6, 4, b"z*d", 1030);
    lines.text(6, 5, b"z*d", 2048);
}
