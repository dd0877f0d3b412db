//! Texts as test cases: derived from the grammar, and signs in any order.

use super::Random;

/// A text derived from the grammar, with spaces here and there, cut at 200 bytes.
pub fn derived_text(random: &mut Random, u: u64, g: u64) -> Vec<u8> {
    let mut text = Vec::new();
    derive_sum(random, u as u8, g as u8, 3, &mut text);
    let spaces = random.pick(&[0, 0, 2, 4]);
    let mut spaced = Vec::new();
    for byte in text {
        while spaces > 0 && random.once_in(1 + spaces) {
            spaced.push(b' ');
        }
        spaced.push(byte);
    }
    spaced.truncate(200);
    spaced
}

fn derive_sum(random: &mut Random, u: u8, g: u8, depth: usize, text: &mut Vec<u8>) {
    derive_product(random, u, g, depth, text);
    while random.below(5) < 2 {
        text.push(random.pick(b"+|"));
        derive_product(random, u, g, depth, text);
    }
}

fn derive_product(random: &mut Random, u: u8, g: u8, depth: usize, text: &mut Vec<u8>) {
    derive_factor(random, u, g, depth, text);
    while random.once_in(3) {
        text.push(b'*');
        derive_factor(random, u, g, depth, text);
    }
}

fn derive_factor(random: &mut Random, u: u8, g: u8, depth: usize, text: &mut Vec<u8>) {
    let letters: Vec<u8> = (b'u'..b'u' + u).chain(b'a'..b'a' + g).collect();
    match random.below(if depth == 0 { 7 } else { 12 }) {
        0 => text.push(random.pick(b"01")),
        1..=6 if letters.is_empty() => text.push(random.pick(b"01")),
        1..=6 => text.push(random.pick(&letters)),
        7..=8 => {
            text.push(b'!');
            derive_factor(random, u, g, depth - 1, text);
        }
        _ => {
            text.push(b'(');
            derive_sum(random, u, g, depth - 1, text);
            text.push(b')');
        }
    }
}

/// Signs in any order: mostly no text of the grammar.
pub fn any_signs(random: &mut Random) -> Vec<u8> {
    let length = 4 + random.below(9);
    let signs: &[u8] = if random.once_in(3) { b"uvab01+|*!() " } else { b"01+|*!()()" };
    let mut text: Vec<u8> = (0..length).map(|_| random.pick(signs)).collect();
    if random.once_in(8) {
        text[length / 2] = random.pick(b"#iz\0\x80\xff~");
    }
    text
}
