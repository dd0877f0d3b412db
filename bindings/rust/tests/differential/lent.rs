//! Lent buffers with guard bytes, and one case: the same call by the reference,
//! through the archive, and through the safe wrapper, every byte compared.

use reference::cases::Random;
use std::fmt::Debug;
use std::hint::black_box;

/// At least so many guard bytes stand on each side of a lent buffer.
const GUARD: usize = 64;

/// A buffer inside a larger one, at any alignment.
#[derive(Clone, PartialEq)]
pub struct Lent {
    whole: Vec<u8>,
    from: usize,
    to: usize,
}

impl Lent {
    /// Random guard bytes around the bytes.
    pub fn new(random: &mut Random, bytes: &[u8]) -> Lent {
        let from = GUARD + random.below(64);
        let to = from + bytes.len();
        let mut whole: Vec<u8> = (0..to + GUARD).map(|_| random.number() as u8).collect();
        whole[from..to].copy_from_slice(bytes);
        Lent { whole, from, to }
    }

    fn bytes(&self) -> &[u8] {
        &self.whole[self.from..self.to]
    }

    fn bytes_mut(&mut self) -> &mut [u8] {
        &mut self.whole[self.from..self.to]
    }
}

/// What a call is lent: buffers to read and buffers to write.
pub struct Case<const R: usize, const W: usize> {
    pub read: [Lent; R],
    pub written: [Lent; W],
}

impl<const R: usize, const W: usize> Case<R, W> {
    /// Makes the call three ways on equal buffers. Answers the code and the answer of the
    /// reference, or what differs from them.
    pub fn compare<T: PartialEq + Debug>(
        &self,
        reference: impl FnOnce([&[u8]; R], [&mut [u8]; W]) -> (u64, T),
        archive: impl FnOnce([&[u8]; R], [&mut [u8]; W]) -> u64,
        wrapper: impl FnOnce([&[u8]; R], [&mut [u8]; W]) -> T,
    ) -> Result<u64, String> {
        let ((code, answer), expected) = self.lend(reference)?;
        let (found, after) = self.lend(archive)?;
        if found != code {
            return Err(format!("the code is {found:#x} and should be {code:#x}"));
        }
        differ(&after, &expected)?;
        let (found, after) = self.lend(wrapper)?;
        if found != answer {
            return Err(format!("the answer is {found:?} and should be {answer:?}"));
        }
        differ(&after, &expected)?;
        Ok(code)
    }

    /// Lends copies to a call. Answers the written buffers as the call leaves them, guards too;
    /// those that are read must be as they were.
    fn lend<T>(
        &self,
        call: impl FnOnce([&[u8]; R], [&mut [u8]; W]) -> T,
    ) -> Result<(T, [Lent; W]), String> {
        let (mut read, mut written) = (self.read.clone(), self.written.clone());
        let answer = call(
            black_box(&mut read).each_ref().map(Lent::bytes),
            black_box(&mut written).each_mut().map(Lent::bytes_mut),
        );
        differ(black_box(&read), &self.read).map_err(|place| format!("only read, yet {place}"))?;
        Ok((answer, written))
    }
}

/// The first byte that differs, counted from the start of its lent buffer.
fn differ(found: &[Lent], expected: &[Lent]) -> Result<(), String> {
    for (number, (found, expected)) in found.iter().zip(expected).enumerate() {
        let pairs = found.whole.iter().zip(&expected.whole);
        if let Some(place) = pairs.clone().position(|(a, b)| a != b) {
            let (byte, right) = (found.whole[place], expected.whole[place]);
            let place = place as isize - found.from as isize;
            let length = found.to - found.from;
            return Err(format!(
                "buffer {number} of {length} bytes has {byte} at {place} and should have {right}"
            ));
        }
    }
    Ok(())
}
