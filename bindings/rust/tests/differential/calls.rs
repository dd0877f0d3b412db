//! Each call three ways: the reference, the archive's function and the safe
//! wrapper. What the reference answers gives the code and the wrapper's answer.

use crate::lent::{Case, Lent};
use crate::sessions::take_step;
use crate::tally::Tally;
use layodegi::{raw, Answer, Choice, Entry, Letters, Mask, Name, Order, Refusal, Session};
use layodegi::{Solution, State, Step, Stopped};
use reference::cases::sessions::Event;
use reference::cases::Random;
use reference::{Contents, Count, Reading, Solved, Walk};
use std::fmt::Debug;

/// The cases made so far, and the numbers that place their buffers.
pub struct Calls {
    placing: Random,
    pub tally: Tally,
}

/// A call on letters and some tables, as the archive, the wrapper and the reference have it.
type RawPair =
    unsafe extern "C" fn(usize, usize, *const u8, usize, *const u8, usize, *mut u8, usize) -> u64;
type SafePair = fn(Letters, &[u8], &[u8], &mut [u8]) -> Result<usize, Refusal>;
type ReferencePair = fn(u64, u64, &[u8], &[u8], &mut [u8]) -> Result<usize, reference::Refusal>;
type RawSolving = unsafe extern "C" fn(
    usize,
    usize,
    *const u8,
    *const u8,
    usize,
    *const u8,
    usize,
    *mut u8,
    usize,
) -> u64;
type SafeSolving = fn(Letters, Order, &[u8], &[u8], &mut [u8]) -> Result<Solution, Refusal>;
type ReferenceSolving =
    fn(u64, u64, reference::Order, &[u8], &[u8], &mut [u8]) -> Result<Solved, reference::Refusal>;

/// A call that reads a table and then a table or an answer table, and writes a table.
#[derive(Clone, Copy)]
pub struct PairCall {
    pub name: &'static str,
    pub reads_answers: bool,
    raw: RawPair,
    safe: SafePair,
    reference: ReferencePair,
}

pub const SUM: PairCall = PairCall {
    name: "sum",
    reads_answers: false,
    raw: raw::layodegi_sum,
    safe: layodegi::sum,
    reference: reference::sum,
};

pub const PRODUCT: PairCall = PairCall {
    name: "product",
    reads_answers: false,
    raw: raw::layodegi_product,
    safe: layodegi::product,
    reference: reference::product,
};

pub const SUBSTITUTE: PairCall = PairCall {
    name: "substitute",
    reads_answers: true,
    raw: raw::layodegi_substitute,
    safe: layodegi::substitute,
    reference: reference::substitute,
};

/// A call that solves a condition.
#[derive(Clone, Copy)]
pub struct SolvingCall {
    pub name: &'static str,
    raw: RawSolving,
    safe: SafeSolving,
    reference: ReferenceSolving,
}

pub const BOOLE: SolvingCall = SolvingCall {
    name: "boole",
    raw: raw::layodegi_boole,
    safe: layodegi::boole,
    reference: reference::boole,
};

pub const PARTICULAR: SolvingCall = SolvingCall {
    name: "particular",
    raw: raw::layodegi_particular,
    safe: layodegi::particular,
    reference: reference::particular,
};

pub const LOWENHEIM: SolvingCall = SolvingCall {
    name: "lowenheim",
    raw: raw::layodegi_lowenheim,
    safe: layodegi::lowenheim,
    reference: reference::lowenheim,
};

impl Calls {
    pub fn new(seed: char) -> Calls {
        Calls { placing: Random::new(seed), tally: Tally::default() }
    }

    pub fn read_text(&mut self, u: u64, g: u64, text: &[u8], condition: &[u8]) {
        self.case(
            ("read_text", &[u, g]),
            [text],
            [condition],
            |[text], [condition]| done(reference::read_text(u, g, text, condition)),
            |[text], [condition]| unsafe {
                raw::layodegi_read_text(
                    u as usize,
                    g as usize,
                    text.as_ptr(),
                    text.len(),
                    condition.as_mut_ptr(),
                    condition.len(),
                )
            },
            |[text], [condition]| layodegi::read_text(letters(u, g), text, condition),
        );
    }

    pub fn value(&mut self, u: u64, g: u64, table: &[u8], state: u64, choice: u64) {
        self.case(
            ("value", &[u, g, state, choice]),
            [table],
            [],
            |[table], []| {
                let (state, choice) = (reference::State(state), reference::Choice(choice));
                number(reference::value(u, g, table, state, choice))
            },
            |[table], []| unsafe {
                raw::layodegi_value(
                    u as usize,
                    g as usize,
                    table.as_ptr(),
                    table.len(),
                    state as usize,
                    choice as usize,
                )
            },
            |[table], []| {
                let (state, choice) = (State(state as usize), Choice(choice as usize));
                layodegi::value(letters(u, g), table, state, choice)
            },
        );
    }

    pub fn pair(&mut self, call: PairCall, u: u64, g: u64, a: &[u8], b: &[u8], out: &[u8]) {
        self.case(
            (call.name, &[u, g]),
            [a, b],
            [out],
            |[a, b], [out]| number((call.reference)(u, g, a, b, out)),
            |[a, b], [out]| unsafe {
                (call.raw)(
                    u as usize,
                    g as usize,
                    a.as_ptr(),
                    a.len(),
                    b.as_ptr(),
                    b.len(),
                    out.as_mut_ptr(),
                    out.len(),
                )
            },
            |[a, b], [out]| (call.safe)(letters(u, g), a, b, out),
        );
    }

    pub fn derivative(&mut self, u: u64, g: u64, table: &[u8], s: u64, out: &[u8]) {
        self.case(
            ("derivative", &[u, g, s]),
            [table],
            [out],
            |[table], [out]| done(reference::derivative(u, g, table, s, out)),
            |[table], [out]| unsafe {
                raw::layodegi_derivative(
                    u as usize,
                    g as usize,
                    table.as_ptr(),
                    table.len(),
                    s as usize,
                    out.as_mut_ptr(),
                    out.len(),
                )
            },
            |[table], [out]| layodegi::derivative(letters(u, g), table, Mask(s as usize), out),
        );
    }

    pub fn solve(
        &mut self,
        call: SolvingCall,
        (u, g, order): (u64, u64, reference::Order),
        fact: &[u8],
        condition: &[u8],
        answers: &[u8],
    ) {
        self.case(
            (call.name, &[u, g]),
            [&order.0, fact, condition],
            [answers],
            |[order, fact, condition], [answers]| {
                let order = reference::Order(six(order));
                solved((call.reference)(u, g, order, fact, condition, answers))
            },
            |[order, fact, condition], [answers]| unsafe {
                (call.raw)(
                    u as usize,
                    g as usize,
                    order.as_ptr(),
                    fact.as_ptr(),
                    fact.len(),
                    condition.as_ptr(),
                    condition.len(),
                    answers.as_mut_ptr(),
                    answers.len(),
                )
            },
            |[order, fact, condition], [answers]| {
                (call.safe)(letters(u, g), Order(six(order)), fact, condition, answers)
            },
        );
    }

    pub fn lowenheim_handed(
        &mut self,
        u: u64,
        g: u64,
        fact: &[u8],
        condition: &[u8],
        handed: &[u8],
        answers: &[u8],
    ) {
        self.case(
            ("lowenheim_handed", &[u, g]),
            [fact, condition, handed],
            [answers],
            |[fact, condition, handed], [answers]| {
                number(reference::lowenheim_handed(u, g, fact, condition, handed, answers))
            },
            |[fact, condition, handed], [answers]| unsafe {
                raw::layodegi_lowenheim_handed(
                    u as usize,
                    g as usize,
                    fact.as_ptr(),
                    fact.len(),
                    condition.as_ptr(),
                    condition.len(),
                    handed.as_ptr(),
                    handed.len(),
                    answers.as_mut_ptr(),
                    answers.len(),
                )
            },
            |[fact, condition, handed], [answers]| {
                layodegi::lowenheim_handed(letters(u, g), fact, condition, handed, answers)
            },
        );
    }

    /// The companion's number is to be the refusal's: it stands above the code, as no code has
    /// anything there.
    pub fn shorter(&mut self, u: u64, g: u64, boole: &[u8], lowenheim: &[u8]) {
        self.case(
            ("shorter", &[u, g]),
            [boole, lowenheim],
            [],
            |lent, []| part(reference::shorter(u, g, lent[0], lent[1]), lent),
            |[boole, lowenheim], []| unsafe {
                let which = raw::layodegi_which_shorter(
                    u as usize,
                    g as usize,
                    boole.as_ptr(),
                    boole.len(),
                    lowenheim.as_ptr(),
                    lowenheim.len(),
                );
                let refusal = raw::layodegi_shorter_refusal(
                    u as usize,
                    g as usize,
                    boole.as_ptr(),
                    boole.len(),
                    lowenheim.as_ptr(),
                    lowenheim.len(),
                );
                which.wrapping_add(refusal << ABOVE)
            },
            |lent, []| {
                let shorter = layodegi::shorter(letters(u, g), lent[0], lent[1])?;
                Ok(Part::of(shorter, lent))
            },
        );
    }

    pub fn write_entry(
        &mut self,
        route: u64,
        (u, g, order): (u64, u64, reference::Order),
        fact: &[u8],
        condition: &[u8],
        out: &[u8],
    ) {
        self.case(
            ("write_entry", &[route, u, g]),
            [&order.0, fact, condition],
            [out],
            |[order, fact, condition], [out]| {
                let order = reference::Order(six(order));
                number(reference::write_entry(route, u, g, order, fact, condition, out))
            },
            |[order, fact, condition], [out]| unsafe {
                raw::layodegi_write_entry(
                    route as usize,
                    u as usize,
                    g as usize,
                    order.as_ptr(),
                    fact.as_ptr(),
                    fact.len(),
                    condition.as_ptr(),
                    condition.len(),
                    out.as_mut_ptr(),
                    out.len(),
                )
            },
            |[order, fact, condition], [out]| {
                let (route, order) = (route as usize, Order(six(order)));
                layodegi::write_entry(route, letters(u, g), order, fact, condition, out)
            },
        );
    }

    /// The order, six bytes, is a lent buffer to the archive; the wrapper gives it, and what it
    /// gives is put where the archive would put it.
    pub fn read_entry(
        &mut self,
        bytes: &[u8],
        order: [u8; 6],
        fact: &[u8],
        condition: &[u8],
        answers: &[u8],
    ) {
        self.case(
            ("read_entry", &[]),
            [bytes],
            [&order, fact, condition, answers],
            |[bytes], [order, fact, condition, answers]| {
                let mut found = reference::Order(six(order));
                let read = reference::read_entry(bytes, &mut found, fact, condition, answers);
                order.copy_from_slice(&found.0);
                entry(read)
            },
            |[bytes], [order, fact, condition, answers]| unsafe {
                raw::layodegi_read_entry(
                    bytes.as_ptr(),
                    bytes.len(),
                    order.as_mut_ptr(),
                    fact.as_mut_ptr(),
                    fact.len(),
                    condition.as_mut_ptr(),
                    condition.len(),
                    answers.as_mut_ptr(),
                    answers.len(),
                )
            },
            |[bytes], [order, fact, condition, answers]| {
                let reading = layodegi::read_entry(bytes, fact, condition, answers)?;
                order.copy_from_slice(&reading.order.0);
                Ok(reading.entry)
            },
        );
    }

    pub fn audit(&mut self, bytes: &[u8]) {
        self.case(
            ("audit", &[]),
            [bytes],
            [],
            |[bytes], []| entry(reference::audit(bytes)),
            |[bytes], []| unsafe { raw::layodegi_audit(bytes.as_ptr(), bytes.len()) },
            |[bytes], []| layodegi::audit(bytes),
        );
    }

    pub fn walk(&mut self, volume: &[u8], place: usize) {
        self.case(
            ("walk", &[place as u64]),
            [volume],
            [],
            |[volume], []| count(Walk { volume, place }.count()),
            |[volume], []| unsafe { raw::layodegi_walk(volume.as_ptr(), volume.len(), place) },
            |[volume], []| layodegi::walk(volume, place),
        );
    }

    /// A step of a session that is handed in as bytes.
    pub fn session(&mut self, event: &Event, bytes: &[u8]) {
        let (call, numbers, h): (_, Vec<u64>, &[u8]) = match event {
            Event::Start(u, g) => ("session_start", vec![*u, *g], &[]),
            Event::Add(h) => ("session_add", vec![], h),
            Event::Mark(name) => ("session_mark", vec![*name], &[]),
            Event::Return(name) => ("session_return", vec![*name], &[]),
            Event::Change(_) => unreachable!("no step"),
        };
        self.case(
            (call, &numbers),
            [h],
            [bytes],
            |_, [bytes]| done(take_step(event, bytes)),
            |[h], [bytes]| {
                let bytes = bytes.as_mut_ptr();
                unsafe { session_code(event, h, bytes) }
            },
            |[h], [bytes]| {
                let Step { session, answer } = session_step(event, h, bytes);
                bytes.copy_from_slice(&session.0);
                answer
            },
        );
    }

    /// One case of a call, with the numbers that it passes.
    fn case<T: PartialEq + Debug, const R: usize, const W: usize>(
        &mut self,
        (call, numbers): (&'static str, &[u64]),
        read: [&[u8]; R],
        written: [&[u8]; W],
        reference: impl FnOnce([&[u8]; R], [&mut [u8]; W]) -> (u64, T),
        archive: impl FnOnce([&[u8]; R], [&mut [u8]; W]) -> u64,
        wrapper: impl FnOnce([&[u8]; R], [&mut [u8]; W]) -> T,
    ) {
        let case = Case {
            read: read.map(|bytes| Lent::new(&mut self.placing, bytes)),
            written: written.map(|bytes| Lent::new(&mut self.placing, bytes)),
        };
        match case.compare(reference, archive, wrapper) {
            Ok(code) => self.tally.add(call, code as u8),
            Err(difference) => {
                let lengths = written.map(<[u8]>::len);
                panic!("{call} {numbers:?} on {read:?}, buffers of {lengths:?}: {difference}")
            }
        }
    }
}

/// A step by the archive; `h` is the table to add, as it is lent.
unsafe fn session_code(event: &Event, h: &[u8], session: *mut u8) -> u64 {
    match event {
        Event::Start(u, g) => raw::layodegi_session_start(*u as usize, *g as usize, session),
        Event::Add(_) => raw::layodegi_session_add(session, h.as_ptr(), h.len()),
        Event::Mark(name) => raw::layodegi_session_mark(session, *name as usize),
        Event::Return(name) => raw::layodegi_session_return(session, *name as usize),
        Event::Change(_) => unreachable!("no step"),
    }
}

/// A step by the wrapper.
fn session_step(event: &Event, h: &[u8], bytes: &[u8]) -> Step {
    let session = Session(bytes.try_into().expect("a session"));
    match event {
        Event::Start(u, g) => Session::start(letters(*u, *g)),
        Event::Add(_) => session.add(h),
        Event::Mark(name) => session.mark(Name(*name as usize)),
        Event::Return(name) => session.return_to(Name(*name as usize)),
        Event::Change(_) => unreachable!("no step"),
    }
}

/// A lent order.
fn six(order: &[u8]) -> [u8; 6] {
    order.try_into().expect("six bytes")
}

fn letters(u: u64, g: u64) -> Letters {
    Letters { unknowns: u as usize, givens: g as usize }
}

fn refused<T>(reference::Refusal(number): reference::Refusal) -> (u64, Result<T, Refusal>) {
    (number.into(), Err(Refusal::with_number(number)))
}

fn done(answer: Result<(), reference::Refusal>) -> (u64, Result<(), Refusal>) {
    answer.map_or_else(refused, |()| (0, Ok(())))
}

/// A value, a length or a number of monomials.
fn number<T: Copy + TryInto<u64, Error: Debug>>(
    answer: Result<T, reference::Refusal>,
) -> (u64, Result<T, Refusal>) {
    answer.map_or_else(refused, |number| (256 * number.try_into().unwrap(), Ok(number)))
}

fn solved(answer: Result<Solved, reference::Refusal>) -> (u64, Result<Solution, Refusal>) {
    answer.map_or_else(refused, |solved| match solved {
        Solved::Done { monomials } => (256 * monomials as u64, Ok(Solution::Solved { monomials })),
        Solved::None(state) => (9 + 256 * state.0, Ok(Solution::None(State(state.0 as usize)))),
    })
}

/// The bits of a code below those that hold the number of the shorter call's companion.
const ABOVE: u32 = 40;

/// What is handed back of two lent tables: of which one, from where in it on, and its bytes.
#[derive(Debug, PartialEq)]
struct Part {
    table: usize,
    from: usize,
    bytes: Vec<u8>,
}

impl Part {
    /// By its address: a copy of a lent table is no part of it.
    fn of(part: &[u8], lent: [&[u8]; 2]) -> Part {
        let from = |table: &[u8]| part.as_ptr().addr().checked_sub(table.as_ptr().addr());
        let inside = |table: &[u8]| from(table).filter(|&from| from + part.len() <= table.len());
        let mut found = lent.into_iter().map(inside).enumerate();
        match found.find_map(|(table, from)| Some((table, from?))) {
            Some((table, from)) => Part { table, from, bytes: part.to_vec() },
            None => panic!("{part:?} is no part of what was lent"),
        }
    }
}

fn part(
    answer: Result<&[u8], reference::Refusal>,
    lent: [&[u8]; 2],
) -> (u64, Result<Part, Refusal>) {
    match answer {
        Ok(shorter) => {
            let part = Part::of(shorter, lent);
            (256 * part.table as u64, Ok(part))
        }
        Err(refusal) => {
            let (number, answer) = refused(refusal);
            (number + (number << ABOVE), answer)
        }
    }
}

fn entry(answer: Result<Reading, reference::Refusal>) -> (u64, Result<Entry, Refusal>) {
    answer.map_or_else(refused, |reading| {
        let Reading { route, unknowns, givens, contents, length } = reading;
        let (none, answer) = match contents {
            Contents::Solved => (0, Answer::Solved),
            Contents::None(state) => (1 + state.0, Answer::None(State(state.0 as usize))),
        };
        let heading = u64::from(route) << 8 | u64::from(unknowns) << 16 | u64::from(givens) << 24;
        let letters = letters(unknowns.into(), givens.into());
        (heading | (length as u64) << 32 | none << 48, Ok(Entry { route, letters, answer, length }))
    })
}

fn count(answer: Count) -> (u64, Result<usize, Stopped>) {
    match answer {
        Count::Whole(count) => (256 * count as u64, Ok(count)),
        Count::Refused(reference::Refusal(number), passed) => {
            let refusal = Refusal::with_number(number);
            (u64::from(number) + 256 * passed as u64, Err(Stopped { refusal, passed }))
        }
    }
}
