//! The calls, the engine's beside plain Rust's in both forms, two of them once more in the reverse
//! order, three under a fact, the handed form accepted and refused, and the steps of a session
//! together. Where a row names no fact it is 0. All get the same lent inputs, and write over a buffer
//! of their own again and again: none is cleared first.

use crate::inputs::{counts, default_order, reverse_order, Inputs};
use crate::timing::{compare, Compared, Effort};
use layodegi::{Answer, Question, Solution, NO_FACT};
use reference::plain::{self, Block, Bytes};
use reference::Step;
use reference::LONGEST_ENTRY;
use reference::{
    Choice, Contents, Count, Letters, Order, Reading, Refusal, Session, Solved, State,
};
use std::hint::black_box;

/// The name that a session marks.
const NAME: u64 = b'A' as u64;
/// What a derivative is taken by: every second letter, unknowns and givens, low and high.
const SET: usize = 0b01_0101_0101;

pub struct Call {
    pub name: &'static str,
    /// What sets a row apart from the row before it.
    pub note: &'static str,
    pub measure: fn(&Inputs, Effort) -> Compared,
}

pub const CALLS: [Call; 22] = [
    Call { name: "read_text", note: "", measure: read_text },
    Call { name: "value", note: "", measure: value },
    Call { name: "sum", note: "", measure: sum },
    Call { name: "product", note: "", measure: product },
    Call { name: "substitute", note: "", measure: substitute },
    Call { name: "derivative", note: "", measure: derivative },
    Call { name: "boole", note: "", measure: boole },
    Call { name: "boole", note: " in reverse order", measure: boole_reversed },
    Call { name: "boole", note: " under a fact", measure: boole_under_fact },
    Call { name: "particular", note: "", measure: particular },
    Call { name: "lowenheim", note: "", measure: lowenheim },
    Call { name: "lowenheim_handed", note: ", accepted", measure: lowenheim_handed },
    Call { name: "lowenheim_handed", note: ", refused", measure: lowenheim_handed_refused },
    Call { name: "shorter", note: "", measure: shorter },
    Call { name: "write_entry", note: "", measure: write_entry },
    Call { name: "write_entry", note: " in reverse order", measure: write_entry_reversed },
    Call { name: "write_entry", note: " under a fact", measure: write_entry_under_fact },
    Call { name: "read_entry", note: "", measure: read_entry },
    Call { name: "audit", note: "", measure: audit },
    Call { name: "audit", note: " under a fact", measure: audit_under_fact },
    Call { name: "walk", note: "", measure: walk },
    Call { name: "session", note: ", five steps", measure: session },
];

/// Asserts on every input that results and lent bytes are the same, then takes the times.
fn measure<I, E, P: PartialEq>(
    effort: Effort,
    inputs: &[I],
    room: usize,
    engine: impl Fn(&I, &mut [u8]) -> E,
    bytes: impl Fn(&I, &mut [u8]) -> P,
    words: impl Fn(&I, &mut [u8]) -> P,
    same: impl Fn(E, P) -> bool,
) -> Compared {
    let (mut engine_out, mut bytes_out, mut words_out) =
        (vec![7; room], vec![7; room], vec![7; room]);
    for input in inputs {
        let by_bytes = bytes(input, &mut bytes_out);
        assert!(by_bytes == words(input, &mut words_out), "both forms answer the same");
        assert!(same(engine(input, &mut engine_out), by_bytes), "the engine answers the same");
        assert!(engine_out == bytes_out && engine_out == words_out, "all write the same");
    }
    compare(
        effort,
        inputs,
        [
            &mut |input: &I| drop(black_box(engine(black_box(input), black_box(&mut engine_out)))),
            &mut |input: &I| drop(black_box(bytes(black_box(input), black_box(&mut bytes_out)))),
            &mut |input: &I| drop(black_box(words(black_box(input), black_box(&mut words_out)))),
        ],
    )
}

pub fn engine_letters(letters: Letters) -> layodegi::Letters {
    layodegi::Letters { unknowns: letters.unknowns, givens: letters.givens }
}

fn engine_order(order: Order) -> layodegi::Order {
    layodegi::Order(order.0)
}

fn both_done<E, P>(engine: Result<(), E>, plain: Result<(), P>) -> bool {
    engine.is_ok() && plain.is_ok()
}

/// Both are done, and give the same: a value, a length, a number of monomials or the place of a part.
fn same_answer<T: PartialEq, E, P>(engine: Result<T, E>, plain: Result<T, P>) -> bool {
    matches!((engine, plain), (Ok(engine), Ok(plain)) if engine == plain)
}

/// What a call that solves answers.
type Engine = Result<Solution, layodegi::Refusal>;
type Plain = Result<Solved, Refusal>;

/// Both have answers, of as many monomials.
fn both_solved(engine: Engine, plain: Plain) -> bool {
    match (engine, plain) {
        (Ok(Solution::Solved { monomials: engine }), Ok(Solved::Done { monomials: plain })) => {
            engine == plain
        }
        _ => false,
    }
}

fn same_entry(
    engine: Result<layodegi::Entry, layodegi::Refusal>,
    plain: Result<Reading, Refusal>,
) -> bool {
    match (engine, plain) {
        (Ok(engine), Ok(plain)) => {
            (engine.route, engine.length) == (plain.route, plain.length)
                && (engine.answer, plain.contents) == (Answer::Solved, Contents::Solved)
        }
        _ => false,
    }
}

fn read_text(inputs: &Inputs, effort: Effort) -> Compared {
    let (letters, (u, g)) = (engine_letters(inputs.letters), counts(inputs.letters));
    measure(
        effort,
        &inputs.texts,
        inputs.letters.table_length(),
        |text, out| layodegi::read_text(letters, text, out),
        |text, out| plain::read_text::<Bytes>(u, g, text, out),
        |text, out| plain::read_text::<u64>(u, g, text, out),
        both_done,
    )
}

fn value(inputs: &Inputs, effort: Effort) -> Compared {
    let (letters, (u, g)) = (engine_letters(inputs.letters), counts(inputs.letters));
    // all letters but unknown 0 and given 0
    let state = inputs.letters.states() - 2;
    let choice = inputs.letters.choices() - 2;
    let engine_point = (layodegi::State(state as usize), layodegi::Choice(choice as usize));
    measure(
        effort,
        &inputs.conditions,
        0,
        |table, _| layodegi::value(letters, table, engine_point.0, engine_point.1),
        |table, _| plain::value::<Bytes>(u, g, table, State(state), Choice(choice)),
        |table, _| plain::value::<u64>(u, g, table, State(state), Choice(choice)),
        same_answer,
    )
}

fn sum(inputs: &Inputs, effort: Effort) -> Compared {
    let (letters, (u, g)) = (engine_letters(inputs.letters), counts(inputs.letters));
    measure(
        effort,
        &inputs.pairs,
        inputs.letters.table_length(),
        |(a, b), out| layodegi::sum(letters, a, b, out),
        |(a, b), out| plain::sum::<Bytes>(u, g, a, b, out),
        |(a, b), out| plain::sum::<u64>(u, g, a, b, out),
        same_answer,
    )
}

fn product(inputs: &Inputs, effort: Effort) -> Compared {
    let (letters, (u, g)) = (engine_letters(inputs.letters), counts(inputs.letters));
    measure(
        effort,
        &inputs.pairs,
        inputs.letters.table_length(),
        |(a, b), out| layodegi::product(letters, a, b, out),
        |(a, b), out| plain::product::<Bytes>(u, g, a, b, out),
        |(a, b), out| plain::product::<u64>(u, g, a, b, out),
        same_answer,
    )
}

fn substitute(inputs: &Inputs, effort: Effort) -> Compared {
    let (letters, (u, g)) = (engine_letters(inputs.letters), counts(inputs.letters));
    measure(
        effort,
        &inputs.handed,
        inputs.letters.table_length(),
        |(condition, handed), out| layodegi::substitute(letters, condition, handed, out),
        |(condition, handed), out| plain::substitute::<Bytes>(u, g, condition, handed, out),
        |(condition, handed), out| plain::substitute::<u64>(u, g, condition, handed, out),
        same_answer,
    )
}

fn derivative(inputs: &Inputs, effort: Effort) -> Compared {
    let (letters, (u, g)) = (engine_letters(inputs.letters), counts(inputs.letters));
    // those that are declared
    let set = SET % inputs.letters.table_length();
    let (for_engine, s) = (layodegi::Mask(set), set as u64);
    measure(
        effort,
        &inputs.conditions,
        inputs.letters.table_length(),
        |table, out| layodegi::derivative(letters, table, for_engine, out),
        |table, out| plain::derivative::<Bytes>(u, g, table, s, out),
        |table, out| plain::derivative::<u64>(u, g, table, s, out),
        both_done,
    )
}

fn boole(inputs: &Inputs, effort: Effort) -> Compared {
    boole_on(inputs.letters, default_order(inputs.letters), &inputs.without_facts(), effort)
}

fn boole_reversed(inputs: &Inputs, effort: Effort) -> Compared {
    boole_on(inputs.letters, reverse_order(inputs.letters), &inputs.without_facts(), effort)
}

fn boole_under_fact(inputs: &Inputs, effort: Effort) -> Compared {
    boole_on(inputs.letters, default_order(inputs.letters), &inputs.under_facts(), effort)
}

fn boole_on(counted: Letters, order: Order, asked: &[Asked], effort: Effort) -> Compared {
    let (bytes, words) = (plain::boole::<Bytes>, plain::boole::<u64>);
    solve(counted, order, asked, effort, layodegi::boole, bytes, words)
}

fn particular(inputs: &Inputs, effort: Effort) -> Compared {
    solve(
        inputs.letters,
        default_order(inputs.letters),
        &inputs.without_facts(),
        effort,
        layodegi::particular,
        plain::particular::<Bytes>,
        plain::particular::<u64>,
    )
}

fn lowenheim(inputs: &Inputs, effort: Effort) -> Compared {
    solve(
        inputs.letters,
        default_order(inputs.letters),
        &inputs.without_facts(),
        effort,
        layodegi::lowenheim,
        plain::lowenheim::<Bytes>,
        plain::lowenheim::<u64>,
    )
}

/// A fact and a condition.
type Asked = (Vec<u8>, Vec<u8>);

/// A call that solves conditions under facts, in an order.
fn solve(
    counted: Letters,
    order: Order,
    asked: &[Asked],
    effort: Effort,
    engine: impl Fn(layodegi::Letters, layodegi::Order, &[u8], &[u8], &mut [u8]) -> Engine,
    bytes: impl Fn(u64, u64, Order, &[u8], &[u8], &mut [u8]) -> Plain,
    words: impl Fn(u64, u64, Order, &[u8], &[u8], &mut [u8]) -> Plain,
) -> Compared {
    let (letters, (u, g)) = (engine_letters(counted), counts(counted));
    let for_engine = engine_order(order);
    measure(
        effort,
        asked,
        counted.answer_length(),
        |(fact, condition), out| engine(letters, for_engine, fact, condition, out),
        |(fact, condition), out| bytes(u, g, order, fact, condition, out),
        |(fact, condition), out| words(u, g, order, fact, condition, out),
        both_solved,
    )
}

fn lowenheim_handed(inputs: &Inputs, effort: Effort) -> Compared {
    handed(inputs.letters, &inputs.solving(), effort, same_answer)
}

/// By question 21.
fn lowenheim_handed_refused(inputs: &Inputs, effort: Effort) -> Compared {
    handed(inputs.letters, &inputs.nearly_solving(), effort, |engine, plain| {
        engine == Err(Question::Handed.into()) && plain == Err(Refusal(21))
    })
}

/// The handed form, on conditions and handed polynomials.
fn handed(
    counted: Letters,
    pairs: &[(Vec<u8>, Vec<u8>)],
    effort: Effort,
    same: impl Fn(Result<usize, layodegi::Refusal>, Result<usize, Refusal>) -> bool,
) -> Compared {
    let (letters, (u, g)) = (engine_letters(counted), counts(counted));
    measure(
        effort,
        pairs,
        counted.answer_length(),
        |(f, handed), out| layodegi::lowenheim_handed(letters, NO_FACT, f, handed, out),
        |(f, handed), out| plain::lowenheim_handed::<Bytes>(u, g, NO_FACT, f, handed, out),
        |(f, handed), out| plain::lowenheim_handed::<u64>(u, g, NO_FACT, f, handed, out),
        same,
    )
}

/// Both plain forms count bytes alike. A part is compared by its place: it is a lent table itself.
fn shorter(inputs: &Inputs, effort: Effort) -> Compared {
    let (letters, (u, g)) = (engine_letters(inputs.letters), counts(inputs.letters));
    let place = |part: &[u8]| (part.as_ptr(), part.len());
    let plain = |(boole, lowenheim): &(Vec<u8>, Vec<u8>), _: &mut [u8]| {
        plain::shorter(u, g, boole, lowenheim).map(place)
    };
    measure(
        effort,
        &inputs.answers(),
        0,
        |(boole, lowenheim), _| layodegi::shorter(letters, boole, lowenheim).map(place),
        plain,
        plain,
        same_answer,
    )
}

fn write_entry(inputs: &Inputs, effort: Effort) -> Compared {
    write_on(inputs.letters, default_order(inputs.letters), &inputs.without_facts(), effort)
}

fn write_entry_reversed(inputs: &Inputs, effort: Effort) -> Compared {
    write_on(inputs.letters, reverse_order(inputs.letters), &inputs.without_facts(), effort)
}

fn write_entry_under_fact(inputs: &Inputs, effort: Effort) -> Compared {
    write_on(inputs.letters, default_order(inputs.letters), &inputs.under_facts(), effort)
}

fn write_on(counted: Letters, order: Order, asked: &[Asked], effort: Effort) -> Compared {
    let (letters, (u, g)) = (engine_letters(counted), counts(counted));
    let for_engine = engine_order(order);
    measure(
        effort,
        asked,
        LONGEST_ENTRY,
        |(fact, f), out| layodegi::write_entry(7, letters, for_engine, fact, f, out),
        |(fact, f), out| plain::write_entry::<Bytes>(7, u, g, order, fact, f, out),
        |(fact, f), out| plain::write_entry::<u64>(7, u, g, order, fact, f, out),
        same_answer,
    )
}

fn read_entry(inputs: &Inputs, effort: Effort) -> Compared {
    let length = inputs.letters.table_length();
    measure(
        effort,
        &inputs.entries,
        2 * length + inputs.letters.answer_length(),
        |entry, out| {
            let [fact, condition, answers] = three_buffers(out, length);
            layodegi::read_entry(entry, fact, condition, answers)
        },
        |entry, out| plain_read::<Bytes>(entry, three_buffers(out, length)),
        |entry, out| plain_read::<u64>(entry, three_buffers(out, length)),
        |engine, plain| match (engine, plain) {
            (Ok(engine), Ok((plain, order))) => {
                engine.order == engine_order(order) && same_entry(Ok(engine.entry), Ok(plain))
            }
            _ => false,
        },
    )
}

/// For the fact and the condition, of a length, and for the answers.
fn three_buffers(out: &mut [u8], length: usize) -> [&mut [u8]; 3] {
    let (fact, rest) = out.split_at_mut(length);
    let (condition, answers) = rest.split_at_mut(length);
    [fact, condition, answers]
}

fn plain_read<B: Block>(
    entry: &[u8],
    [fact, condition, answers]: [&mut [u8]; 3],
) -> Result<(Reading, Order), Refusal> {
    let mut order = Order([0; 6]);
    let reading = plain::read_entry::<B>(entry, &mut order, fact, condition, answers)?;
    Ok((reading, order))
}

fn audit(inputs: &Inputs, effort: Effort) -> Compared {
    audit_on(&inputs.entries, effort)
}

fn audit_under_fact(inputs: &Inputs, effort: Effort) -> Compared {
    audit_on(&inputs.entries_under_facts(), effort)
}

fn audit_on(entries: &[Vec<u8>], effort: Effort) -> Compared {
    measure(
        effort,
        entries,
        0,
        |entry, _| layodegi::audit(entry),
        |entry, _| plain::audit::<Bytes>(entry),
        |entry, _| plain::audit::<u64>(entry),
        same_entry,
    )
}

fn walk(inputs: &Inputs, effort: Effort) -> Compared {
    measure(
        effort,
        &inputs.volumes,
        0,
        |volume, _| layodegi::walk(volume, 0),
        |volume, _| plain::walk::<Bytes>(volume, 0),
        |volume, _| plain::walk::<u64>(volume, 0),
        |engine, plain| engine.is_ok_and(|count| plain == Count::Whole(count)),
    )
}

/// A new session, a condition added, marked and returned to, and another one added.
fn session(inputs: &Inputs, effort: Effort) -> Compared {
    let (letters, (u, g)) = (engine_letters(inputs.letters), counts(inputs.letters));
    let engine = |(a, b): &(Vec<u8>, Vec<u8>), out: &mut [u8]| {
        let session = layodegi::Session::start(letters).into_result()?;
        let session = session.add(a).into_result()?;
        let session = session.mark(layodegi::Name::A).into_result()?;
        let session = session.return_to(layodegi::Name::A).into_result()?;
        let session = session.add(b).into_result()?;
        out.copy_from_slice(session.table());
        Ok::<(), layodegi::Refusal>(())
    };
    measure(
        effort,
        &inputs.pairs,
        inputs.letters.table_length(),
        engine,
        |(a, b), out| plain_session::<Bytes>(u, g, a, b, out),
        |(a, b), out| plain_session::<u64>(u, g, a, b, out),
        both_done,
    )
}

fn plain_session<B: Block>(
    u: u64,
    g: u64,
    a: &[u8],
    b: &[u8],
    out: &mut [u8],
) -> Result<(), Refusal> {
    let Step { mut session, answer } = Session::start(u, g);
    answer?;
    plain::add_condition::<B>(&mut session, a)?;
    plain::mark(&mut session, NAME)?;
    plain::return_to(&mut session, NAME)?;
    plain::add_condition::<B>(&mut session, b)?;
    out.copy_from_slice(&session.table[..out.len()]);
    Ok(())
}
