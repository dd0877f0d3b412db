//! The functions of the archive as they stand. A slice passes as a pointer and
//! then a length. The code that each returns is taken apart by the safe calls.
//!
//! A caller lends each pointer for its length: to be read where it is `*const`,
//! to be read and written where it is `*mut`, then overlapping no other. None is
//! null, even where the length is 0. An order has no length: it is six bytes. Nor
//! has a session: it is 5,126 bytes.

extern "C" {
    pub fn layodegi_read_text(
        u: usize,
        g: usize,
        text: *const u8,
        text_length: usize,
        condition: *mut u8,
        condition_length: usize,
    ) -> u64;

    pub fn layodegi_value(
        u: usize,
        g: usize,
        table: *const u8,
        table_length: usize,
        state: usize,
        choice: usize,
    ) -> u64;

    pub fn layodegi_sum(
        u: usize,
        g: usize,
        a: *const u8,
        a_length: usize,
        b: *const u8,
        b_length: usize,
        out: *mut u8,
        out_length: usize,
    ) -> u64;

    pub fn layodegi_product(
        u: usize,
        g: usize,
        a: *const u8,
        a_length: usize,
        b: *const u8,
        b_length: usize,
        out: *mut u8,
        out_length: usize,
    ) -> u64;

    pub fn layodegi_substitute(
        u: usize,
        g: usize,
        condition: *const u8,
        condition_length: usize,
        handed: *const u8,
        handed_length: usize,
        out: *mut u8,
        out_length: usize,
    ) -> u64;

    pub fn layodegi_derivative(
        u: usize,
        g: usize,
        table: *const u8,
        table_length: usize,
        s: usize,
        out: *mut u8,
        out_length: usize,
    ) -> u64;

    pub fn layodegi_boole(
        u: usize,
        g: usize,
        order: *const u8,
        fact: *const u8,
        fact_length: usize,
        condition: *const u8,
        condition_length: usize,
        answers: *mut u8,
        answers_length: usize,
    ) -> u64;

    pub fn layodegi_particular(
        u: usize,
        g: usize,
        order: *const u8,
        fact: *const u8,
        fact_length: usize,
        condition: *const u8,
        condition_length: usize,
        answers: *mut u8,
        answers_length: usize,
    ) -> u64;

    pub fn layodegi_lowenheim(
        u: usize,
        g: usize,
        order: *const u8,
        fact: *const u8,
        fact_length: usize,
        condition: *const u8,
        condition_length: usize,
        answers: *mut u8,
        answers_length: usize,
    ) -> u64;

    pub fn layodegi_lowenheim_handed(
        u: usize,
        g: usize,
        fact: *const u8,
        fact_length: usize,
        condition: *const u8,
        condition_length: usize,
        handed: *const u8,
        handed_length: usize,
        answers: *mut u8,
        answers_length: usize,
    ) -> u64;

    pub fn layodegi_which_shorter(
        u: usize,
        g: usize,
        boole: *const u8,
        boole_length: usize,
        lowenheim: *const u8,
        lowenheim_length: usize,
    ) -> u64;

    pub fn layodegi_shorter_refusal(
        u: usize,
        g: usize,
        boole: *const u8,
        boole_length: usize,
        lowenheim: *const u8,
        lowenheim_length: usize,
    ) -> u64;

    pub fn layodegi_write_entry(
        route: usize,
        u: usize,
        g: usize,
        order: *const u8,
        fact: *const u8,
        fact_length: usize,
        condition: *const u8,
        condition_length: usize,
        out: *mut u8,
        out_length: usize,
    ) -> u64;

    pub fn layodegi_read_entry(
        bytes: *const u8,
        bytes_length: usize,
        order: *mut u8,
        fact: *mut u8,
        fact_length: usize,
        condition: *mut u8,
        condition_length: usize,
        answers: *mut u8,
        answers_length: usize,
    ) -> u64;

    pub fn layodegi_audit(bytes: *const u8, bytes_length: usize) -> u64;

    pub fn layodegi_walk(volume: *const u8, volume_length: usize, place: usize) -> u64;

    pub fn layodegi_session_start(u: usize, g: usize, session: *mut u8) -> u64;

    pub fn layodegi_session_add(session: *mut u8, h: *const u8, h_length: usize) -> u64;

    pub fn layodegi_session_mark(session: *mut u8, name: usize) -> u64;

    pub fn layodegi_session_return(session: *mut u8, name: usize) -> u64;
}
