/*
 * The proved library of the thirty-year route volume, for C and C++.
 *
 * A route condition is a Boolean expression over givens (a to h) and unknowns (u to z). The library reads it as
 * text, brings it to polynomial normal form, solves 'condition = 0', and writes, reads and audits archive entries.
 * Build the archive with `scripts/build layodegi`, in the repository's root, and link target/staticlib/liblayodegi.a.
 *
 * U counts the unknowns, G the givens, and n = U + G.
 * A state is a number below 2^G: bit i is the value of given i.
 * A choice is a number below 2^U: bit j is the value of unknown j.
 * A table is a polynomial as 2^n bytes: byte m is 1 if the monomial with the mask m is present, else 0. Bit j of a
 * mask is unknown j, bit U + i is given i; mask 0 is the monomial 1.
 * An answer table is U tables one after another, unknown 0 first: U * 2^n bytes.
 * An order is six bytes: the unknown numbers, first eliminated first, then 255 in unused places. An unknown is
 * expressed by those that go after it. General solutions in any two orders are instances of each other.
 * A fact is a table over the givens alone: only states where it is 0 count, and a condition f under a fact g is solved
 * as f*(1 + g). Points that are never both normal and reverse are the fact a*b. Where every state counts the fact is 0,
 * a table of zeros: LAYODEGI_NO_FACT serves for any letters. A fact of no bytes is not special: question 4 refuses it.
 * A session is a block of LAYODEGI_SESSION bytes that the caller keeps: the letters, the table of the conditions that
 * a designer has added so far, and up to four states that were marked to be returned to, under the names A to D.
 *
 * What each function shares:
 * - A buffer passes as a pointer, then its length in bytes. It may be longer than it has to be; the bytes behind
 *   are neither read nor changed. An order passes as a pointer alone, to its six bytes, and so does a session.
 * - It allocates nothing and keeps nothing, so that threads may call at once. Measured, it uses at most 42 KiB of
 *   stack (reading a text of 200 opening brackets; every other call 23 KiB).
 * - It asks its questions in the order named with it. The first no is its answer, and then no byte is changed
 *   (layodegi_session_start alone writes its block even then). So every number and every byte may be passed: the
 *   function tests them itself.
 * - It returns a code of 64 bits: in the low byte the number of the first no, 0 if there is none; above it what
 *   the comment names, else 0. The inline functions below take a code apart; a code that is not 0 need not be a no.
 * - The caller owes this much: each pointer is not null, even where the length is 0, and points to that many bytes
 *   (an order to six, a session to LAYODEGI_SESSION); a buffer that is written overlaps no other buffer of the call;
 *   and nothing else changes them meanwhile.
 */
#ifndef LAYODEGI_H
#define LAYODEGI_H

#include <stddef.h>
#include <stdint.h>

#ifdef __cplusplus
extern "C" {
#endif

/* Bounds of the paper, to declare buffers with. */
#define LAYODEGI_MOST_UNKNOWNS 6
#define LAYODEGI_MOST_GIVENS 8
#define LAYODEGI_MOST_LETTERS 10
#define LAYODEGI_LAST_ROUTE 250
#define LAYODEGI_LONGEST_TEXT 200
#define LAYODEGI_LONGEST_TABLE 1024
#define LAYODEGI_LONGEST_ANSWERS 6144
#define LAYODEGI_LONGEST_ENTRY 27709
#define LAYODEGI_ORDER_LENGTH 6
#define LAYODEGI_UNUSED 255 /* in the places of an order that no unknown needs */

/* The fact 0: as long as any table, and bytes behind a table are not read. */
static const uint8_t LAYODEGI_NO_FACT[LAYODEGI_LONGEST_TABLE] = {0};

/* The bytes of a session, and where in it stand: U; G; the present table; for each name, 'A' to 'D', whether it is
   marked (1 if it is, any other byte if not) and its table. Of a table the first 2^n bytes count. */
#define LAYODEGI_SESSION 5126
#define LAYODEGI_SESSION_UNKNOWNS 0
#define LAYODEGI_SESSION_GIVENS 1
#define LAYODEGI_SESSION_TABLE 2
#define LAYODEGI_SESSION_MARK(name) (1026 + 1025 * ((size_t)(name) - 'A'))
#define LAYODEGI_SESSION_STORED(name) (1027 + 1025 * ((size_t)(name) - 'A'))

/* The questions, and the number if the answer is no. */
enum layodegi_question {
    LAYODEGI_YES = 0,          /* no question is answered no */
    LAYODEGI_LETTERS = 1,      /* Are U at most 6, G at most 8, n at most 10? */
    LAYODEGI_ROUTE = 2,        /* Is the route 1 to 250? */
    LAYODEGI_TEXT_LENGTH = 3,  /* Has the text 1 to 200 bytes? */
    LAYODEGI_ROOM = 4,         /* Has each condition buffer 2^n bytes or more, and each answer or handed buffer U
                                  times 2^n or more? */
    LAYODEGI_SIGNS = 5,        /* Is every byte a sign of the notation or a space? */
    LAYODEGI_DECLARED = 6,     /* Is every letter declared? */
    LAYODEGI_GRAMMAR = 7,      /* Does the grammar read the whole text? */
    LAYODEGI_BITS = 8,         /* Is each byte of a table lent to be read, as far as question 4's length, 0 or 1? */
    LAYODEGI_SOLUTION = 9,     /* Has the condition a solution? (a no also gives the state) */
    LAYODEGI_RECORDS = 10,     /* Does every record, to the first kind 4, have kind 1 to 7 and a whole body, and is
                                  there a kind 4? */
    LAYODEGI_KINDS = 11,       /* Are the kinds in the entry's order, both routes equal? */
    LAYODEGI_NUMBERS = 12,     /* Are masks below 2^n, unknowns below U, the state below 2^G, all in order, none
                                  twice, and is no kind 6 there for the order 0, 1, 2 and so on? */
    LAYODEGI_AFRESH = 13,      /* Do the answers, or the state, equal those solved afresh? */
    LAYODEGI_OUTPUT = 14,      /* Is the output at least as long as what is to be written? */
    LAYODEGI_RISING = 15,      /* Is the route above the one before? */
    LAYODEGI_RANGE = 16,       /* Is the state below 2^G and the choice below 2^U? */
    LAYODEGI_ORDER = 17,       /* Does the order hold each unknown once and then only 255? */
    LAYODEGI_NAME = 18,        /* Is the name a byte `A` to `D`? */
    LAYODEGI_MARKED = 19,      /* When returning, is the name marked? */
    LAYODEGI_MASK = 20,        /* Has S only declared letters? */
    LAYODEGI_HANDED = 21,      /* Does the handed substitution make the condition zero? */
    LAYODEGI_FACT_GIVENS = 22, /* Has g no unknown? */
    LAYODEGI_FACT_STATE = 23   /* Is g 0 in some state? */
};

/*
 * Reads a text into the table of its polynomial. Questions 1, 3, 4, 5, 6, 7.
 * condition, written: 2^n bytes.
 */
uint64_t layodegi_read_text(size_t u, size_t g, const uint8_t *text, size_t text_length,
                            uint8_t *condition, size_t condition_length);

/*
 * The value of a table at a state and a choice. Questions 1, 4, 8, 16.
 * table: 2^n bytes. The code holds the value, 0 or 1 (layodegi_code_number).
 */
uint64_t layodegi_value(size_t u, size_t g, const uint8_t *table, size_t table_length,
                        size_t state, size_t choice);

/*
 * The sum of two tables. Questions 1, 4, 8.
 * a and b: 2^n bytes each; out, written: 2^n bytes. The code holds the number of monomials present in the sum
 * (layodegi_code_number).
 */
uint64_t layodegi_sum(size_t u, size_t g, const uint8_t *a, size_t a_length,
                      const uint8_t *b, size_t b_length, uint8_t *out, size_t out_length);

/*
 * The product of two tables. Questions 1, 4, 8.
 * a and b: 2^n bytes each; out, written: 2^n bytes. The code holds the number of monomials present in the product
 * (layodegi_code_number).
 *
 *     uint8_t u_plus_v[4] = {0, 1, 1, 0}, u[4] = {0, 1, 0, 0}, out[4];
 *     uint64_t code = layodegi_product(2, 0, u_plus_v, 4, u, 4, out, 4);  // (u + v)*u = u + u*v
 *     layodegi_code_question(code);                                       // LAYODEGI_YES
 *     layodegi_code_number(code);                                         // 2 monomials
 */
uint64_t layodegi_product(size_t u, size_t g, const uint8_t *a, size_t a_length,
                          const uint8_t *b, size_t b_length, uint8_t *out, size_t out_length);

/*
 * A condition with the handed polynomials put for its unknowns, all at once. Questions 1, 4, 8.
 * condition: 2^n bytes; handed: U * 2^n bytes; out, written: 2^n bytes. The code holds the number of monomials present
 * in what comes out (layodegi_code_number).
 */
uint64_t layodegi_substitute(size_t u, size_t g, const uint8_t *condition, size_t condition_length,
                             const uint8_t *handed, size_t handed_length, uint8_t *out, size_t out_length);

/*
 * The vectorial derivative of a table by a set S of letters: f plus f with every letter of S inverted, all at once.
 * Questions 1, 4, 8, 20. S is a number, so that one of any size may be passed.
 * table: 2^n bytes; s: the letters, bits as in the mask of a monomial; out, written: 2^n bytes.
 *
 * It is the empty table exactly when flipping these letters together changes the value nowhere; else it has the value
 * 1 where the flip changes it. So a maintainer sees which contacts cannot change a circuit:
 *
 *     uint8_t circuit[8], changes[8];
 *     layodegi_read_text(1, 2, (const uint8_t *)"u*(a+b)", 7, circuit, 8);
 *     layodegi_derivative(1, 2, circuit, 8, 2, changes, 8);      // a alone: u, where u is 1
 *     layodegi_derivative(1, 2, circuit, 8, 2 | 4, changes, 8);  // a and b together: empty, nowhere
 */
uint64_t layodegi_derivative(size_t u, size_t g, const uint8_t *table, size_t table_length, size_t s,
                             uint8_t *out, size_t out_length);

/*
 * Boole's answers: the general solution in the states where a fact is 0, each unknown itself being the parameter, the
 * unknowns eliminated in an order. Questions 1, 17, 4, 8, 22, 23, 9.
 * order: six bytes; fact and condition: 2^n bytes each; answers, written: U * 2^n bytes. The code holds the number of
 * monomials present in the answers, all unknowns together; with a no to 9 the smallest of the states with g = 0 in
 * which every choice gives the condition the value 1, the same in any order (layodegi_code_number).
 *
 *     uint8_t order[6], condition[8], fact[8], answers[8];
 *     layodegi_default_order(1, order);
 *     layodegi_read_text(1, 2, (const uint8_t *)"a*u+b*u+b", 9, condition, 8);
 *     layodegi_boole(1, 2, order, LAYODEGI_NO_FACT, 8, condition, 8, answers, 8);  // a no to 9, state 3
 *     layodegi_read_text(1, 2, (const uint8_t *)"a*b", 3, fact, 8);                // a and b exclude each other
 *     layodegi_boole(1, 2, order, fact, 8, condition, 8, answers, 8);              // u = b + u + a*b + a*u + b*u: 5
 */
uint64_t layodegi_boole(size_t u, size_t g, const uint8_t order[6],
                        const uint8_t *fact, size_t fact_length,
                        const uint8_t *condition, size_t condition_length,
                        uint8_t *answers, size_t answers_length);

/*
 * The particular solution: Boole's answers with 0 put for all parameters. Questions 1, 17, 4, 8, 22, 23, 9.
 * Order, buffers and code as for layodegi_boole.
 */
uint64_t layodegi_particular(size_t u, size_t g, const uint8_t order[6],
                             const uint8_t *fact, size_t fact_length,
                             const uint8_t *condition, size_t condition_length,
                             uint8_t *answers, size_t answers_length);

/*
 * Loewenheim's answers, from the particular solution. Questions 1, 17, 4, 8, 22, 23, 9.
 * Order, buffers and code as for layodegi_boole.
 */
uint64_t layodegi_lowenheim(size_t u, size_t g, const uint8_t order[6],
                            const uint8_t *fact, size_t fact_length,
                            const uint8_t *condition, size_t condition_length,
                            uint8_t *answers, size_t answers_length);

/*
 * Loewenheim's formula on handed polynomials that make the condition zero wherever the fact is 0; it needs no order.
 * Questions 1, 4, 8, 22, 23, 21.
 * fact and condition: 2^n bytes each; handed: U * 2^n bytes; answers, written: U * 2^n bytes. The code holds the number
 * of monomials present in the answers, all unknowns together (layodegi_code_number).
 *
 * Question 21 puts the handed polynomials for the unknowns of f*(1 + g), all at once, as layodegi_substitute does: what
 * comes out must be the empty table. They may mention givens, and unknowns too. Where U is 0 nothing is handed, and
 * f*(1 + g) itself must be empty. An accepted one gives a general solution, each unknown itself being the parameter:
 * every solution is an instance of it, and it and Boole's answers are instances of each other.
 *
 *     uint8_t condition[4] = {0, 1, 1, 0}, answers[4];  // u + a
 *     uint8_t a[4] = {0, 0, 1, 0}, zero[4] = {0};
 *     layodegi_lowenheim_handed(1, 1, zero, 4, condition, 4, a, 4, answers, 4);     // u = a: 1 monomial
 *     layodegi_lowenheim_handed(1, 1, zero, 4, condition, 4, zero, 4, answers, 4);  // LAYODEGI_HANDED: where a is 1
 *     layodegi_lowenheim_handed(1, 1, a, 4, condition, 4, zero, 4, answers, 4);     // u = u*a, under the fact a: 1
 */
uint64_t layodegi_lowenheim_handed(size_t u, size_t g,
                                   const uint8_t *fact, size_t fact_length,
                                   const uint8_t *condition, size_t condition_length,
                                   const uint8_t *handed, size_t handed_length,
                                   uint8_t *answers, size_t answers_length);

/*
 * The shorter of Boole's and Loewenheim's answer tables: the one with fewer monomials present, all unknowns together;
 * Boole's if the totals tie. Questions 1, 4, 8.
 * boole and lowenheim: U * 2^n bytes each.
 *
 * layodegi_which_shorter says which it is: the code holds 0 for Boole's, 1 for Loewenheim's (layodegi_code_number).
 * layodegi_shorter, an inline function below, hands back the lent table itself: the pointer that it was passed for it,
 * and the length U * 2^n. Where a question is answered no the length is 0, and the pointer that of Boole's table.
 * layodegi_shorter_refusal, on the same buffers, gives the number of the first no, or 0; so it tells a refusal from the
 * answer tables of U = 0, which have no bytes.
 *
 *     uint8_t order[6], condition[4], boole[8], lowenheim[8];
 *     layodegi_default_order(2, order);
 *     layodegi_read_text(2, 0, (const uint8_t *)"v*!u", 4, condition, 4);
 *     layodegi_boole(2, 0, order, LAYODEGI_NO_FACT, 4, condition, 4, boole, 8);          // u = u + v + u*v, v = v: 4
 *     layodegi_lowenheim(2, 0, order, LAYODEGI_NO_FACT, 4, condition, 4, lowenheim, 8);  // u = u, v = u*v: 2
 *     size_t length;
 *     const uint8_t *shorter = layodegi_shorter(2, 0, boole, 8, lowenheim, 8, &length);  // lowenheim, 8 bytes
 *     shorter = layodegi_shorter(2, 0, boole, 8, lowenheim, 7, &length);                 // no bytes
 *     layodegi_shorter_refusal(2, 0, boole, 8, lowenheim, 7);                            // LAYODEGI_ROOM
 */
uint64_t layodegi_which_shorter(size_t u, size_t g, const uint8_t *boole, size_t boole_length,
                                const uint8_t *lowenheim, size_t lowenheim_length);

uint64_t layodegi_shorter_refusal(size_t u, size_t g, const uint8_t *boole, size_t boole_length,
                                  const uint8_t *lowenheim, size_t lowenheim_length);

/*
 * Writes the entry of a condition under a fact, with Boole's answers in an order or 'none'. Questions 1, 2, 17, 4, 8,
 * 22, 23, 14.
 * order: six bytes; fact and condition: 2^n bytes each; out, written: as long as the entry, LAYODEGI_LONGEST_ENTRY is
 * always enough. The code holds the entry's length (layodegi_code_number). A fact that is not 0 stands in records of
 * kind 7, a monomial each, behind the order and before the condition, which is archived as it is lent.
 */
uint64_t layodegi_write_entry(size_t route, size_t u, size_t g, const uint8_t order[6],
                              const uint8_t *fact, size_t fact_length,
                              const uint8_t *condition, size_t condition_length,
                              uint8_t *out, size_t out_length);

/*
 * Reads the entry at the start of the bytes; later bytes play no part. Questions 10, 11, 1, 2, 12, 17, 22, 23, 4.
 * order, written: six bytes, 0, 1, 2 and so on where the entry holds no order; fact, written: 2^n bytes, zeros where
 * the entry holds no fact; condition, written: 2^n bytes; answers, written if the entry is solved: U * 2^n bytes. The
 * code holds what the entry says (layodegi_entry_ functions).
 */
uint64_t layodegi_read_entry(const uint8_t *bytes, size_t bytes_length, uint8_t order[6],
                             uint8_t *fact, size_t fact_length,
                             uint8_t *condition, size_t condition_length,
                             uint8_t *answers, size_t answers_length);

/*
 * Reads the entry at the start of the bytes, solves its condition afresh under its fact and in its order, and compares.
 * Questions 10, 11, 1, 2, 12, 17, 22, 23, 13. The code holds what the entry says (layodegi_entry_ functions).
 */
uint64_t layodegi_audit(const uint8_t *bytes, size_t bytes_length);

/*
 * Audits the entries of a volume from a place to its end; a place at or past the end gives 0 entries. Questions 10,
 * 11, 1, 2, 12, 17, 22, 23, 13, 15, per entry. The code holds the count of entries, after a no the count that passed
 * before it (layodegi_code_number).
 */
uint64_t layodegi_walk(const uint8_t *volume, size_t volume_length, size_t place);

/*
 * Named design states. A designer's tool starts a session, reads each condition with layodegi_read_text and adds it,
 * marks a state as 'A', tries more conditions and returns. The present table, at session + LAYODEGI_SESSION_TABLE, has
 * the value 0 where all conditions of the present list have it, so that solving it solves all of them at once:
 *
 *     uint8_t session[LAYODEGI_SESSION], condition[4], order[6], answers[4];
 *     layodegi_session_start(1, 1, session);
 *     layodegi_read_text(1, 1, (const uint8_t *)"u+a", 3, condition, 4);
 *     layodegi_session_add(session, condition, 4);
 *     layodegi_session_mark(session, 'A');
 *     layodegi_read_text(1, 1, (const uint8_t *)"u", 1, condition, 4);
 *     layodegi_session_add(session, condition, 4);
 *     layodegi_default_order(1, order);
 *     const uint8_t *table = session + LAYODEGI_SESSION_TABLE;
 *     layodegi_boole(1, 1, order, LAYODEGI_NO_FACT, 4, table, 4, answers, 4);  // a no to 9, state 1
 *     layodegi_session_return(session, 'A');
 *     layodegi_boole(1, 1, order, LAYODEGI_NO_FACT, 4, table, 4, answers, 4);  // u = a
 *
 * layodegi_write_entry takes the present table in the same way. The block is all there is to a session: it may be
 * copied, and kept in a file. Each step asks again whether what it is handed is a session: 1 of its U and G, 8 of the
 * present table and of those of marked names. After a step that is done, the bytes that mark names are 0 or 1; a
 * refused step changes no byte. Each code holds nothing but the number of the first no.
 */

/*
 * Starts a session with the empty table and no name marked. Question 1.
 * session, written whatever the answer: LAYODEGI_SESSION bytes; those of U = 0 and G = 0 after a no.
 */
uint64_t layodegi_session_start(size_t u, size_t g, uint8_t session[LAYODEGI_SESSION]);

/*
 * Adds a condition h: the present table f becomes f + h + f*h. Questions 1 and 8 of the session, 4 and 8 of h.
 * session, read and written: LAYODEGI_SESSION bytes; h: 2^n bytes.
 */
uint64_t layodegi_session_add(uint8_t session[LAYODEGI_SESSION], const uint8_t *h, size_t h_length);

/*
 * Stores the present list of added conditions, as its table, under a name, over any earlier one. Questions 1 and 8 of
 * the session, 18. The name is a number, so that one above 255 is a no as well.
 * session, read and written: LAYODEGI_SESSION bytes.
 */
uint64_t layodegi_session_mark(uint8_t session[LAYODEGI_SESSION], size_t name);

/*
 * Makes the list that is stored under a name the present one; all marks stay. Questions 1 and 8 of the session, 18, 19.
 * session, read and written: LAYODEGI_SESSION bytes.
 */
uint64_t layodegi_session_return(uint8_t session[LAYODEGI_SESSION], size_t name);

/* The bytes of a table, 2^n, and of an answer table, U * 2^n; 0 where question 1 is answered no. */
static inline size_t layodegi_table_length(size_t u, size_t g)
{
    int permitted = u <= LAYODEGI_MOST_UNKNOWNS && g <= LAYODEGI_MOST_GIVENS && u + g <= LAYODEGI_MOST_LETTERS;
    return permitted ? (size_t)1 << (u + g) : 0;
}

static inline size_t layodegi_answers_length(size_t u, size_t g)
{
    return u * layodegi_table_length(u, g);
}

/* Puts the order 0, 1, 2 and so on of u unknowns, of six if there are more. */
static inline void layodegi_default_order(size_t u, uint8_t order[6])
{
    for (size_t place = 0; place < LAYODEGI_ORDER_LENGTH; place++)
        order[place] = place < u ? (uint8_t)place : LAYODEGI_UNUSED;
}

/* Of any code: the number of the first no, LAYODEGI_YES if there is none. */
static inline unsigned layodegi_code_question(uint64_t code)
{
    return (unsigned)(code & 0xff);
}

/* Of the code of layodegi_value, _sum, _product, _substitute, _boole, _particular, _lowenheim, _lowenheim_handed,
   _which_shorter, _write_entry, _walk: what it holds. */
static inline uint32_t layodegi_code_number(uint64_t code)
{
    return (uint32_t)(code >> 8 & 0xffffffff);
}

/* The shorter of two lent answer tables, as it is lent, and its length: see layodegi_which_shorter. */
static inline const uint8_t *layodegi_shorter(size_t u, size_t g, const uint8_t *boole, size_t boole_length,
                                              const uint8_t *lowenheim, size_t lowenheim_length, size_t *length)
{
    uint64_t code = layodegi_which_shorter(u, g, boole, boole_length, lowenheim, lowenheim_length);
    int is_refused = layodegi_code_question(code) != LAYODEGI_YES;
    *length = is_refused ? 0 : layodegi_answers_length(u, g);
    return is_refused || layodegi_code_number(code) == 0 ? boole : lowenheim;
}

/* Of the code of layodegi_read_entry or layodegi_audit, where there is no no: what the entry says. */
static inline unsigned layodegi_entry_route(uint64_t code)
{
    return (unsigned)(code >> 8 & 0xff);
}

static inline size_t layodegi_entry_unknowns(uint64_t code)
{
    return (size_t)(code >> 16 & 0xff);
}

static inline size_t layodegi_entry_givens(uint64_t code)
{
    return (size_t)(code >> 24 & 0xff);
}

/* The bytes up to the end of the entry. */
static inline size_t layodegi_entry_length(uint64_t code)
{
    return (size_t)(code >> 32 & 0xffff);
}

/* 1 if the entry says 'none', 0 if it is solved. */
static inline int layodegi_entry_is_none(uint64_t code)
{
    return code >> 48 != 0;
}

/* The state of a 'none' entry. */
static inline unsigned layodegi_entry_state(uint64_t code)
{
    return layodegi_entry_is_none(code) ? (unsigned)((code >> 48) - 1) : 0;
}

/* The paper's words for a question. */
static inline const char *layodegi_question_words(unsigned question)
{
    switch (question) {
    case LAYODEGI_LETTERS:
        return "Are U at most 6, G at most 8, n at most 10?";
    case LAYODEGI_ROUTE:
        return "Is the route 1 to 250?";
    case LAYODEGI_TEXT_LENGTH:
        return "Has the text 1 to 200 bytes?";
    case LAYODEGI_ROOM:
        return "Has each condition buffer 2^n bytes or more, "
               "and each answer or handed buffer U times 2^n or more?";
    case LAYODEGI_SIGNS:
        return "Is every byte a sign of the notation or a space?";
    case LAYODEGI_DECLARED:
        return "Is every letter declared?";
    case LAYODEGI_GRAMMAR:
        return "Does the grammar read the whole text?";
    case LAYODEGI_BITS:
        return "Is each byte of a table lent to be read, as far as question 4's length, 0 or 1?";
    case LAYODEGI_SOLUTION:
        return "Has the condition a solution?";
    case LAYODEGI_RECORDS:
        return "Does every record, to the first kind 4, have kind 1 to 7 and a whole body, "
               "and is there a kind 4?";
    case LAYODEGI_KINDS:
        return "Are the kinds in the entry's order, both routes equal?";
    case LAYODEGI_NUMBERS:
        return "Are masks below 2^n, unknowns below U, the state below 2^G, all in order, none twice, "
               "and is no kind 6 there for the order 0, 1, 2 and so on?";
    case LAYODEGI_AFRESH:
        return "Do the answers, or the state, equal those solved afresh?";
    case LAYODEGI_OUTPUT:
        return "Is the output at least as long as what is to be written?";
    case LAYODEGI_RISING:
        return "Is the route above the one before?";
    case LAYODEGI_RANGE:
        return "Is the state below 2^G and the choice below 2^U?";
    case LAYODEGI_ORDER:
        return "Does the order hold each unknown once and then only 255?";
    case LAYODEGI_NAME:
        return "Is the name a byte `A` to `D`?";
    case LAYODEGI_MARKED:
        return "When returning, is the name marked?";
    case LAYODEGI_MASK:
        return "Has S only declared letters?";
    case LAYODEGI_HANDED:
        return "Does the handed substitution make the condition zero?";
    case LAYODEGI_FACT_GIVENS:
        return "Has g no unknown?";
    case LAYODEGI_FACT_STATE:
        return "Is g 0 in some state?";
    default:
        return "no question of the paper";
    }
}

#ifdef __cplusplus
}
#endif

#endif
