/*
 * Calls each function of the header on rows of the paper's bench table, one of each kind of answer, and checks the
 * code and every byte of the buffers. The differential tests in ../rust try the same functions on many cases.
 */
#include "layodegi.h"

#include <stdio.h>
#include <stdlib.h>
#include <string.h>

/* A byte that no table has, to see which bytes were written. */
#define OLD 7

static unsigned failed;

static void check(const char *what, int holds)
{
    if (!holds) {
        printf("not so: %s\n", what);
        failed++;
    }
}

#define CHECK(what) check(#what, what)

/* The code of a call that is done and holds a number of monomials. */
#define MONOMIALS(number) ((uint64_t)(number) << 8)

/* The bytes are those expected, then one byte that was not written. */
static int holds(const uint8_t *bytes, const void *expected, size_t length)
{
    return memcmp(bytes, expected, length) == 0 && bytes[length] == OLD;
}

static const uint8_t EMPTY[4] = {0, 0, 0, 0};
/* Over the letters u and v. */
static const uint8_t U_PLUS_V[4] = {0, 1, 1, 0};
static const uint8_t U_TIMES_V[4] = {0, 0, 0, 1};
static const uint8_t SAME[8] = {0, 0, 1, 0, 0, 0, 1, 0}; /* u = v, v = v */
/* Over the letters u and a. */
static const uint8_t A[4] = {0, 0, 1, 0};
static const uint8_t U_ALONE[6] = {0, 255, 255, 255, 255, 255};
static const uint8_t U_FIRST[6] = {0, 1, 255, 255, 255, 255};
static const uint8_t V_FIRST[6] = {1, 0, 255, 255, 255, 255};
static const uint8_t V_TWICE[6] = {1, 1, 255, 255, 255, 255};

static void check_tables(void)
{
    uint8_t out[9];
    memset(out, OLD, sizeof out);
    CHECK(layodegi_read_text(2, 0, (const uint8_t *)"u|v", 3, out, 4) == 0);
    CHECK(holds(out, "\0\1\1\1", 4));
    CHECK(layodegi_code_number(layodegi_value(1, 1, A, 4, 1, 0)) == 1);
    CHECK(layodegi_code_number(layodegi_value(1, 1, A, 4, 0, 1)) == 0);
    CHECK(layodegi_code_question(layodegi_value(1, 1, A, 4, 2, 0)) == LAYODEGI_RANGE);
    CHECK(layodegi_sum(2, 0, U_PLUS_V, 4, U_TIMES_V, 4, out, 4) == MONOMIALS(3));
    CHECK(holds(out, "\0\1\1\1", 4));
    CHECK(layodegi_product(2, 0, U_PLUS_V, 4, U_TIMES_V, 4, out, 4) == MONOMIALS(0));
    CHECK(holds(out, "\0\0\0\0", 4));
    CHECK(layodegi_substitute(2, 0, U_TIMES_V, 4, SAME, 8, out, 4) == MONOMIALS(1));
    CHECK(holds(out, "\0\0\1\0", 4));
    CHECK(layodegi_sum(6, 5, U_PLUS_V, 4, U_TIMES_V, 4, out, 4) == LAYODEGI_LETTERS);
    CHECK(layodegi_sum(2, 0, U_PLUS_V, 4, U_TIMES_V, 4, out, 3) == LAYODEGI_ROOM);
    CHECK(layodegi_product(2, 0, U_PLUS_V, 3, U_TIMES_V, 4, out, 4) == LAYODEGI_ROOM);
    CHECK(layodegi_substitute(2, 0, U_TIMES_V, 4, SAME, 7, out, 4) == LAYODEGI_ROOM);
    CHECK(holds(out, "\0\0\1\0", 4));
}

/* Numbers of monomials: none, more than a byte holds, and of no byte behind a table. */
static void check_counts(void)
{
    static const uint8_t LONGER[6] = {0, 1, 1, 0, 1, 1}; /* u + v, and two bytes behind it */
    static const uint8_t U[4] = {0, 1};
    static uint8_t full[LAYODEGI_LONGEST_TABLE], one[LAYODEGI_LONGEST_TABLE] = {1}, out[LAYODEGI_LONGEST_TABLE];
    static uint8_t full_each[LAYODEGI_LONGEST_ANSWERS], one_each[LAYODEGI_LONGEST_ANSWERS];
    static uint8_t answers[LAYODEGI_LONGEST_ANSWERS];
    memset(full, 1, sizeof full);
    memset(out, 1, sizeof out);
    memset(full_each, 1, sizeof full_each);
    for (size_t unknown = 0; unknown < 6; unknown++)
        one_each[unknown * 1024] = 1;
    CHECK(layodegi_sum(2, 0, LONGER, 6, LONGER, 6, out, 6) == MONOMIALS(0));
    CHECK(layodegi_sum(2, 0, LONGER, 6, EMPTY, 4, out, 6) == MONOMIALS(2));
    CHECK(layodegi_product(2, 0, LONGER, 6, U, 4, out, 6) == MONOMIALS(2)); /* the header's example */
    CHECK(layodegi_substitute(2, 0, LONGER, 6, SAME, 8, out, 6) == MONOMIALS(0));
    CHECK(layodegi_sum(0, 0, one, 1, one + 1, 1, out, 1) == MONOMIALS(1));
    CHECK(layodegi_sum(6, 4, full, 1024, one, 1024, out, 1024) == MONOMIALS(1023));
    CHECK(layodegi_product(6, 4, full, 1024, one, 1024, out, 1024) == MONOMIALS(1024));
    /* 1 where the givens are 0 and the unknowns are not */
    CHECK(layodegi_substitute(6, 4, full, 1024, full_each, 6144, out, 1024) == MONOMIALS(16 * 63));
    /* the condition 0: each unknown is itself, whatever is handed */
    const uint8_t *zero = LAYODEGI_NO_FACT;
    CHECK(layodegi_lowenheim_handed(6, 4, zero, 1024, zero, 1024, full_each, 6144, answers, 6144) == MONOMIALS(6));
    /* each unknown is itself but where all letters are 0: every monomial but that of the unknown alone */
    CHECK(layodegi_lowenheim_handed(6, 4, zero, 1024, full, 1024, one_each, 6144, answers, 6144) == MONOMIALS(6138));
}

static void check_derivatives(void)
{
    static const uint8_t CIRCUIT[8] = {0, 0, 0, 1, 0, 1, 0, 0}; /* u*(a + b) */
    static const uint8_t LONGER[5] = {0, 0, 0, 1, 9};           /* u*v, and a byte behind it */
    static const uint8_t NO_BITS[4] = {0, 0, 0, 2};
    uint8_t out[9];
    memset(out, OLD, sizeof out);
    CHECK(layodegi_derivative(0, 0, A + 2, 1, 0, out, 1) == 0); /* of 1 */
    CHECK(holds(out, "\0", 1));
    CHECK(layodegi_derivative(2, 0, U_TIMES_V, 4, 1, out, 4) == 0);
    CHECK(holds(out, "\0\0\1\0", 4)); /* v */
    CHECK(layodegi_derivative(2, 0, U_TIMES_V, 4, 3, out, 4) == 0);
    CHECK(holds(out, "\1\1\1\0", 4)); /* u*v + (1 + u)*(1 + v) */
    CHECK(layodegi_derivative(2, 0, U_TIMES_V, 4, 0, out, 4) == 0);
    CHECK(holds(out, EMPTY, 4));
    CHECK(layodegi_derivative(1, 1, A, 4, 1, out, 4) == 0);
    CHECK(holds(out, EMPTY, 4)); /* a says nothing of u */
    CHECK(layodegi_derivative(1, 1, A, 4, 2, out, 4) == 0);
    CHECK(holds(out, "\1\0\0\0", 4));
    CHECK(layodegi_derivative(2, 0, LONGER, 5, 2, out, 9) == 0);
    CHECK(holds(out, "\0\1\0\0", 4)); /* u */

    /* the first no counts: 1, 4, 8, 20 */
    CHECK(layodegi_derivative(7, 0, NO_BITS, 3, SIZE_MAX, out, 3) == LAYODEGI_LETTERS);
    CHECK(layodegi_derivative(2, 9, NO_BITS, 4, 0, out, 9) == LAYODEGI_LETTERS);
    CHECK(layodegi_derivative(2, 0, NO_BITS, 3, 4, out, 4) == LAYODEGI_ROOM);
    CHECK(layodegi_derivative(2, 0, NO_BITS, 4, 4, out, 3) == LAYODEGI_ROOM);
    CHECK(layodegi_derivative(2, 0, U_TIMES_V, 0, 1, out, 4) == LAYODEGI_ROOM);
    CHECK(layodegi_derivative(2, 0, U_TIMES_V, 4, 1, out, 0) == LAYODEGI_ROOM);
    CHECK(layodegi_derivative(2, 0, NO_BITS, 4, 4, out, 4) == LAYODEGI_BITS);
    CHECK(layodegi_derivative(2, 0, NO_BITS, 4, 1, out, 4) == LAYODEGI_BITS);
    CHECK(layodegi_derivative(2, 0, LONGER, 5, 4, out, 9) == LAYODEGI_MASK);
    CHECK(layodegi_derivative(2, 0, U_TIMES_V, 4, 5, out, 4) == LAYODEGI_MASK);
    CHECK(layodegi_derivative(1, 1, A, 4, SIZE_MAX, out, 4) == LAYODEGI_MASK);
    CHECK(layodegi_derivative(1, 1, A, 4, SIZE_MAX - 3, out, 4) == LAYODEGI_MASK);
    CHECK(holds(out, "\0\1\0\0", 4));

    /* the header's example */
    CHECK(layodegi_derivative(1, 2, CIRCUIT, 8, 2, out, 8) == 0);
    CHECK(holds(out, "\0\1\0\0\0\0\0\0", 8));
    CHECK(layodegi_derivative(1, 2, CIRCUIT, 8, 2 | 4, out, 8) == 0);
    CHECK(holds(out, "\0\0\0\0\0\0\0\0", 8));
}

static void check_solving(void)
{
    uint8_t answers[9];
    memset(answers, OLD, sizeof answers);
    CHECK(layodegi_boole(2, 0, V_FIRST, EMPTY, 4, U_PLUS_V, 4, answers, 8) == MONOMIALS(2));
    CHECK(holds(answers, "\0\1\0\0\0\1\0\0", 8)); /* u = u, v = u */
    CHECK(layodegi_boole(2, 0, U_FIRST, EMPTY, 4, U_PLUS_V, 4, answers, 8) == MONOMIALS(2));
    CHECK(holds(answers, SAME, 8));
    CHECK(layodegi_particular(2, 0, U_FIRST, EMPTY, 4, U_PLUS_V, 4, answers, 8) == MONOMIALS(0));
    CHECK(holds(answers, "\0\0\0\0\0\0\0\0", 8));
    CHECK(layodegi_lowenheim(2, 0, V_FIRST, EMPTY, 4, U_PLUS_V, 4, answers, 8) == MONOMIALS(2));
    CHECK(holds(answers, "\0\0\0\1\0\0\0\1", 8));
    CHECK(layodegi_boole(2, 0, V_TWICE, EMPTY, 4, U_PLUS_V, 4, answers, 8) == LAYODEGI_ORDER);
    CHECK(layodegi_particular(2, 0, U_ALONE, EMPTY, 4, U_PLUS_V, 3, answers, 8) == LAYODEGI_ORDER);
    CHECK(layodegi_lowenheim(1, 0, U_FIRST, EMPTY, 4, U_PLUS_V, 4, answers, 8) == LAYODEGI_ORDER);
    CHECK(layodegi_boole(7, 0, V_TWICE, EMPTY, 4, U_PLUS_V, 4, answers, 8) == LAYODEGI_LETTERS);
    CHECK(holds(answers, "\0\0\0\1\0\0\0\1", 8));
    uint64_t none = layodegi_boole(1, 1, U_ALONE, EMPTY, 4, A, 4, answers, 4);
    CHECK(layodegi_code_question(none) == LAYODEGI_SOLUTION && layodegi_code_number(none) == 1);
    CHECK(holds(answers, "\0\0\0\1\0\0\0\1", 8));
}

static void check_handed(void)
{
    static const uint8_t U_PLUS_A[5] = {0, 1, 1, 0, 9}; /* and a byte behind it */
    static const uint8_t ONES[8] = {1, 0, 0, 0, 1, 0, 0, 0};
    static const uint8_t EXCHANGED[8] = {0, 0, 1, 0, 0, 1, 0, 0}; /* u = v, v = u */
    static const uint8_t U_NOT_V[4] = {0, 1, 0, 1};               /* u*(1 + v) */
    static const uint8_t NO_BITS[4] = {0, 1, 1, 2};
    uint8_t answers[9];
    memset(answers, OLD, sizeof answers);
    CHECK(layodegi_lowenheim_handed(1, 1, EMPTY, 4, U_PLUS_A, 5, A, 4, answers, 9) == MONOMIALS(1));
    CHECK(holds(answers, A, 4));
    /* u + (u + v)*(u + v) = v, v + (u + v)*(v + v) = v */
    CHECK(layodegi_lowenheim_handed(2, 0, EMPTY, 4, U_PLUS_V, 4, SAME, 8, answers, 8) == MONOMIALS(2));
    CHECK(holds(answers, SAME, 8));
    CHECK(layodegi_lowenheim_handed(2, 0, EMPTY, 4, U_PLUS_V, 4, ONES, 8, answers, 8) == MONOMIALS(6));
    CHECK(holds(answers, "\0\1\1\1\0\1\1\1", 8)); /* u or v, for both */

    /* 1, 4, 8, 21 without a fact */
    CHECK(layodegi_lowenheim_handed(7, 0, EMPTY, 4, NO_BITS, 3, EMPTY, 4, answers, 3) == LAYODEGI_LETTERS);
    CHECK(layodegi_lowenheim_handed(1, 1, EMPTY, 4, NO_BITS, 3, EMPTY, 4, answers, 4) == LAYODEGI_ROOM);
    CHECK(layodegi_lowenheim_handed(1, 1, EMPTY, 4, NO_BITS, 4, EMPTY, 3, answers, 4) == LAYODEGI_ROOM);
    CHECK(layodegi_lowenheim_handed(1, 1, EMPTY, 4, NO_BITS, 4, EMPTY, 4, answers, 3) == LAYODEGI_ROOM);
    CHECK(layodegi_lowenheim_handed(1, 1, EMPTY, 4, NO_BITS, 4, EMPTY, 4, answers, 4) == LAYODEGI_BITS);
    CHECK(layodegi_lowenheim_handed(1, 1, EMPTY, 4, U_PLUS_A, 4, NO_BITS, 4, answers, 4) == LAYODEGI_BITS);
    /* in state 0 only */
    CHECK(layodegi_lowenheim_handed(1, 1, EMPTY, 4, U_PLUS_A, 4, EMPTY, 4, answers, 4) == LAYODEGI_HANDED);
    CHECK(layodegi_lowenheim_handed(1, 1, EMPTY, 4, U_PLUS_A, 5, EMPTY, 4, answers, 9) == LAYODEGI_HANDED);
    /* no solution at all */
    CHECK(layodegi_lowenheim_handed(1, 1, EMPTY, 4, A, 4, A, 4, answers, 4) == LAYODEGI_HANDED);
    CHECK(layodegi_lowenheim_handed(2, 0, EMPTY, 4, U_TIMES_V, 4, SAME, 8, answers, 8) == LAYODEGI_HANDED);
    /* v*(1 + u), all at once: one after the other it would be 0 */
    CHECK(layodegi_lowenheim_handed(2, 0, EMPTY, 4, U_NOT_V, 4, EXCHANGED, 8, answers, 8) == LAYODEGI_HANDED);
    CHECK(holds(answers, "\0\1\1\1\0\1\1\1", 8));

    /* nothing to hand: is the condition itself zero? */
    CHECK(layodegi_lowenheim_handed(0, 1, EMPTY, 4, A, 2, A, 0, answers, 0) == MONOMIALS(0));
    CHECK(layodegi_lowenheim_handed(0, 1, EMPTY, 4, A + 1, 2, A, 0, answers, 0) == LAYODEGI_HANDED);
    CHECK(holds(answers, "\0\1\1\1\0\1\1\1", 8));
    CHECK(strcmp(layodegi_question_words(21), "Does the handed substitution make the condition zero?") == 0);
}

/* The three calls on answer tables hand back one of them: the very pointer, and U * 2^n bytes. */
static int hands_back(const uint8_t *expected, size_t u, size_t g, const uint8_t *boole, size_t boole_length,
                      const uint8_t *lowenheim, size_t lowenheim_length)
{
    size_t length = SIZE_MAX;
    uint64_t which = expected == boole ? 0 : 1;
    return layodegi_shorter(u, g, boole, boole_length, lowenheim, lowenheim_length, &length) == expected
           && length == layodegi_answers_length(u, g)
           && layodegi_which_shorter(u, g, boole, boole_length, lowenheim, lowenheim_length) == which << 8
           && layodegi_shorter_refusal(u, g, boole, boole_length, lowenheim, lowenheim_length) == LAYODEGI_YES;
}

/* The three calls refuse: no bytes of Boole's table. */
static int refuse(unsigned question, size_t u, size_t g, const uint8_t *boole, size_t boole_length,
                  const uint8_t *lowenheim, size_t lowenheim_length)
{
    size_t length = SIZE_MAX;
    return layodegi_shorter(u, g, boole, boole_length, lowenheim, lowenheim_length, &length) == boole && length == 0
           && layodegi_which_shorter(u, g, boole, boole_length, lowenheim, lowenheim_length) == question
           && layodegi_shorter_refusal(u, g, boole, boole_length, lowenheim, lowenheim_length) == question;
}

static void check_shorter(void)
{
    /* over u and v, each with a byte behind it */
    static const uint8_t FOUR[9] = {0, 1, 1, 1, 0, 0, 1, 0, 9}; /* u = u + v + u*v, v = v */
    static const uint8_t TWO[9] = {0, 1, 0, 0, 0, 0, 0, 1, 1};  /* u = u, v = u*v */
    static const uint8_t ALSO_TWO[8] = {1, 0, 0, 1};
    static const uint8_t LAST[8] = {0, 0, 0, 0, 0, 0, 0, 2}, FIRST[8] = {255};
    static uint8_t full[LAYODEGI_LONGEST_ANSWERS], nearly[LAYODEGI_LONGEST_ANSWERS];
    uint8_t order[6], condition[4], boole[9], lowenheim[9];
    CHECK(hands_back(TWO, 2, 0, FOUR, 8, TWO, 8));
    CHECK(hands_back(TWO, 2, 0, TWO, 8, FOUR, 8));
    CHECK(hands_back(EMPTY, 1, 1, TWO, 4, EMPTY, 4));
    CHECK(hands_back(A, 1, 1, A, 4, TWO, 4)); /* one monomial each */
    /* Boole's if the totals tie, by its place and not by its bytes */
    CHECK(hands_back(TWO, 2, 0, TWO, 8, ALSO_TWO, 8));
    CHECK(hands_back(ALSO_TWO, 2, 0, ALSO_TWO, 8, TWO, 8));
    CHECK(hands_back(FOUR, 2, 0, FOUR, 8, FOUR, 8));
    CHECK(hands_back(LAYODEGI_NO_FACT, 2, 0, LAYODEGI_NO_FACT, 8, LAYODEGI_NO_FACT + 8, 8));
    /* totals that a byte does not hold */
    memset(full, 1, sizeof full);
    memset(nearly, 1, sizeof nearly - 1);
    CHECK(hands_back(nearly, 6, 4, full, 6144, nearly, 6144));
    CHECK(hands_back(nearly, 6, 4, nearly, 6144, full, 6144));
    memset(nearly, 0, sizeof nearly - 256);
    memset(full, 0, sizeof full - 256);
    CHECK(hands_back(nearly, 6, 4, full, 6144, nearly, 6144)); /* 255 of them, and 256 */
    /* bytes behind, 1 or no bit, neither count nor are they asked */
    CHECK(hands_back(TWO, 2, 0, TWO, 9, ALSO_TWO, 8));
    CHECK(hands_back(TWO, 2, 0, FOUR, 9, TWO, 9));
    CHECK(hands_back(TWO, 2, 0, TWO, 9, FOUR, 9));
    CHECK(hands_back(LAST, 1, 0, LAST, 8, FIRST + 1, 7));
    /* no unknown, no bytes */
    CHECK(hands_back(LAST, 0, 2, LAST, 0, FIRST, 0));
    CHECK(hands_back(FIRST, 0, 8, FIRST, 8, LAST, 8));

    /* 1, 4, 8 */
    CHECK(refuse(LAYODEGI_LETTERS, 7, 0, LAST, 0, FIRST, 0));
    CHECK(refuse(LAYODEGI_LETTERS, 2, 9, FOUR, 8, TWO, 8));
    CHECK(refuse(LAYODEGI_LETTERS, 6, 5, FOUR, 8, TWO, 8));
    CHECK(refuse(LAYODEGI_LETTERS, SIZE_MAX, 2, FOUR, 8, TWO, 8));
    CHECK(refuse(LAYODEGI_LETTERS, 2, SIZE_MAX, FOUR, 8, TWO, 8));
    CHECK(refuse(LAYODEGI_ROOM, 2, 0, FOUR, 7, TWO, 8));
    CHECK(refuse(LAYODEGI_ROOM, 2, 0, FOUR, 8, TWO, 7));
    CHECK(refuse(LAYODEGI_ROOM, 2, 0, FOUR, 0, TWO, 8));
    CHECK(refuse(LAYODEGI_ROOM, 2, 0, FIRST, 8, TWO, 0)); /* 4 of both before 8 of either */
    CHECK(refuse(LAYODEGI_ROOM, 2, 0, FOUR, 7, LAST, 8));
    CHECK(refuse(LAYODEGI_BITS, 2, 0, LAST, 8, TWO, 8));
    CHECK(refuse(LAYODEGI_BITS, 2, 0, FOUR, 8, LAST, 8));
    CHECK(refuse(LAYODEGI_BITS, 2, 0, FIRST, 8, TWO, 8));
    CHECK(refuse(LAYODEGI_BITS, 2, 0, FOUR, 8, FIRST, 8));

    /* the header's example */
    memset(boole, OLD, sizeof boole);
    memset(lowenheim, OLD, sizeof lowenheim);
    layodegi_default_order(2, order);
    CHECK(layodegi_read_text(2, 0, (const uint8_t *)"v*!u", 4, condition, 4) == 0);
    CHECK(layodegi_boole(2, 0, order, LAYODEGI_NO_FACT, 4, condition, 4, boole, 8) == MONOMIALS(4));
    CHECK(layodegi_lowenheim(2, 0, order, LAYODEGI_NO_FACT, 4, condition, 4, lowenheim, 8) == MONOMIALS(2));
    CHECK(hands_back(lowenheim, 2, 0, boole, 8, lowenheim, 8));
    CHECK(refuse(LAYODEGI_ROOM, 2, 0, boole, 8, lowenheim, 7));
    CHECK(holds(boole, FOUR, 8) && holds(lowenheim, TWO, 8));
}

static void check_entries(void)
{
    /* the paper's sheet: routes 7 and 8 */
    static const uint8_t SHEET[] = {1, 7, 2, 0, 2, 1, 0, 2, 2, 0, 3, 0, 2, 0, 3, 1, 2, 0, 4, 7,
                                    1, 8, 1, 1, 2, 2, 0, 5, 1, 4, 8};
    uint8_t volume[32], order[7], fact[5], condition[5], answers[9];
    memset(volume, OLD, sizeof volume);
    memset(order, OLD, sizeof order);
    memset(fact, OLD, sizeof fact);
    memset(condition, OLD, sizeof condition);
    memset(answers, OLD, sizeof answers);
    CHECK(layodegi_code_number(layodegi_write_entry(7, 2, 0, U_FIRST, EMPTY, 4, U_PLUS_V, 4, volume, 32)) == 20);
    CHECK(layodegi_code_number(layodegi_write_entry(8, 1, 1, U_ALONE, EMPTY, 4, A, 4, volume + 20, 11)) == 11);
    CHECK(holds(volume, SHEET, 31));
    CHECK(layodegi_write_entry(251, 2, 0, V_TWICE, EMPTY, 4, U_PLUS_V, 4, volume, 32) == LAYODEGI_ROUTE);
    CHECK(layodegi_write_entry(263, 2, 0, U_FIRST, EMPTY, 4, U_PLUS_V, 4, volume, 32) == LAYODEGI_ROUTE);
    CHECK(layodegi_write_entry(7, 2, 0, V_TWICE, EMPTY, 4, U_PLUS_V, 3, volume, 32) == LAYODEGI_ORDER);
    CHECK(layodegi_write_entry(7, 2, 0, U_FIRST, EMPTY, 4, U_PLUS_V, 4, volume, 19) == LAYODEGI_OUTPUT);

    uint64_t solved = layodegi_read_entry(volume, 31, order, fact, 4, condition, 4, answers, 8);
    CHECK(layodegi_code_question(solved) == LAYODEGI_YES && layodegi_entry_route(solved) == 7);
    CHECK(layodegi_entry_unknowns(solved) == 2 && layodegi_entry_givens(solved) == 0);
    CHECK(layodegi_entry_length(solved) == 20 && !layodegi_entry_is_none(solved));
    CHECK(holds(order, U_FIRST, 6) && holds(fact, EMPTY, 4));
    CHECK(holds(condition, U_PLUS_V, 4) && holds(answers, SAME, 8));
    CHECK(layodegi_audit(volume, 31) == solved);

    uint64_t none = layodegi_read_entry(volume + 20, 11, order, fact, 4, condition, 4, answers, 4);
    CHECK(layodegi_entry_is_none(none) && layodegi_entry_state(none) == 1);
    CHECK(layodegi_entry_length(none) == 11);
    CHECK(holds(order, U_ALONE, 6) && holds(condition, A, 4) && holds(answers, SAME, 8));

    CHECK(layodegi_walk(volume, 31, 0) == 2 << 8);
    CHECK(layodegi_walk(volume, 31, 20) == 1 << 8);
    CHECK(layodegi_walk(volume, 31, SIZE_MAX) == 0);
    volume[28] = 0; /* 'none' at state 0 */
    CHECK(layodegi_audit(volume + 20, 11) == LAYODEGI_AFRESH);
    CHECK(layodegi_walk(volume, 31, 0) == (LAYODEGI_AFRESH | 1 << 8));
}

/* Route 7, u*v, with v eliminated first: a kind 6 behind the start. */
static void check_orders(void)
{
    static const uint8_t ENTRY[28] = {1, 7, 2, 0, 6, 1, 0, 255, 255, 255, 255, 2, 3, 0,
                                      3, 0, 1, 0, 3, 1, 2, 0, 3, 1, 3, 0, 4, 7};
    uint8_t bytes[29], order[7], fact[5], condition[5], answers[9];
    memset(bytes, OLD, sizeof bytes);
    memset(order, OLD, sizeof order);
    memset(fact, OLD, sizeof fact);
    memset(condition, OLD, sizeof condition);
    memset(answers, OLD, sizeof answers);
    CHECK(layodegi_code_number(layodegi_write_entry(7, 2, 0, V_FIRST, EMPTY, 4, U_TIMES_V, 4, bytes, 28)) == 28);
    CHECK(holds(bytes, ENTRY, 28));
    uint64_t solved = layodegi_read_entry(bytes, 28, order, fact, 4, condition, 4, answers, 8);
    CHECK(layodegi_code_question(solved) == LAYODEGI_YES && layodegi_entry_length(solved) == 28);
    CHECK(holds(order, V_FIRST, 6) && holds(condition, U_TIMES_V, 4));
    CHECK(holds(answers, "\0\1\0\0\0\0\1\1", 8)); /* u = u, v = v + u*v */
    CHECK(layodegi_audit(bytes, 28) == solved);
    CHECK(layodegi_walk(bytes, 28, 0) == 1 << 8);

    bytes[5] = 0; /* u twice */
    CHECK(layodegi_read_entry(bytes, 28, order, fact, 4, condition, 4, answers, 7) == LAYODEGI_ORDER);
    CHECK(layodegi_audit(bytes, 28) == LAYODEGI_ORDER);
    CHECK(holds(order, V_FIRST, 6));
    bytes[6] = 1; /* the order 0, 1, in which kind 6 is left out */
    CHECK(layodegi_read_entry(bytes, 28, order, fact, 4, condition, 4, answers, 8) == LAYODEGI_NUMBERS);
    layodegi_default_order(2, order);
    CHECK(holds(order, U_FIRST, 6));
}

/* Over the letters u, a and b: `a*u+b*u+b`, the fact a*b, under which it has a solution, and the answer. */
static const uint8_t ROW[8] = {0, 0, 0, 1, 1, 1, 0, 0};
static const uint8_t A_TIMES_B[9] = {0, 0, 0, 0, 0, 0, 1, 0, 9}; /* and a byte behind it */
static const uint8_t ROW_ANSWER[8] = {0, 1, 0, 1, 1, 1, 1, 0};   /* u = b + u + a*b + a*u + b*u */

static void check_facts(void)
{
    static const uint8_t U[8] = {0, 1}, ONE[8] = {1}, NO_BITS[8] = {0, 0, 0, 0, 0, 0, 0, 2};
    static const uint8_t B[8] = {0, 0, 0, 0, 1};
    uint8_t answers[9];
    memset(answers, OLD, sizeof answers);
    uint64_t none = layodegi_boole(1, 2, U_ALONE, LAYODEGI_NO_FACT, 8, ROW, 8, answers, 8);
    CHECK(layodegi_code_question(none) == LAYODEGI_SOLUTION && layodegi_code_number(none) == 3);
    none = layodegi_boole(1, 2, U_ALONE, B, 8, ONE, 8, answers, 8);
    CHECK(layodegi_code_question(none) == LAYODEGI_SOLUTION && layodegi_code_number(none) == 0);
    CHECK(layodegi_boole(1, 2, U_ALONE, A_TIMES_B, 9, ROW, 8, answers, 9) == MONOMIALS(5));
    CHECK(holds(answers, ROW_ANSWER, 8));
    CHECK(layodegi_particular(1, 2, U_ALONE, A_TIMES_B, 8, ROW, 8, answers, 8) == MONOMIALS(2));
    CHECK(holds(answers, "\0\0\0\0\1\0\1\0", 8)); /* b + a*b */
    CHECK(layodegi_lowenheim(1, 2, U_ALONE, A_TIMES_B, 8, ROW, 8, answers, 8) == MONOMIALS(5));
    CHECK(holds(answers, ROW_ANSWER, 8));
    CHECK(layodegi_lowenheim_handed(1, 2, A_TIMES_B, 8, ROW, 8, B, 8, answers, 8) == MONOMIALS(5));
    CHECK(holds(answers, ROW_ANSWER, 8));

    /* 1, 17, 4, 8, 22, 23, 9 */
    CHECK(layodegi_boole(7, 2, V_TWICE, NO_BITS, 7, ROW, 8, answers, 8) == LAYODEGI_LETTERS);
    CHECK(layodegi_boole(1, 2, V_TWICE, NO_BITS, 7, ROW, 8, answers, 8) == LAYODEGI_ORDER);
    CHECK(layodegi_boole(1, 2, U_ALONE, NO_BITS, 7, ROW, 8, answers, 8) == LAYODEGI_ROOM);
    CHECK(layodegi_boole(1, 2, U_ALONE, LAYODEGI_NO_FACT, 0, ROW, 8, answers, 8) == LAYODEGI_ROOM);
    CHECK(layodegi_boole(1, 2, U_ALONE, NO_BITS, 8, ROW, 7, answers, 8) == LAYODEGI_ROOM);
    CHECK(layodegi_boole(1, 2, U_ALONE, U, 8, ROW, 8, answers, 7) == LAYODEGI_ROOM);
    CHECK(layodegi_boole(1, 2, U_ALONE, NO_BITS, 8, ROW, 8, answers, 8) == LAYODEGI_BITS);
    CHECK(layodegi_boole(1, 2, U_ALONE, U, 8, NO_BITS, 8, answers, 8) == LAYODEGI_BITS);
    CHECK(layodegi_boole(1, 2, U_ALONE, U, 8, ONE, 8, answers, 8) == LAYODEGI_FACT_GIVENS);
    CHECK(layodegi_particular(1, 2, U_ALONE, U, 8, ROW, 8, answers, 8) == LAYODEGI_FACT_GIVENS);
    CHECK(layodegi_lowenheim(1, 2, U_ALONE, ONE, 8, ONE, 8, answers, 8) == LAYODEGI_FACT_STATE);
    CHECK(layodegi_boole(1, 2, U_ALONE, ONE, 8, ROW, 8, answers, 8) == LAYODEGI_FACT_STATE);

    /* 1, 4, 8, 22, 23, 21 */
    CHECK(layodegi_lowenheim_handed(1, 2, NO_BITS, 7, ROW, 8, B, 8, answers, 8) == LAYODEGI_ROOM);
    CHECK(layodegi_lowenheim_handed(1, 2, NO_BITS, 8, ROW, 8, B, 8, answers, 8) == LAYODEGI_BITS);
    CHECK(layodegi_lowenheim_handed(1, 2, U, 8, ROW, 8, U, 8, answers, 8) == LAYODEGI_FACT_GIVENS);
    CHECK(layodegi_lowenheim_handed(1, 2, ONE, 8, ROW, 8, U, 8, answers, 8) == LAYODEGI_FACT_STATE);
    CHECK(layodegi_lowenheim_handed(1, 2, A_TIMES_B, 8, ROW, 8, U, 8, answers, 8) == LAYODEGI_HANDED);
    CHECK(holds(answers, ROW_ANSWER, 8));

    /* the header's example */
    CHECK(layodegi_lowenheim_handed(1, 1, A, 4, U_PLUS_V, 4, EMPTY, 4, answers, 4) == MONOMIALS(1));
    CHECK(memcmp(answers, "\0\0\0\1", 4) == 0); /* u*a */
    CHECK(strcmp(layodegi_question_words(22), "Has g no unknown?") == 0);
    CHECK(strcmp(layodegi_question_words(23), "Is g 0 in some state?") == 0);
}

/* The row as route 7: a kind 7 behind the start. */
static void check_archived_facts(void)
{
    static const uint8_t ENTRY[38] = {1, 7, 1, 2, 7, 6, 0, 2, 4, 0, 2, 3, 0, 2, 5, 0, 3, 0, 1,
                                      0, 3, 0, 4, 0, 3, 0, 3, 0, 3, 0, 5, 0, 3, 0, 6, 0, 4, 7};
    uint8_t bytes[39], order[7], fact[9], condition[9], answers[9];
    memset(bytes, OLD, sizeof bytes);
    memset(order, OLD, sizeof order);
    memset(fact, OLD, sizeof fact);
    memset(condition, OLD, sizeof condition);
    memset(answers, OLD, sizeof answers);
    CHECK(layodegi_write_entry(7, 1, 2, U_ALONE, A_TIMES_B, 9, ROW, 8, bytes, 37) == LAYODEGI_OUTPUT);
    CHECK(layodegi_code_number(layodegi_write_entry(7, 1, 2, U_ALONE, A_TIMES_B, 9, ROW, 8, bytes, 38)) == 38);
    CHECK(holds(bytes, ENTRY, 38));
    CHECK(layodegi_write_entry(7, 1, 2, U_ALONE, A_TIMES_B, 7, ROW, 8, bytes, 38) == LAYODEGI_ROOM);
    CHECK(layodegi_write_entry(7, 1, 2, U_ALONE, ROW, 8, ROW, 8, bytes, 1) == LAYODEGI_FACT_GIVENS);
    CHECK(holds(bytes, ENTRY, 38));
    CHECK(layodegi_read_entry(bytes, 38, order, fact, 7, condition, 8, answers, 8) == LAYODEGI_ROOM);
    CHECK(order[0] == OLD && fact[0] == OLD && condition[0] == OLD && answers[0] == OLD);
    uint64_t solved = layodegi_read_entry(bytes, 38, order, fact, 8, condition, 8, answers, 8);
    CHECK(layodegi_code_question(solved) == LAYODEGI_YES && layodegi_entry_length(solved) == 38);
    CHECK(holds(order, U_ALONE, 6) && holds(fact, A_TIMES_B, 8));
    CHECK(holds(condition, ROW, 8) && holds(answers, ROW_ANSWER, 8));
    CHECK(layodegi_audit(bytes, 38) == solved);
    CHECK(layodegi_walk(bytes, 38, 0) == 1 << 8);

    bytes[5] = 1; /* the fact u */
    CHECK(layodegi_read_entry(bytes, 38, order, fact, 7, condition, 8, answers, 8) == LAYODEGI_FACT_GIVENS);
    CHECK(layodegi_audit(bytes, 38) == LAYODEGI_FACT_GIVENS);
    bytes[5] = 0; /* the fact 1 */
    CHECK(layodegi_audit(bytes, 38) == LAYODEGI_FACT_STATE);
    CHECK(layodegi_walk(bytes, 38, 0) == LAYODEGI_FACT_STATE);
    bytes[5] = 8; /* too large */
    CHECK(layodegi_audit(bytes, 38) == LAYODEGI_NUMBERS);
    bytes[5] = 2; /* the fact a, whose answers are others */
    CHECK(layodegi_audit(bytes, 38) == LAYODEGI_AFRESH);
    CHECK(holds(fact, A_TIMES_B, 8) && holds(answers, ROW_ANSWER, 8));
}

/* The bytes of a session: 0 but for those named, then one byte that was not written. */
static int is_session(const uint8_t *session, uint8_t u, uint8_t g, const uint8_t table[4], const uint8_t *stored_as_b)
{
    uint8_t expected[LAYODEGI_SESSION] = {u, g};
    memcpy(expected + LAYODEGI_SESSION_TABLE, table, 4);
    if (stored_as_b != NULL) {
        expected[LAYODEGI_SESSION_MARK('B')] = 1;
        memcpy(expected + LAYODEGI_SESSION_STORED('B'), stored_as_b, 4);
    }
    return holds(session, expected, sizeof expected);
}

static void check_sessions(void)
{
    static const uint8_t NOT_U[4] = {1, 1, 0, 0};
    static const uint8_t EITHER[4] = {1, 1, 0, 1}; /* u*v or not u */
    uint8_t session[LAYODEGI_SESSION + 1], answers[9];
    memset(session, OLD, sizeof session);
    memset(answers, OLD, sizeof answers);
    CHECK(layodegi_session_start(2, 0, session) == 0);
    CHECK(is_session(session, 2, 0, EMPTY, NULL));
    CHECK(layodegi_session_return(session, 'B') == LAYODEGI_MARKED);
    CHECK(layodegi_session_add(session, U_TIMES_V, 3) == LAYODEGI_ROOM);
    CHECK(layodegi_session_add(session, (const uint8_t *)"\0\1\2\0", 4) == LAYODEGI_BITS);
    CHECK(is_session(session, 2, 0, EMPTY, NULL));

    CHECK(layodegi_session_add(session, U_TIMES_V, 4) == 0);
    CHECK(layodegi_session_mark(session, 'B') == 0);
    CHECK(is_session(session, 2, 0, U_TIMES_V, U_TIMES_V));
    CHECK(layodegi_session_add(session, NOT_U, 4) == 0);
    CHECK(is_session(session, 2, 0, EITHER, U_TIMES_V));
    CHECK(layodegi_session_mark(session, 'A' - 1) == LAYODEGI_NAME);
    CHECK(layodegi_session_mark(session, 'E') == LAYODEGI_NAME);
    CHECK(layodegi_session_mark(session, 'B' + 256) == LAYODEGI_NAME);
    CHECK(layodegi_session_return(session, SIZE_MAX) == LAYODEGI_NAME);
    CHECK(layodegi_session_return(session, 'C') == LAYODEGI_MARKED);
    CHECK(is_session(session, 2, 0, EITHER, U_TIMES_V));

    /* the present table, as it stands in the block, is a condition */
    CHECK(layodegi_boole(2, 0, U_FIRST, EMPTY, 4, session + LAYODEGI_SESSION_TABLE, 4, answers, 8) == MONOMIALS(1));
    CHECK(holds(answers, "\1\0\0\0\0\0\0\0", 8)); /* u = 1, v = 0 */
    CHECK(layodegi_session_return(session, 'B') == 0);
    CHECK(is_session(session, 2, 0, U_TIMES_V, U_TIMES_V));
    CHECK(layodegi_boole(2, 0, U_FIRST, EMPTY, 4, session + LAYODEGI_SESSION_TABLE, 4, answers, 8) == MONOMIALS(3));
    CHECK(holds(answers, "\0\1\0\1\0\0\1\0", 8)); /* u = u + u*v, v = v */
}

/* What a step is handed may be anything. */
static void check_sessions_handed(void)
{
    uint8_t session[LAYODEGI_SESSION + 1];
    memset(session, OLD, sizeof session);
    CHECK(layodegi_session_start(6, 5, session) == LAYODEGI_LETTERS);
    CHECK(is_session(session, 0, 0, EMPTY, NULL));
    CHECK(layodegi_session_start(1, 1, session) == 0);
    CHECK(layodegi_session_mark(session, 'B') == 0);
    session[LAYODEGI_SESSION_STORED('B') + 3] = 2;
    CHECK(layodegi_session_add(session, A, 3) == LAYODEGI_BITS);
    session[LAYODEGI_SESSION_MARK('B')] = 2; /* no mark */
    CHECK(layodegi_session_add(session, A, 3) == LAYODEGI_ROOM);
    CHECK(session[LAYODEGI_SESSION_MARK('B')] == 2);
    CHECK(layodegi_session_return(session, 'B') == LAYODEGI_MARKED);
    CHECK(layodegi_session_add(session, A, 4) == 0);
    CHECK(session[LAYODEGI_SESSION_MARK('B')] == 0 && session[LAYODEGI_SESSION_STORED('B') + 3] == 2);
    session[LAYODEGI_SESSION_TABLE + 4] = 9; /* behind the table */
    CHECK(layodegi_session_mark(session, 'D') == 0);
    CHECK(session[LAYODEGI_SESSION_MARK('D')] == 1 && session[LAYODEGI_SESSION_STORED('D') + 4] == 9);
    CHECK(session[LAYODEGI_SESSION_STORED('D') + LAYODEGI_LONGEST_TABLE] == OLD);
    session[LAYODEGI_SESSION_TABLE] = 255;
    CHECK(layodegi_session_return(session, 'D') == LAYODEGI_BITS);
    session[LAYODEGI_SESSION_GIVENS] = 255;
    CHECK(layodegi_session_return(session, 'E') == LAYODEGI_LETTERS);
    CHECK(session[LAYODEGI_SESSION_TABLE] == 255 && session[LAYODEGI_SESSION_GIVENS] == 255);
}

int main(void)
{
    check_tables();
    check_counts();
    check_derivatives();
    check_solving();
    check_handed();
    check_shorter();
    check_entries();
    check_orders();
    check_facts();
    check_archived_facts();
    check_sessions();
    check_sessions_handed();
    if (failed != 0)
        return EXIT_FAILURE;
    puts("each function of the header: as expected");
    return EXIT_SUCCESS;
}
