/*
 * Prints a table as a polynomial, for the examples: unknowns are u to z, givens a to h.
 */
#ifndef POLYNOMIALS_H
#define POLYNOMIALS_H

#include "layodegi.h"

#include <stdio.h>

static inline unsigned count_letters(size_t mask)
{
    unsigned count = 0;
    for (; mask != 0; mask >>= 1)
        count += (unsigned)(mask & 1);
    return count;
}

/* A monomial: 1, or its letters with * between. */
static inline void print_monomial(size_t mask, size_t unknowns)
{
    const char *between = "";
    if (mask == 0)
        fputs("1", stdout);
    for (size_t bit = 0; mask >> bit != 0; bit++) {
        if ((mask >> bit & 1) == 0)
            continue;
        printf("%s%c", between, bit < unknowns ? "uvwxyz"[bit] : "abcdefgh"[bit - unknowns]);
        between = "*";
    }
}

/* A polynomial in the written order: fewer letters first, then the smaller mask. */
static inline void print_polynomial(const uint8_t *table, size_t unknowns, size_t givens)
{
    const char *between = "";
    size_t length = layodegi_table_length(unknowns, givens);
    for (unsigned letters = 0; letters <= unknowns + givens; letters++) {
        for (size_t mask = 0; mask < length; mask++) {
            if (table[mask] != 1 || count_letters(mask) != letters)
                continue;
            fputs(between, stdout);
            print_monomial(mask, unknowns);
            between = " + ";
        }
    }
    puts(*between == '\0' ? "0" : "");
}

/* The answers to the unknowns, a line each. */
static inline void print_answers(const uint8_t *answers, size_t unknowns, size_t givens)
{
    for (size_t unknown = 0; unknown < unknowns; unknown++) {
        printf("%c = ", "uvwxyz"[unknown]);
        print_polynomial(answers + unknown * layodegi_table_length(unknowns, givens), unknowns, givens);
    }
}

#endif
