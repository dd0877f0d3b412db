/*
 * Which contacts, flipped together, cannot change a circuit?
 *
 *     flips [U G TEXT]
 *
 * TEXT is the circuit. Prints each group of givens whose flip changes its value in no state and at no choice, a line
 * each, or `none`. Without arguments: U = 1, G = 3 and `u*(a+b)|u*c*!c`, which c cannot change at all, and a and b
 * only one without the other. Exit status: 0 if the text is read, 1 if it is refused, 2 if U and G are not one digit
 * each.
 */
#include "layodegi.h"

#include <stdio.h>
#include <string.h>

/* Whether flipping a group of givens, bit i for given i, changes the circuit somewhere. */
static int can_change(const uint8_t *circuit, size_t u, size_t g, size_t group)
{
    uint8_t changes[LAYODEGI_LONGEST_TABLE];
    layodegi_derivative(u, g, circuit, LAYODEGI_LONGEST_TABLE, group << u, changes, sizeof changes);
    return memchr(changes, 1, layodegi_table_length(u, g)) != NULL;
}

static void print_group(size_t group)
{
    for (size_t given = 0; group >> given != 0; given++)
        if ((group >> given & 1) != 0)
            putchar("abcdefgh"[given]);
    puts("");
}

static void print_flips(const uint8_t *circuit, size_t u, size_t g)
{
    int is_none = 1;
    for (size_t group = 1; group >> g == 0; group++) {
        if (can_change(circuit, u, g, group))
            continue;
        print_group(group);
        is_none = 0;
    }
    if (is_none)
        puts("none");
}

static int is_digit(const char *word)
{
    return strlen(word) == 1 && strchr("0123456789", *word) != NULL;
}

int main(int count, char **words)
{
    static char *usual[] = {"flips", "1", "3", "u*(a+b)|u*c*!c"};
    static uint8_t circuit[LAYODEGI_LONGEST_TABLE];
    if (count == 1) {
        count = sizeof usual / sizeof *usual;
        words = usual;
    }
    if (count != 4 || !is_digit(words[1]) || !is_digit(words[2])) {
        fputs("usage: flips [U G TEXT]\n", stderr);
        return 2;
    }
    size_t u = (size_t)(*words[1] - '0'), g = (size_t)(*words[2] - '0');
    uint64_t code =
        layodegi_read_text(u, g, (const uint8_t *)words[3], strlen(words[3]), circuit, sizeof circuit);
    unsigned question = layodegi_code_question(code);
    if (question != LAYODEGI_YES) {
        printf("refused %u: %s\n", question, layodegi_question_words(question));
        return 1;
    }
    print_flips(circuit, u, g);
    return 0;
}
