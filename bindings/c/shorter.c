/*
 * Which answer is the shorter to draw, Boole's or Loewenheim's?
 *
 *     shorter [U G TEXT]
 *
 * TEXT is the condition. Prints how many monomials each answer has, all unknowns together, and the shorter one, Boole's
 * if both have as many; or 'none' and the state. Without arguments: U = 2, G = 0 and `v*!u`. Exit status: 0 if the text
 * is read, 1 if it is refused, 2 if U and G are not one digit each.
 */
#include "layodegi.h"
#include "polynomials.h"

#include <stdio.h>
#include <string.h>

/* Solves the condition both ways, and prints the answer that layodegi_shorter hands back. */
static void print_shorter(const uint8_t *condition, size_t u, size_t g)
{
    static uint8_t boole[LAYODEGI_LONGEST_ANSWERS], lowenheim[LAYODEGI_LONGEST_ANSWERS];
    uint8_t order[LAYODEGI_ORDER_LENGTH];
    layodegi_default_order(u, order);
    uint64_t by_boole = layodegi_boole(u, g, order, LAYODEGI_NO_FACT, sizeof LAYODEGI_NO_FACT, condition,
                                       LAYODEGI_LONGEST_TABLE, boole, sizeof boole);
    if (layodegi_code_question(by_boole) == LAYODEGI_SOLUTION) {
        printf("none: state %u\n", (unsigned)layodegi_code_number(by_boole));
        return;
    }
    uint64_t by_lowenheim = layodegi_lowenheim(u, g, order, LAYODEGI_NO_FACT, sizeof LAYODEGI_NO_FACT, condition,
                                               LAYODEGI_LONGEST_TABLE, lowenheim, sizeof lowenheim);
    size_t length;
    const uint8_t *shorter = layodegi_shorter(u, g, boole, sizeof boole, lowenheim, sizeof lowenheim, &length);
    printf("monomials: Boole %u, Loewenheim %u\n", (unsigned)layodegi_code_number(by_boole),
           (unsigned)layodegi_code_number(by_lowenheim));
    printf("%s, %zu bytes:\n", shorter == boole ? "Boole's" : "Loewenheim's", length);
    print_answers(shorter, u, g);
}

static int is_digit(const char *word)
{
    return strlen(word) == 1 && strchr("0123456789", *word) != NULL;
}

int main(int count, char **words)
{
    static char *usual[] = {"shorter", "2", "0", "v*!u"};
    static uint8_t condition[LAYODEGI_LONGEST_TABLE];
    if (count == 1) {
        count = sizeof usual / sizeof *usual;
        words = usual;
    }
    if (count != 4 || !is_digit(words[1]) || !is_digit(words[2])) {
        fputs("usage: shorter [U G TEXT]\n", stderr);
        return 2;
    }
    size_t u = (size_t)(*words[1] - '0'), g = (size_t)(*words[2] - '0');
    uint64_t code =
        layodegi_read_text(u, g, (const uint8_t *)words[3], strlen(words[3]), condition, sizeof condition);
    unsigned question = layodegi_code_question(code);
    if (question != LAYODEGI_YES) {
        printf("refused %u: %s\n", question, layodegi_question_words(question));
        return 1;
    }
    print_shorter(condition, u, g);
    return 0;
}
