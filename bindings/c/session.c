/*
 * A designer adds conditions one by one, marks states, tries something and returns.
 *
 *     session [U G STEP...]
 *
 * A STEP is a text to add, `=X` to mark the present state as X, or `@X` to return to it. After each step it prints
 * whether the conditions of the present list have a solution together, or the smallest state in which they have none.
 * Without arguments: U = 1, G = 2, and the steps `u+a` `=A` `b` `@A` `u*b*!a`. Exit status: 0 if no step is refused, 1
 * if one is, 2 if U and G are not one digit each.
 */
#include "layodegi.h"

#include <stdio.h>
#include <string.h>

/* Reads a text and adds its condition. */
static uint64_t add_text(uint8_t session[LAYODEGI_SESSION], const char *text)
{
    uint8_t condition[LAYODEGI_LONGEST_TABLE];
    uint64_t code = layodegi_read_text(session[LAYODEGI_SESSION_UNKNOWNS], session[LAYODEGI_SESSION_GIVENS],
                                       (const uint8_t *)text, strlen(text), condition, sizeof condition);
    if (layodegi_code_question(code) != LAYODEGI_YES)
        return code;
    return layodegi_session_add(session, condition, sizeof condition);
}

static uint64_t take_step(uint8_t session[LAYODEGI_SESSION], const char *step)
{
    int is_short = strlen(step) == 2;
    if (is_short && step[0] == '=')
        return layodegi_session_mark(session, (unsigned char)step[1]);
    if (is_short && step[0] == '@')
        return layodegi_session_return(session, (unsigned char)step[1]);
    return add_text(session, step);
}

/* Solves the present table as it stands in the session. */
static void print_solution(const uint8_t session[LAYODEGI_SESSION])
{
    static uint8_t answers[LAYODEGI_LONGEST_ANSWERS];
    uint8_t order[LAYODEGI_ORDER_LENGTH];
    size_t unknowns = session[LAYODEGI_SESSION_UNKNOWNS];
    layodegi_default_order(unknowns, order);
    uint64_t code = layodegi_boole(unknowns, session[LAYODEGI_SESSION_GIVENS], order, LAYODEGI_NO_FACT,
                                   sizeof LAYODEGI_NO_FACT, session + LAYODEGI_SESSION_TABLE, LAYODEGI_LONGEST_TABLE,
                                   answers, sizeof answers);
    if (layodegi_code_question(code) == LAYODEGI_SOLUTION)
        printf("none: state %u\n", (unsigned)layodegi_code_number(code));
    else
        puts("solved");
}

/* Prints a refusal. Answers whether there is one. */
static int is_refused(uint64_t code)
{
    unsigned question = layodegi_code_question(code);
    if (question == LAYODEGI_YES)
        return 0;
    printf("refused %u: %s\n", question, layodegi_question_words(question));
    return 1;
}

static int is_digit(const char *word)
{
    return strlen(word) == 1 && strchr("0123456789", *word) != NULL;
}

int main(int count, char **words)
{
    static char *usual[] = {"session", "1", "2", "u+a", "=A", "b", "@A", "u*b*!a"};
    static uint8_t session[LAYODEGI_SESSION];
    if (count == 1) {
        count = sizeof usual / sizeof *usual;
        words = usual;
    }
    if (count < 3 || !is_digit(words[1]) || !is_digit(words[2])) {
        fputs("usage: session [U G STEP...]\n", stderr);
        return 2;
    }
    if (is_refused(layodegi_session_start((size_t)(*words[1] - '0'), (size_t)(*words[2] - '0'), session)))
        return 1;
    int status = 0;
    for (int place = 3; place < count; place++) {
        printf("%s: ", words[place]);
        if (is_refused(take_step(session, words[place])))
            status = 1;
        else
            print_solution(session);
    }
    return status;
}
