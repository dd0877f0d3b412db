/*
 * Reads a text, writes its entry, reads the entry back and prints it.
 *
 *     example [ROUTE U G TEXT [ORDER [FACT]]]
 *
 * Without arguments: the row (2,0) `u+v+1` of the paper's bench table, as route 7. ORDER is the unknowns, first
 * eliminated first, as `vu`; without it, or with `-`, they go as `uvwxyz`. FACT is a text over the givens, as `a*b`;
 * only states where it is 0 count, all of them without it. Prints the order and the fact where the entry holds them,
 * the condition and the answers as polynomials, or 'none' and the state. Exit status: 0 if the entry is written and
 * read back, 1 if a call refuses, 2 if the arguments are not three numbers, a text, at most six letters and a text.
 */
#include "layodegi.h"
#include "polynomials.h"

#include <errno.h>
#include <stdio.h>
#include <stdlib.h>
#include <string.h>

struct route_condition {
    size_t route;
    size_t unknowns;
    size_t givens;
    const char *text;
    uint8_t order[LAYODEGI_ORDER_LENGTH];
    const char *fact;
};

/* An entry as it is read back; the tables are as long as any can be. */
struct entry {
    uint64_t code;
    uint8_t order[LAYODEGI_ORDER_LENGTH];
    uint8_t fact[LAYODEGI_LONGEST_TABLE];
    uint8_t condition[LAYODEGI_LONGEST_TABLE];
    uint8_t answers[LAYODEGI_LONGEST_ANSWERS];
};

/* A decimal number, digits alone. */
static int read_number(const char *word, size_t *number)
{
    if (*word == '\0' || word[strspn(word, "0123456789")] != '\0')
        return 0;
    errno = 0;
    unsigned long long value = strtoull(word, NULL, 10);
    if (errno != 0 || value > SIZE_MAX)
        return 0;
    *number = (size_t)value;
    return 1;
}

/* The unknowns that letters name, first eliminated first, then 255. */
static int read_order(const char *letters, uint8_t order[LAYODEGI_ORDER_LENGTH])
{
    size_t length = strlen(letters);
    if (length > LAYODEGI_ORDER_LENGTH || letters[strspn(letters, "uvwxyz")] != '\0')
        return 0;
    memset(order, LAYODEGI_UNUSED, LAYODEGI_ORDER_LENGTH);
    for (size_t place = 0; place < length; place++)
        order[place] = (uint8_t)(letters[place] - 'u');
    return 1;
}

static int read_arguments(int count, char **words, struct route_condition *asked)
{
    if (count != 1 && (count < 5 || count > 7))
        return 0;
    if (count != 1) {
        asked->text = words[4];
        if (!read_number(words[1], &asked->route) || !read_number(words[2], &asked->unknowns)
            || !read_number(words[3], &asked->givens))
            return 0;
    }
    if (count == 7)
        asked->fact = words[6];
    layodegi_default_order(asked->unknowns, asked->order);
    return count < 6 || strcmp(words[5], "-") == 0 || read_order(words[5], asked->order);
}

/* The table of a text over the letters that are asked for. */
static uint64_t read_table(const struct route_condition *asked, const char *text, uint8_t table[LAYODEGI_LONGEST_TABLE])
{
    return layodegi_read_text(asked->unknowns, asked->givens, (const uint8_t *)text, strlen(text), table,
                              LAYODEGI_LONGEST_TABLE);
}

/* From the texts to the entry and back. Answers the first code with a no, else that of reading back. */
static uint64_t write_and_read_back(const struct route_condition *asked, struct entry *entry)
{
    static uint8_t bytes[LAYODEGI_LONGEST_ENTRY];
    uint64_t code = read_table(asked, asked->fact, entry->fact);
    if (layodegi_code_question(code) != LAYODEGI_YES)
        return code;
    code = read_table(asked, asked->text, entry->condition);
    if (layodegi_code_question(code) != LAYODEGI_YES)
        return code;
    code = layodegi_write_entry(asked->route, asked->unknowns, asked->givens, asked->order, entry->fact,
                                sizeof entry->fact, entry->condition, sizeof entry->condition, bytes, sizeof bytes);
    if (layodegi_code_question(code) != LAYODEGI_YES)
        return code;
    return layodegi_read_entry(bytes, layodegi_code_number(code), entry->order, entry->fact, sizeof entry->fact,
                               entry->condition, sizeof entry->condition, entry->answers, sizeof entry->answers);
}

/* A state, as a number and as the values of the givens. */
static void print_state(unsigned state, size_t givens)
{
    printf("none: state %u", state);
    for (size_t given = 0; given < givens; given++)
        printf(", %c = %u", "abcdefgh"[given], state >> given & 1);
    puts("");
}

/* An order that is not 0, 1, 2 and so on, as the letters of its unknowns. */
static void print_order(const uint8_t order[LAYODEGI_ORDER_LENGTH], size_t unknowns)
{
    uint8_t usual[LAYODEGI_ORDER_LENGTH];
    layodegi_default_order(unknowns, usual);
    if (memcmp(order, usual, sizeof usual) == 0)
        return;
    fputs("order: ", stdout);
    for (size_t place = 0; place < unknowns; place++)
        putchar("uvwxyz"[order[place]]);
    puts("");
}

static void print_entry(const struct entry *entry)
{
    size_t unknowns = layodegi_entry_unknowns(entry->code);
    size_t givens = layodegi_entry_givens(entry->code);
    printf("route %u, U %zu, G %zu, %zu bytes\n", layodegi_entry_route(entry->code), unknowns, givens,
           layodegi_entry_length(entry->code));
    print_order(entry->order, unknowns);
    if (memchr(entry->fact, 1, layodegi_table_length(unknowns, givens)) != NULL) {
        fputs("fact: ", stdout);
        print_polynomial(entry->fact, unknowns, givens);
    }
    fputs("condition: ", stdout);
    print_polynomial(entry->condition, unknowns, givens);
    if (layodegi_entry_is_none(entry->code)) {
        print_state(layodegi_entry_state(entry->code), givens);
        return;
    }
    print_answers(entry->answers, unknowns, givens);
}

int main(int count, char **words)
{
    static struct entry entry;
    struct route_condition asked = {7, 2, 0, "u+v+1", {0}, "0"};
    if (!read_arguments(count, words, &asked)) {
        fputs("usage: example [ROUTE U G TEXT [ORDER [FACT]]]\n", stderr);
        return 2;
    }
    entry.code = write_and_read_back(&asked, &entry);
    unsigned question = layodegi_code_question(entry.code);
    if (question != LAYODEGI_YES) {
        printf("refused %u: %s\n", question, layodegi_question_words(question));
        return 1;
    }
    print_entry(&entry);
    return 0;
}
