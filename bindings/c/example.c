/* Stores three lemmas about sums, asks which of them unify with an equation, and prints how. */
#include <stdio.h>

#include "azunkefogo.h"

/* The symbols, by their numbers in the signature: zero, suc(1), plus(2), eq(2). */
static const uint8_t signature[] = {0, 1, 2, 2};
static const char *const names[] = {"zero", "suc", "plus", "eq"};

#define ZERO 0x00, 0x00
#define SUC 0x00, 0x01
#define PLUS 0x00, 0x02
#define EQ 0x00, 0x03
#define VARIABLE(v) 0x80, (v)

static const uint8_t same[] = {EQ, VARIABLE(0), VARIABLE(0)};
static const uint8_t plus_zero[] = {EQ, PLUS, ZERO, VARIABLE(0), VARIABLE(0)};
static const uint8_t plus_suc[] = {EQ,  PLUS, SUC,         VARIABLE(0), VARIABLE(1),
                                   SUC, PLUS, VARIABLE(0), VARIABLE(1)};
static const uint8_t question[] = {EQ, PLUS, VARIABLE(0), SUC, VARIABLE(1), SUC, VARIABLE(2)};

static azunkefogo_tables tables;

/* A stored variable is x, a question's is y: `bank` is 0 where the items are a stored term's
   or a record's, and AZUNKEFOGO_QUESTION where they are the question's own. */
static void print_variable(unsigned number, unsigned bank) {
    unsigned written = number + bank;
    if (written < AZUNKEFOGO_QUESTION)
        printf("x%u", written);
    else
        printf("y%u", written - AZUNKEFOGO_QUESTION);
}

/* Prints the term at a place and answers the place after it. */
static size_t print_term(const uint8_t *items, size_t place, unsigned bank) {
    unsigned item = azunkefogo_number(items, place);
    place += 2;
    if (item >= AZUNKEFOGO_VARIABLE) {
        print_variable(item - AZUNKEFOGO_VARIABLE, bank);
        return place;
    }
    printf("%s", names[item]);
    for (unsigned i = 0; i < signature[item]; i++) {
        printf(i == 0 ? "(" : ", ");
        place = print_term(items, place, bank);
    }
    if (signature[item] > 0) printf(")");
    return place;
}

static int store(const uint8_t *term, size_t count) {
    size_t slot;
    uint32_t refused = azunkefogo_index_insert(&tables, term, count, &slot);
    if (refused) {
        printf("insert refused with %u\n", (unsigned)refused);
        return 0;
    }
    printf("slot %zu holds ", slot);
    print_term(term, 0, 0);
    printf("\n");
    return 1;
}

/* A record is a row of fields: tag, two bytes of length, the variable, its value. */
static void print_record(const uint8_t *record, size_t written) {
    for (size_t at = 0; at < written; at += 3 + azunkefogo_number(record, at + 1)) {
        size_t value = at + 5;
        printf("  ");
        print_term(record, at + 3, 0);
        printf(" = ");
        print_term(record, value, 0);
        printf("\n");
    }
}

static void print_unifier(size_t slot) {
    static uint8_t record[AZUNKEFOGO_MOST_RECORD];
    size_t fields, written;
    uint32_t refused = azunkefogo_index_solve(&tables, slot, question, sizeof question, record,
                                              sizeof record, &fields, &written);
    if (refused) {
        printf("slot %zu: refused with %u\n", slot, (unsigned)refused);
        return;
    }
    printf("slot %zu: %zu bindings\n", slot, fields);
    print_record(record, written);
}

static int ask(void) {
    uint8_t listing[AZUNKEFOGO_MOST_LISTING];
    size_t candidates, answers;
    uint32_t refused =
        azunkefogo_index_retrieve(&tables, AZUNKEFOGO_UNIFIABLE, question, sizeof question,
                                  listing, sizeof listing, &candidates, &answers);
    if (refused) {
        printf("retrieve refused with %u\n", (unsigned)refused);
        return 0;
    }
    printf("question ");
    print_term(question, 0, AZUNKEFOGO_QUESTION);
    printf("\n%zu candidates, %zu answers\n", candidates, answers);
    for (size_t i = 0; i < answers; i++) print_unifier(azunkefogo_number(listing, 2 * i));
    return 1;
}

int main(void) {
    uint32_t refused = azunkefogo_index_open(&tables, signature, sizeof signature);
    if (refused) {
        printf("open refused with %u\n", (unsigned)refused);
        return 1;
    }
    if (!store(same, sizeof same)) return 1;
    if (!store(plus_zero, sizeof plus_zero)) return 1;
    if (!store(plus_suc, sizeof plus_suc)) return 1;
    if (!ask()) return 1;
    /* the first lemma was a candidate, but no substitution makes it the question */
    print_unifier(0);
    return 0;
}
