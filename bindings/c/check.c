/* What the C face promises beside its answers: what a refused call leaves, short tables, null
   pointers with a count of 0, memory that no opening made, tables moved as bytes, and which
   parameter stands at which place. */
#include <stdio.h>
#include <stdlib.h>
#include <string.h>

#include "azunkefogo.h"

static const uint8_t signature[] = {0, 0, 2, 1}; /* a, b, f(2), g(1) */
static const uint8_t variable[] = {0x80, 0};
static const uint8_t constant[] = {0, 0};
static azunkefogo_tables tables, before;
static int passed, failed;

static void expect(int line, unsigned long got, unsigned long owed) {
    if (got == owed) {
        passed++;
        return;
    }
    failed++;
    printf("line %d: %lu, not %lu\n", line, got, owed);
}

#define IS(got, owed) expect(__LINE__, (unsigned long)(got), (unsigned long)(owed))
#define UNCHANGED() IS(memcmp(&tables, &before, sizeof tables), 0)

/* Opens tables of which the one numbered `shorter` lacks its last element; 8 lacks none. */
static uint32_t open_short(int shorter, const uint8_t *bytes, size_t count) {
    size_t l[8] = {AZUNKEFOGO_BYTES_LENGTH, AZUNKEFOGO_USED_LENGTH, AZUNKEFOGO_LABEL_LENGTH,
                   AZUNKEFOGO_LINK_LENGTH,  AZUNKEFOGO_SETS_LENGTH, AZUNKEFOGO_SETS_LENGTH,
                   AZUNKEFOGO_SETS_LENGTH,  AZUNKEFOGO_SETS_LENGTH};
    if (shorter < 8) l[shorter]--;
    return azunkefogo_open(tables.bytes, l[0], tables.used, l[1], tables.label, l[2],
                           tables.link, l[3], tables.sets0, l[4], tables.sets1, l[5],
                           tables.sets2, l[6], tables.sets3, l[7], bytes, count);
}

/* Any memory may be opened; a refused opening leaves it. */
static void check_opening(void) {
    for (size_t i = 0; i < sizeof tables; i++) ((uint8_t *)&tables)[i] = (uint8_t)(rand() >> 7);
    before = tables;
    IS(azunkefogo_index_open(&tables, NULL, 0), AZUNKEFOGO_SIG);
    for (int shorter = 0; shorter < 8; shorter++) {
        IS(open_short(shorter, signature, sizeof signature), AZUNKEFOGO_TABLE);
        IS(open_short(shorter, NULL, 0), AZUNKEFOGO_TABLE);
    }
    UNCHANGED();
    IS(open_short(8, signature, sizeof signature), 0);
}

/* Calls on memory that no opening made end; what they answer means nothing. */
static void check_unopened(void) {
    uint8_t out[AZUNKEFOGO_MOST_LISTING];
    size_t first, second;
    memset(&tables, 0xEE, sizeof tables);
    azunkefogo_index_insert(&tables, variable, 2, &first);
    azunkefogo_index_delete(&tables, 3);
    azunkefogo_index_retrieve(&tables, AZUNKEFOGO_UNIFIABLE, variable, 2, out, sizeof out,
                              &first, &second);
    azunkefogo_index_solve(&tables, 5, variable, 2, out, sizeof out, &first, &second);
    IS(azunkefogo_index_open(&tables, signature, sizeof signature), 0);
    IS(azunkefogo_index_insert(&tables, variable, 2, &first), 0);
    IS(first, 0);
}

/* Refused calls on a store with x0 in slot 0. */
static void check_refusals(void) {
    size_t a = 77, b = 88;
    before = tables;
    IS(azunkefogo_check_signature(NULL, 0), AZUNKEFOGO_SIG);
    IS(azunkefogo_check_term(signature, 4, NULL, 0), AZUNKEFOGO_ODD);
    IS(azunkefogo_argument(signature, 4, variable, 2, 1, &a, &b), AZUNKEFOGO_ARG);
    IS(azunkefogo_unifiable(signature, 4, variable, 2, NULL, 0, &a), AZUNKEFOGO_ODD);
    IS(azunkefogo_unifiable(NULL, 0, variable, 2, NULL, 0, &a), AZUNKEFOGO_SIG);
    IS(azunkefogo_index_insert(&tables, NULL, 0, &a), AZUNKEFOGO_ODD);
    IS(azunkefogo_index_delete(&tables, SIZE_MAX), AZUNKEFOGO_SLOT);
    IS(azunkefogo_index_with_key(&tables, NULL, 0, NULL, 0, &a), AZUNKEFOGO_KEY);
    IS(azunkefogo_index_retrieve(&tables, (enum azunkefogo_relation)5, NULL, 0, NULL, 0, &a, &b),
       AZUNKEFOGO_RELATION);
    IS(azunkefogo_index_retrieve(&tables, AZUNKEFOGO_EQUAL, variable, 2, NULL, 0, &a, &b),
       AZUNKEFOGO_ROOM);
    IS(azunkefogo_index_solve(&tables, 512, NULL, 0, NULL, 0, &a, &b), AZUNKEFOGO_SLOT);
    IS(azunkefogo_index_solve(&tables, 0, variable, 2, NULL, 0, &a, &b), AZUNKEFOGO_ROOM);
    IS(a, 77);
    IS(b, 88);
    UNCHANGED();
}

/* Tables of no elements may be null, and are refused before all else. */
#define NOTHING                                                                            \
    NULL, 0, NULL, 0, NULL, 0, NULL, 0, NULL, 0, NULL, 0, NULL, 0, NULL, 0

static void check_null_tables(void) {
    size_t a = 77, b = 88;
    IS(azunkefogo_open(NOTHING, NULL, 0), AZUNKEFOGO_TABLE);
    IS(azunkefogo_insert(NOTHING, NULL, 0, &a), AZUNKEFOGO_TABLE);
    IS(azunkefogo_delete(NOTHING, 0), AZUNKEFOGO_TABLE);
    IS(azunkefogo_with_key(NOTHING, NULL, 0, NULL, 0, &a), AZUNKEFOGO_TABLE);
    IS(azunkefogo_retrieve(NOTHING, 0, NULL, 0, NULL, 0, &a, &b), AZUNKEFOGO_TABLE);
    IS(azunkefogo_solve(NOTHING, 0, NULL, 0, NULL, 0, &a, &b), AZUNKEFOGO_TABLE);
    IS(a, 77);
    IS(b, 88);
}

/* An answer of no bytes needs no room, and a copy of the tables is a store of its own. */
static void check_answers(void) {
    azunkefogo_tables *copy = malloc(sizeof *copy);
    uint8_t out[2];
    size_t a = 77, b = 88;
    if (!copy) exit(1);
    IS(azunkefogo_index_retrieve(&tables, AZUNKEFOGO_EQUAL, constant, 2, NULL, 0, &a, &b), 0);
    IS(a, 0);
    IS(b, 0);
    IS(azunkefogo_index_with_key(&tables, constant, 2, NULL, 0, &a), 0);
    memcpy(copy, &tables, sizeof tables);
    memset(&tables, 0, sizeof tables);
    IS(azunkefogo_index_retrieve(copy, AZUNKEFOGO_EQUAL, variable, 2, out, 2, &a, &b), 0);
    IS(a, 1);
    IS(b, 1);
    IS(azunkefogo_number(out, 0), 0);
    free(copy);
}

/* C passes parameters by their places. In check_places and check_sets each call would answer
   something else if two neighbours of one kind were exchanged. Three exchanges change nothing
   and have no such call: the stored term and the question of azunkefogo_unifiable, and the
   tables of sets in azunkefogo_open, which empties all four, and in azunkefogo_solve, which
   reads none. scripts/exported compares those by their names. */
static void check_places(void) {
    static const uint8_t pair[] = {0, 2, 0, 3, 0x80, 0, 0, 1}; /* f(g(x0), b) */
    static const uint8_t same[] = {0, 2, 0x80, 0, 0x80, 0};    /* f(x0, x0) */
    uint8_t out[32];
    size_t a = 77, b = 88;
    IS(azunkefogo_check_term(signature, 4, variable, 2), 0);
    IS(azunkefogo_argument(signature, 4, pair, 8, 2, &a, &b), 0);
    IS(a, 6);
    IS(b, 2);
    IS(azunkefogo_unifiable(signature, 4, constant, 2, variable, 2, &a), 0);
    IS(a, 1);
    IS(azunkefogo_index_open(&tables, signature, 4), 0);
    IS(azunkefogo_index_insert(&tables, pair, 8, &a), 0);
    IS(azunkefogo_index_insert(&tables, constant, 2, &a), 0);
    IS(a, 1);
    /* one candidate, no answer: g(x0) and b are no instance of one variable */
    IS(azunkefogo_index_retrieve(&tables, AZUNKEFOGO_INSTANCE, same, 6, out, sizeof out, &a, &b),
       0);
    IS(a, 1);
    IS(b, 0);
    /* y0 is a: one field of seven bytes */
    IS(azunkefogo_index_solve(&tables, 1, variable, 2, out, sizeof out, &a, &b), 0);
    IS(a, 1);
    IS(b, 7);
    IS(azunkefogo_index_with_key(&tables, constant, 2, out, sizeof out, &a), 0);
    IS(a, 1);
    IS(azunkefogo_number(out, 0), 1);
    /* a slot is no count of elements: 8192 elements and slot 1, not the other way round */
    IS(azunkefogo_index_delete(&tables, 1), 0);
}

/* The tables of sets in the order in which the next call gets them. */
static uint64_t *sets[4];

#define LENT                                                                               \
    tables.bytes, AZUNKEFOGO_BYTES_LENGTH, tables.used, AZUNKEFOGO_USED_LENGTH,            \
    tables.label, AZUNKEFOGO_LABEL_LENGTH, tables.link, AZUNKEFOGO_LINK_LENGTH,            \
    sets[0], AZUNKEFOGO_SETS_LENGTH, sets[1], AZUNKEFOGO_SETS_LENGTH,                      \
    sets[2], AZUNKEFOGO_SETS_LENGTH, sets[3], AZUNKEFOGO_SETS_LENGTH

static void exchange(int i) {
    uint64_t *held = sets[i];
    sets[i] = sets[i + 1];
    sets[i + 1] = held;
}

/* Term t of 400: symbol t / 2, of eight arguments, over eight times constant 200 or 201; and
   the key that its last argument has. Two such terms have 17 keys, so that the 400 need all
   four tables, each 1,024 keys. */
static uint8_t term[18], key[5];

static void make(int t) {
    term[1] = key[1] = (uint8_t)(t / 2);
    for (int i = 1; i < 9; i++) term[2 * i + 1] = (uint8_t)(200 + t % 2);
    key[2] = 8;
    key[4] = term[17];
}

/* The number of slots that have the key of the term made last, or that are equal to it, and
   the first of them; 0 and 0 where there is none. */
static size_t with_key(unsigned *first) {
    uint8_t out[AZUNKEFOGO_MOST_LISTING] = {0};
    size_t count = 0;
    IS(azunkefogo_with_key(LENT, key, 5, out, sizeof out, &count), 0);
    *first = azunkefogo_number(out, 0);
    return count;
}

static size_t equal(unsigned *first) {
    uint8_t out[AZUNKEFOGO_MOST_LISTING] = {0};
    size_t candidates, answers = 0;
    IS(azunkefogo_retrieve(LENT, AZUNKEFOGO_EQUAL, term, 18, out, sizeof out, &candidates,
                           &answers),
       0);
    *first = azunkefogo_number(out, 0);
    return answers;
}

static void check_sets(void) {
    static const int chosen[4] = {60, 180, 260, 390}; /* one term for each table */
    uint8_t arities[202] = {0};
    size_t slot;
    unsigned first;
    memset(arities, 8, 200);
    sets[0] = tables.sets0, sets[1] = tables.sets1, sets[2] = tables.sets2, sets[3] = tables.sets3;
    IS(azunkefogo_open(LENT, arities, sizeof arities), 0);
    for (int t = 0; t < 400; t++) {
        make(t);
        IS(azunkefogo_insert(LENT, term, 18, &slot), 0);
    }
    before = tables;
    for (int i = 0; i < 4; i++) {
        int neighbour = i < 3 ? i : 2;
        make(chosen[i]);
        /* in order, the term is found */
        IS(with_key(&first), 1);
        IS(first, chosen[i]);
        IS(equal(&first), 1);
        IS(first, chosen[i]);
        /* the questions with two tables exchanged find another or none */
        exchange(neighbour);
        IS(with_key(&first) == 1 && first == (unsigned)chosen[i], 0);
        IS(equal(&first), 0);
        exchange(neighbour);
        UNCHANGED();
        /* the same term once more: found twice, but not where it was stored in exchanged tables */
        IS(azunkefogo_insert(LENT, term, 18, &slot), 0);
        IS(slot, 400);
        IS(with_key(&first), 2);
        tables = before;
        exchange(neighbour);
        IS(azunkefogo_insert(LENT, term, 18, &slot), 0);
        exchange(neighbour);
        IS(with_key(&first), 1);
        /* deleted, and another term in its slot: the key is gone, but not from exchanged tables */
        for (int exchanged = 0; exchanged < 2; exchanged++) {
            tables = before;
            if (exchanged) exchange(neighbour);
            IS(azunkefogo_delete(LENT, (size_t)chosen[i]), 0);
            if (exchanged) exchange(neighbour);
            make(0);
            IS(azunkefogo_insert(LENT, term, 18, &slot), 0);
            IS(slot, chosen[i]);
            make(chosen[i]);
            IS(with_key(&first), exchanged);
        }
        tables = before;
    }
}

int main(void) {
    check_opening();
    check_unopened();
    check_refusals();
    check_null_tables();
    check_answers();
    check_places();
    check_sets();
    printf("%d passed, %d failed\n", passed, failed);
    return failed != 0;
}
