/*
 * azunkefogo: an index of first-order terms, with the calls of the archive libexport.a.
 *
 * The caller lends all memory; nothing is allocated and nothing is kept between two calls.
 * Every call answers 0, or the number of the refusal. A refused call changes nothing: no
 * table, no answer buffer and no number behind a pointer. docs/MANUAL.md tells the rest.
 *
 * What the caller owes: every area is a pointer and a count of elements; the pointer is aligned
 * and points to as many elements as the count says, or may be null where the count is 0. A
 * pointer to a number that is written is not null. An area or number that a call writes must not
 * overlap any other area or number of that call.
 */
#ifndef AZUNKEFOGO_H
#define AZUNKEFOGO_H

#include <stddef.h>
#include <stdint.h>

#ifdef __cplusplus
extern "C" {
#endif

/* The archive is for machines with 64-bit sizes; elsewhere this line does not compile. */
typedef char azunkefogo_size_has_64_bits[sizeof(size_t) == 8 ? 1 : -1];

/* Lengths of the tables, in elements. A longer table will do; a shorter one is refused. */
#define AZUNKEFOGO_BYTES_LENGTH 33538
#define AZUNKEFOGO_USED_LENGTH 8
#define AZUNKEFOGO_LABEL_LENGTH 4096
#define AZUNKEFOGO_LINK_LENGTH 8190
#define AZUNKEFOGO_SETS_LENGTH 8192

/* Limits. */
#define AZUNKEFOGO_MOST_SYMBOLS 256      /* bytes of a signature */
#define AZUNKEFOGO_MOST_ARITY 8          /* arguments of a symbol */
#define AZUNKEFOGO_MOST_VARIABLES 32     /* variables of a term */
#define AZUNKEFOGO_MOST_TERM_ITEMS 32    /* items of a term or question */
#define AZUNKEFOGO_MOST_TERM_BYTES 64    /* bytes of a term or question */
#define AZUNKEFOGO_MOST_KEY_BYTES 95     /* 31 steps of three bytes, and two */
#define AZUNKEFOGO_MOST_SLOTS 512        /* stored terms */
#define AZUNKEFOGO_MOST_KEYS 4096        /* distinct keys of all stored terms */
#define AZUNKEFOGO_MOST_VALUE_ITEMS 2048 /* items of a value in a record */
#define AZUNKEFOGO_MOST_LISTING 1024     /* bytes of any listing: room that always suffices */
#define AZUNKEFOGO_MOST_RECORD 262464    /* bytes of any record: room that always suffices */

/* Parts of term bytes, key bytes and records. */
#define AZUNKEFOGO_VARIABLE 0x8000 /* variable v is this plus v */
#define AZUNKEFOGO_QUESTION 32     /* in a record, question variable v has number 32 + v */
#define AZUNKEFOGO_STAR 0xFFFF     /* the end of a key: any variable */
#define AZUNKEFOGO_FIELD 0x10      /* the tag of a record's field */

/* Why a call is refused. Of the reasons that apply, the first in rank is given; for the
   numbers 1 to 16 the rank is the order of the numbers. */
enum azunkefogo_refusal {
    AZUNKEFOGO_TABLE = 1,    /* a lent table is too short */
    AZUNKEFOGO_SIG = 2,      /* a signature of 0 or over 256 bytes, or an arity above 8 */
    AZUNKEFOGO_RELATION = 3, /* a relation above 4 */
    AZUNKEFOGO_SLOT = 4,     /* a slot above 511 or not in use */
    AZUNKEFOGO_SIZE = 5,     /* a term of over 64 bytes */
    AZUNKEFOGO_ODD = 6,      /* a term of no bytes or of an odd count */
    AZUNKEFOGO_SYMBOL = 7,   /* an item that is neither a declared symbol nor a variable */
    AZUNKEFOGO_SHAPE = 8,    /* the items end inside a term, or go on after it */
    AZUNKEFOGO_KEY = 9,      /* bytes that are no key */
    AZUNKEFOGO_ARG = 10,     /* an argument number of 0 or above the arity */
    AZUNKEFOGO_FULL = 11,    /* all 512 slots are in use */
    AZUNKEFOGO_KEYS = 12,    /* the stored terms would have over 4,096 distinct keys */
    AZUNKEFOGO_NONE = 13,    /* there is no unifier */
    AZUNKEFOGO_LONG = 14,    /* a value of the unifier has over 2,048 items */
    AZUNKEFOGO_ROOM = 15,    /* the answer buffer is shorter than the answer */
    AZUNKEFOGO_LOG = 16      /* a faulty log: given by the program replay only */
};

/* How a stored term shall stand to the question. */
enum azunkefogo_relation {
    AZUNKEFOGO_EQUAL = 0,          /* the same bytes */
    AZUNKEFOGO_VARIANT = 1,        /* variables for variables turn the question into it */
    AZUNKEFOGO_INSTANCE = 2,       /* a substitution turns the question into it */
    AZUNKEFOGO_GENERALIZATION = 3, /* a substitution turns it into the question */
    AZUNKEFOGO_UNIFIABLE = 4       /* with variables apart, a substitution makes both the same */
};

/* All tables in one object. What they hold is the library's own affair. */
typedef struct azunkefogo_tables {
    uint8_t bytes[AZUNKEFOGO_BYTES_LENGTH];
    uint64_t used[AZUNKEFOGO_USED_LENGTH];
    uint32_t label[AZUNKEFOGO_LABEL_LENGTH];
    uint16_t link[AZUNKEFOGO_LINK_LENGTH];
    uint64_t sets0[AZUNKEFOGO_SETS_LENGTH];
    uint64_t sets1[AZUNKEFOGO_SETS_LENGTH];
    uint64_t sets2[AZUNKEFOGO_SETS_LENGTH];
    uint64_t sets3[AZUNKEFOGO_SETS_LENGTH];
} azunkefogo_tables;

/* ---- Calls without tables ------------------------------------------------------------- */

/* Is this a signature? Refuses with 2. Writes nothing. */
uint32_t azunkefogo_check_signature(const uint8_t *signature, size_t signature_count);

/* Is this a term over a checked signature? Refuses with 5 to 8. Writes nothing. */
uint32_t azunkefogo_check_term(const uint8_t *signature, size_t signature_count,
                               const uint8_t *term, size_t term_count);

/* Where argument i of a term starts within its bytes, and how many bytes it has; the first
   argument is 1. Refuses with 5 to 8 and 10, and then leaves both numbers. */
uint32_t azunkefogo_argument(const uint8_t *signature, size_t signature_count,
                             const uint8_t *term, size_t term_count, size_t i,
                             size_t *start, size_t *length);

/* Are a stored term and a question unifiable, their variables apart? Writes 1 or 0. Refuses with
   2, and with 5 to 8 (the first in rank over both terms), and then leaves the answer. */
uint32_t azunkefogo_unifiable(const uint8_t *signature, size_t signature_count,
                              const uint8_t *stored, size_t stored_count,
                              const uint8_t *question, size_t question_count, size_t *answer);

/* ---- Calls on eight lent tables, each with its length ---------------------------------- */

#define AZUNKEFOGO_LENT(kind)                                                              \
    kind uint8_t *bytes, size_t bytes_count, kind uint64_t *used, size_t used_count,       \
    kind uint32_t *label, size_t label_count, kind uint16_t *link, size_t link_count,      \
    kind uint64_t *sets0, size_t sets0_count, kind uint64_t *sets1, size_t sets1_count,    \
    kind uint64_t *sets2, size_t sets2_count, kind uint64_t *sets3, size_t sets3_count
#define AZUNKEFOGO_WRITTEN
#define AZUNKEFOGO_READ const

/* Sets the signature and empties the store, whatever the tables held. Refuses with 1 and 2,
   and then leaves the tables, and so the store, as they were. */
uint32_t azunkefogo_open(AZUNKEFOGO_LENT(AZUNKEFOGO_WRITTEN),
                         const uint8_t *signature, size_t signature_count);

/* Stores a term in the smallest slot not in use and answers that slot. Refuses with 1, 5 to
   8, 11 and 12, and then leaves the tables and the number. */
uint32_t azunkefogo_insert(AZUNKEFOGO_LENT(AZUNKEFOGO_WRITTEN),
                           const uint8_t *term, size_t term_count, size_t *slot);

/* Frees a slot. Refuses with 1 and 4, and then leaves the tables. */
uint32_t azunkefogo_delete(AZUNKEFOGO_LENT(AZUNKEFOGO_WRITTEN), size_t slot);

/* Lists the slots whose term has the key, ascending, two bytes each, and answers how many.
   Refuses with 1, 9 and 15, and then leaves the buffer and the number. Reads the tables. */
uint32_t azunkefogo_with_key(AZUNKEFOGO_LENT(AZUNKEFOGO_READ),
                             const uint8_t *key, size_t key_count,
                             uint8_t *out, size_t out_count, size_t *count);

/* Lists the slots whose term stands in the relation to the question, ascending, two bytes
   each, and answers how many candidates and how many answers there are. Refuses with 1, 3, 5
   to 8 and 15, and then leaves the buffer and both numbers. Reads the tables. */
uint32_t azunkefogo_retrieve(AZUNKEFOGO_LENT(AZUNKEFOGO_READ), size_t relation,
                             const uint8_t *question, size_t question_count,
                             uint8_t *out, size_t out_count,
                             size_t *candidates, size_t *answers);

/* Writes the most general unifier of a slot's term and the question as a record, and answers
   its fields and its bytes. Refuses with 1, 4, 5 to 8 and 13 to 15, and then leaves the
   buffer and both numbers. Reads the tables. */
uint32_t azunkefogo_solve(AZUNKEFOGO_LENT(AZUNKEFOGO_READ), size_t slot,
                          const uint8_t *question, size_t question_count,
                          uint8_t *out, size_t out_count,
                          size_t *fields, size_t *written);

#undef AZUNKEFOGO_LENT
#undef AZUNKEFOGO_WRITTEN
#undef AZUNKEFOGO_READ

/* ---- The same calls on one object that holds all tables -------------------------------- */

#define AZUNKEFOGO_ALL(t)                                                                  \
    (t)->bytes, AZUNKEFOGO_BYTES_LENGTH, (t)->used, AZUNKEFOGO_USED_LENGTH,                \
    (t)->label, AZUNKEFOGO_LABEL_LENGTH, (t)->link, AZUNKEFOGO_LINK_LENGTH,                \
    (t)->sets0, AZUNKEFOGO_SETS_LENGTH, (t)->sets1, AZUNKEFOGO_SETS_LENGTH,                \
    (t)->sets2, AZUNKEFOGO_SETS_LENGTH, (t)->sets3, AZUNKEFOGO_SETS_LENGTH

/* azunkefogo_open; the object need not be set to anything before. */
static inline uint32_t azunkefogo_index_open(azunkefogo_tables *tables,
                                             const uint8_t *signature, size_t signature_count) {
    return azunkefogo_open(AZUNKEFOGO_ALL(tables), signature, signature_count);
}

/* azunkefogo_insert. */
static inline uint32_t azunkefogo_index_insert(azunkefogo_tables *tables,
                                               const uint8_t *term, size_t term_count,
                                               size_t *slot) {
    return azunkefogo_insert(AZUNKEFOGO_ALL(tables), term, term_count, slot);
}

/* azunkefogo_delete. */
static inline uint32_t azunkefogo_index_delete(azunkefogo_tables *tables, size_t slot) {
    return azunkefogo_delete(AZUNKEFOGO_ALL(tables), slot);
}

/* azunkefogo_with_key; AZUNKEFOGO_MOST_LISTING bytes of room are never refused with 15. */
static inline uint32_t azunkefogo_index_with_key(const azunkefogo_tables *tables,
                                                 const uint8_t *key, size_t key_count,
                                                 uint8_t *out, size_t out_count,
                                                 size_t *count) {
    return azunkefogo_with_key(AZUNKEFOGO_ALL(tables), key, key_count, out, out_count, count);
}

/* azunkefogo_retrieve; AZUNKEFOGO_MOST_LISTING bytes of room are never refused with 15. */
static inline uint32_t azunkefogo_index_retrieve(const azunkefogo_tables *tables,
                                                 enum azunkefogo_relation relation,
                                                 const uint8_t *question, size_t question_count,
                                                 uint8_t *out, size_t out_count,
                                                 size_t *candidates, size_t *answers) {
    return azunkefogo_retrieve(AZUNKEFOGO_ALL(tables), (size_t)relation, question,
                               question_count, out, out_count, candidates, answers);
}

/* azunkefogo_solve; AZUNKEFOGO_MOST_RECORD bytes of room are never refused with 15. */
static inline uint32_t azunkefogo_index_solve(const azunkefogo_tables *tables, size_t slot,
                                              const uint8_t *question, size_t question_count,
                                              uint8_t *out, size_t out_count,
                                              size_t *fields, size_t *written) {
    return azunkefogo_solve(AZUNKEFOGO_ALL(tables), slot, question, question_count,
                            out, out_count, fields, written);
}

#undef AZUNKEFOGO_ALL

/* The two-byte number at a place: item i of term bytes, or slot i of a listing, has place 2 * i. */
static inline unsigned azunkefogo_number(const uint8_t *bytes, size_t place) {
    return (unsigned)bytes[place] * 256u + bytes[place + 1];
}

#ifdef __cplusplus
}
#endif

#endif
