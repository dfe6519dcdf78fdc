// The deepest stack of each call: every call runs on a painted stack of its own, on the inputs that go deepest.
// Build and run: bench/stack
#include <stdint.h>
#include <stdio.h>
#include <string.h>
#include <ucontext.h>

typedef struct { uint8_t bytes[33538]; uint64_t used[8]; uint32_t label[4096]; uint16_t link[8190]; uint64_t sets[4][8192]; } Tables;
#define TABLES uint8_t *, size_t, uint64_t *, size_t, uint32_t *, size_t, uint16_t *, size_t, \
    uint64_t *, size_t, uint64_t *, size_t, uint64_t *, size_t, uint64_t *, size_t
#define LENT T.bytes, 33538, T.used, 8, T.label, 4096, T.link, 8190, T.sets[0], 8192, T.sets[1], 8192, T.sets[2], 8192, T.sets[3], 8192
uint32_t azunkefogo_check_term(const uint8_t *, size_t, const uint8_t *, size_t);
uint32_t azunkefogo_open(TABLES, const uint8_t *, size_t);
uint32_t azunkefogo_insert(TABLES, const uint8_t *, size_t, size_t *);
uint32_t azunkefogo_delete(TABLES, size_t);
uint32_t azunkefogo_with_key(TABLES, const uint8_t *, size_t, uint8_t *, size_t, size_t *);
uint32_t azunkefogo_retrieve(TABLES, size_t, const uint8_t *, size_t, uint8_t *, size_t, size_t *, size_t *);
uint32_t azunkefogo_solve(TABLES, size_t, const uint8_t *, size_t, uint8_t *, size_t, size_t *, size_t *);

static Tables T;
static uint8_t out[300000], stack[1 << 20];
static const uint8_t sig[] = {0, 0, 2, 1};
static uint8_t term[64], key[95];
static size_t n, relation, a, b;
static const char *call;
static uint32_t answer;
static ucontext_t home, there;

static void make(void) {
    if (!strcmp(call, "check_term")) answer = azunkefogo_check_term(sig, 4, term, n);
    if (!strcmp(call, "open")) answer = azunkefogo_open(LENT, sig, 4);
    if (!strcmp(call, "insert")) answer = azunkefogo_insert(LENT, term, n, &a);
    if (!strcmp(call, "delete")) answer = azunkefogo_delete(LENT, a);
    if (!strcmp(call, "with_key")) answer = azunkefogo_with_key(LENT, key, 95, out, sizeof out, &a);
    if (!strcmp(call, "retrieve")) answer = azunkefogo_retrieve(LENT, relation, term, n, out, sizeof out, &a, &b);
    if (!strcmp(call, "solve")) answer = azunkefogo_solve(LENT, 0, term, n, out, sizeof out, &a, &b);
}

static void measure(const char *name, const char *what) {
    call = name;
    memset(stack, 0xA5, sizeof stack);
    getcontext(&there);
    there.uc_stack.ss_sp = stack;
    there.uc_stack.ss_size = sizeof stack;
    there.uc_link = &home;
    makecontext(&there, make, 0);
    swapcontext(&home, &there);
    size_t free = 0;
    while (free < sizeof stack && stack[free] == 0xA5) free++;
    printf("%-10s %-34s answer %2u, stack %6zu bytes\n", name, what, answer, sizeof stack - free);
}

// 31 times g, then an item
static void chain(uint16_t last) {
    for (n = 0; n < 62; n += 2) { term[n] = 0; term[n + 1] = 3; }
    term[62] = last >> 8;
    term[63] = last & 255;
    n = 64;
}

// f(t0, f(t1, .. a)): for the stored side x0, g(x1), x1, g(x2), .. and for the question g(x0), x0, g(x1), x1, ..:
// each variable is bound to g of the next one of the other side
static void links(int question) {
    n = 0;
    for (int i = 0; i < 12; i++) {
        int deep = (i + question) % 2;
        term[n++] = 0; term[n++] = 2;
        if (deep) { term[n++] = 0; term[n++] = 3; }
        term[n++] = 0x80; term[n++] = question ? i / 2 : (i + 1) / 2;
    }
    term[n++] = 0; term[n++] = 0;
}

int main(void) {
    measure("open", "4 symbols");
    chain(0x8000);
    measure("check_term", "32 levels");
    chain(3);
    measure("check_term", "32 levels, ends inside the term");
    measure("insert", "32 levels, ends inside the term");
    chain(0x8000);
    measure("insert", "32 levels");
    for (relation = 0; relation < 5; relation++) measure("retrieve", "32 levels");
    measure("solve", "32 levels");
    for (int i = 0; i < 31; i++) { key[3 * i] = 0; key[3 * i + 1] = 3; key[3 * i + 2] = 1; }
    key[93] = key[94] = 255;
    measure("with_key", "31 steps");
    a = 0;
    measure("delete", "32 levels");
    links(0);
    measure("insert", "a chain of variables");
    links(1);
    relation = 4;
    measure("retrieve", "bindings followed 12 deep");
    measure("solve", "bindings followed 12 deep");
    return 0;
}
