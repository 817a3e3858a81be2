#include <stdarg.h>
#include <stdio.h>
#include <stdlib.h>
#include <string.h>

#include "harness.h"

unsigned long checks;
static unsigned long faults, met[32];
static const char *name;
static bool whole, in_round;
static uint64_t seed, state;

void fault(const char *format, ...) {
    if (faults++ >= 20) return;
    va_list rest;
    va_start(rest, format);
    printf("FAULT ");
    vprintf(format, rest);
    va_end(rest);
    if (in_round) printf("; again by: %s 1 %llu", name, (unsigned long long)seed);
    printf("\n");
}

void meet(uint64_t word, unsigned kind) { met[word & 0xff ? word & 15 : 16 + kind]++; }

size_t every(size_t n) { return whole ? 1 : n; }

int run_test(const struct test *test, int count, char **words) {
    unsigned long rounds = count > 1 ? strtoul(words[1], NULL, 10) : test->rounds;
    uint64_t first = count > 2 ? strtoull(words[2], NULL, 10) : 20261115;
    setvbuf(stdout, NULL, _IOLBF, 0); /* what was said is seen even if a call ends the program */
    name = test->name, whole = rounds >= test->rounds;
    state = first;
    test->fixed();
    in_round = true;
    for (unsigned long i = 0; i < rounds; i++) {
        state = seed = first + i;
        state = next();
        test->random();
    }
    in_round = false;
    printf("random calls: %lu %s, %lu %s; refused", met[16], test->kinds[0], met[17], test->kinds[1]);
    for (unsigned i = 1; i < 16; i++)
        if (met[i]) printf(" %u: %lu", i, met[i]);
    printf("\n");
    for (unsigned i = 1; i < 18 && whole; i++)
        if (i > 15 || test->refusals >> i & 1) check(met[i] != 0, "no random call met the answer %u", i);
    printf("%s from C: %lu checks, %lu faults (%lu rounds from seed %llu)\n", name, checks, faults, rounds, (unsigned long long)first);
    return faults != 0;
}

/* ---- random numbers */

uint64_t next(void) {
    uint64_t z = state += 0x9e3779b97f4a7c15;
    z = (z ^ z >> 30) * 0xbf58476d1ce4e5b9;
    z = (z ^ z >> 27) * 0x94d049bb133111eb;
    return z ^ z >> 31;
}

size_t below(size_t n) { return (size_t)(next() >> 33) % n; }

size_t number(size_t most) {
    size_t kind = below(64);
    return kind == 0 ? SIZE_MAX - below(3) : kind == 1 ? most + 1 : below(most + 1);
}

size_t room(size_t need) {
    size_t kind = below(16);
    return kind > 1 ? need + below(24) * below(2) : need == 0 ? 0 : kind == 1 ? need - 1 : below(need);
}

/* ---- memory */

/* no call writes such a byte */
static uint8_t poison(size_t i) { return (uint8_t)(128 | (29 * i + 5)); }

static struct bytes block_of(size_t length, size_t behind) {
    struct bytes b = {NULL, length, length + behind, NULL};
    size_t before = below(8); /* no call may count on where a slice starts */
    if (b.held == 0) return b;
    b.block = malloc(before + b.held);
    if (b.block == NULL) abort();
    b.at = b.block + before;
    return b;
}

struct bytes take(size_t length) { return block_of(length, 0); }

struct bytes copy(struct bytes b) {
    struct bytes c = take(b.length);
    if (b.length) memcpy(c.at, b.at, b.length);
    return c;
}

struct bytes of_text(const char *cells) {
    size_t length = 0;
    for (const char *c = cells; *c; c++) length += (*c >= '0' && *c <= '9') || *c == '*';
    struct bytes b = take(length);
    for (size_t i = 0; *cells; cells++) {
        if (*cells == '*') b.at[i++] = 2;
        if (*cells >= '0' && *cells <= '9') b.at[i++] = (uint8_t)(*cells - '0');
    }
    return b;
}

struct bytes of_characters(const char *characters) {
    struct bytes b = take(strlen(characters));
    if (b.length) memcpy(b.at, characters, b.length);
    return b;
}

struct bytes lend(size_t length) {
    struct bytes b = block_of(length, below(2) * 16);
    for (uint8_t *c = b.block; c < b.at; c++) *c = poison(0);
    for (size_t i = 0; i < b.held; i++) b.at[i] = poison(i);
    return b;
}

bool kept(struct bytes b, size_t from) {
    for (uint8_t *c = b.block; c < b.at; c++)
        if (*c != poison(0)) return false;
    for (size_t i = from; i < b.held; i++)
        if (b.at[i] != poison(i)) return false;
    return true;
}

bool same(struct bytes b, struct bytes c) { return b.length == c.length && (b.length == 0 || memcmp(b.at, c.at, b.length) == 0); }

void drop(struct bytes b) { free(b.block); }

const char *shown(struct bytes b) {
    static char text[4][300]; /* a fault shows up to four */
    static unsigned turn;
    char *t = text[turn++ % 4], *end = t;
    if (b.length > 64) return snprintf(t, 300, "(%zu bytes)", b.length), t;
    *end = 0;
    for (size_t i = 0; i < b.length; i++) end += sprintf(end, i ? " %u" : "%u", b.at[i]);
    return t;
}

/* ---- matrices */

size_t cell_at(struct matrix m, size_t u, size_t a, size_t v) { return (u * m.k + a) * m.n + v; }

struct matrix even_matrix(size_t n, size_t k, uint8_t value) {
    struct matrix m = {n, k, take(n * k * n)};
    if (m.cells.length) memset(m.cells.at, value, m.cells.length);
    return m;
}

struct matrix bit_matrix(size_t n, size_t k, uint64_t bits) {
    struct matrix m = {n, k, take(n * k * n)};
    for (size_t i = 0; i < m.cells.length; i++) m.cells.at[i] = bits >> i & 1;
    return m;
}

static void flip(struct matrix m, size_t u, size_t a, size_t v) { m.cells.at[cell_at(m, u, a, v)] ^= 1; }

struct matrix full_matrix(size_t n, size_t k) {
    struct matrix m = {n, k, take(n * k * n)};
    if (n == 0) return m;
    size_t kind = below(8), classes = 1 + below(below(3) ? (n < 6 ? n : 6) : n), one_in = below(2) ? 2 : 8;
    static uint8_t table[64 * 8 * 64];
    size_t class_of[64];
    for (size_t i = 0; i < classes * k * classes; i++) table[i] = below(one_in) == 0;
    for (size_t u = 0; u < n; u++) class_of[u] = below(classes);
    for (size_t u = 0; u < n; u++)
        for (size_t a = 0; a < k; a++)
            for (size_t v = 0; v < n; v++) {
                size_t p = kind == 0 ? 0 : class_of[u], q = kind == 1 ? 0 : class_of[v]; /* rows equal; columns equal */
                m.cells.at[cell_at(m, u, a, v)] = kind == 2 ? below(2) : table[(p * k + a) * classes + q];
            }
    /* near misses: a few cells anywhere; the own cells of two that share a class; one entity's loop at every right */
    if (kind == 3 || kind == 4)
        for (size_t i = kind == 3 ? 1 : 1 + below(4); i > 0; i--) m.cells.at[below(m.cells.length)] ^= 1;
    size_t u = below(n), v = below(n), a = below(k);
    for (size_t i = 0; i < n && class_of[v] != class_of[u]; i++) v = (v + 1) % n;
    if (kind == 5) flip(m, below(2) ? u : v, a, below(2) ? u : v);
    if (kind == 6) flip(m, u, a, v), flip(m, v, a, u);
    if (kind == 7)
        for (a = 0; a < k; a++) flip(m, u, a, u);
    return m;
}

bool fits(struct matrix m) { return m.n <= 64 && m.k >= 1 && m.k <= 8 && m.cells.length == m.n * m.k * m.n; }

struct matrix any_matrix(void) {
    size_t n = below(2) ? number(64) : number(9), k = number(8), length = below(40);
    if (n <= 64 && k >= 1 && k <= 8) {
        if (below(24)) return full_matrix(n, k);
        length = n * k * n;
        length = below(3) == 0 ? length + 1 : below(2) && length ? length - 1 : below(length + 1);
    }
    struct matrix m = {n, k, take(length)};
    for (size_t i = 0; i < length; i++) m.cells.at[i] = below(2);
    return m;
}

void spoil(struct matrix m, bool above) {
    for (size_t i = 1 + below(3); i > 0 && m.cells.length; i--)
        m.cells.at[below(4) ? below(m.cells.length) : m.cells.length - 1] = (uint8_t)(above ? 3 + below(253) : 2);
}
