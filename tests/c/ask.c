/*
 * Calls soroluzko_ask from C: grants, denials, every refusal with its place and its order, the greatest sizes, empty slices; then
 * random calls beside plain_ask. Buffers are allocated to their exact lengths, so that valgrind sees a byte read past an end.
 */
#include <stdlib.h>
#include <string.h>

#include "harness.h"
#include "plain.h"
#include "soroluzko.h"

/* A policy whose bytes stand in memory of their exact lengths. */
static struct soroluzko_policy policy(size_t n, size_t k, size_t d, const char *assignment, size_t s, const char *table, size_t t) {
    struct soroluzko_policy p = {n, k, d, NULL, s, NULL, t};
    uint8_t *held = s ? malloc(s) : NULL, *cells = t ? malloc(t) : NULL;
    if (s) memcpy(held, assignment, s);
    if (t) memcpy(cells, table, t);
    p.assignment = held;
    p.table = cells;
    return p;
}

static void forget(struct soroluzko_policy p) {
    free((void *)p.assignment);
    free((void *)p.table);
}

static uint64_t ask(const struct soroluzko_policy *p, size_t u, size_t a, size_t v) {
    return soroluzko_policy_ask(p, (struct soroluzko_request){u, a, v});
}

static void answers(const char *what, const struct soroluzko_policy *p, size_t u, size_t a, size_t v, bool granted) {
    uint64_t got = ask(p, u, a, v);
    check(!soroluzko_refused(got) && soroluzko_number(got) == 0 && soroluzko_granted(got) == granted, "%s", what);
    check(got == (granted ? 256 : 0), "%s", what);
}

static void refuses(const char *what, const struct soroluzko_policy *p, size_t u, size_t a, size_t v, unsigned number, size_t place) {
    uint64_t got = ask(p, u, a, v);
    check(soroluzko_refused(got) && soroluzko_number(got) == number && soroluzko_place(got) == place, "%s", what);
    check(!soroluzko_granted(got), "%s", what);
    check(got >> 32 == 0, "%s", what);
}

static void grants_and_denials(void) {
    /* document 01's whole example: 0 and 1 may send to 2, and to nobody else */
    struct soroluzko_policy p = policy(3, 1, 2, "\0\0\1", 3, "\0\1\0\0", 4);
    for (size_t u = 0; u < 3; u++)
        for (size_t v = 0; v < 3; v++) answers("the whole example", &p, u, 0, v, u < 2 && v == 2);
    forget(p);
    /* P9: two rights, and a table that is not its own mirror */
    const char *cells = "\1\1\0\1\1\1\0\0";
    p = policy(2, 2, 2, "\0\1", 2, cells, 8);
    for (size_t u = 0; u < 2; u++)
        for (size_t a = 0; a < 2; a++)
            for (size_t v = 0; v < 2; v++) answers("P9", &p, u, a, v, cells[(u * 2 + a) * 2 + v] == 1);
    forget(p);
}

static void refusals(void) {
    const size_t most = SIZE_MAX;
    struct soroluzko_policy good = policy(3, 1, 2, "\0\0\1", 3, "\0\1\0\0", 4), p;

    p = good, p.n = 65, refuses("n 65", &p, 0, 0, 0, 1, 0);
    p = good, p.n = most, refuses("n greatest", &p, 0, 0, 0, 1, 0);
    p = good, p.k = 0, refuses("k 0", &p, 0, 0, 0, 1, 1);
    p = good, p.k = 9, refuses("k 9", &p, 0, 0, 0, 1, 1);
    p = good, p.k = most, refuses("k greatest", &p, 0, 0, 0, 1, 1);
    p = good, p.d = 65, refuses("d 65", &p, 0, 0, 0, 1, 2);
    p = good, p.d = most, refuses("d greatest", &p, 0, 0, 0, 1, 2);
    p = good, p.assignment_length = 2, refuses("an assignment cut short", &p, 0, 0, 0, 5, 0);
    p = good, p.n = 2, refuses("an assignment too long", &p, 0, 0, 0, 5, 0);
    p = good, p.table_length = 3, refuses("a table cut short", &p, 0, 0, 0, 7, 0);
    p = good, p.d = 1, refuses("a table too long", &p, 0, 0, 0, 7, 0);
    p = good, p.k = 2, refuses("a table for one right", &p, 0, 0, 0, 7, 0);
    refuses("u out of range", &good, 3, 0, 0, 9, 0);
    refuses("u greatest", &good, most, 0, 0, 9, 0);
    refuses("a out of range", &good, 0, 1, 0, 9, 1);
    refuses("a greatest", &good, 0, most, 0, 9, 1);
    refuses("v out of range", &good, 0, 0, 3, 9, 2);
    refuses("v greatest", &good, 0, 0, most, 9, 2);
    forget(good);
}

/* all of it is wrong, and then one thing less at a time */
static void order(void) {
    const size_t most = SIZE_MAX;
    struct soroluzko_policy good = policy(3, 1, 2, "\0\0\1", 3, "\0\1\0\0", 4), p;
    p = good, p.n = most, p.k = most, p.d = most, refuses("all wrong", &p, most, most, most, 1, 0);
    p = good, p.k = most, p.d = most, p.assignment_length = 0, refuses("all but n", &p, most, most, most, 1, 1);
    p = good, p.d = most, p.assignment_length = 0, refuses("all but n, k", &p, most, most, most, 1, 2);
    p = good, p.assignment_length = 0, p.table_length = 0, refuses("all but the sizes", &p, most, most, most, 5, 0);
    p = good, p.table_length = 0, refuses("7 before 9", &p, most, most, most, 7, 0);
    refuses("9 for u first", &good, most, most, most, 9, 0);
    refuses("9 for a before v", &good, 0, most, most, 9, 1);
    forget(good);
}

/* domain numbers, with an odd place that must not read as a grant; and the one cell */
static void stray(void) {
    struct soroluzko_policy p = policy(3, 1, 2, "\2\377\1", 3, "\0\1\0\3", 4);
    refuses("6 for u", &p, 0, 0, 1, 6, 0);
    refuses("9 for a before 6 for u", &p, 0, 1, 1, 9, 1);
    refuses("9 for v before 6 for u", &p, 0, 0, 3, 9, 2);
    refuses("6 for u, at an odd place", &p, 1, 0, 0, 6, 1);
    refuses("6 for v, and no lower one", &p, 2, 0, 1, 6, 1);
    refuses("6 for v", &p, 2, 0, 0, 6, 0);
    refuses("8 for the one cell", &p, 2, 0, 2, 8, 3);
    forget(p);
    p = policy(2, 1, 2, "\0\1", 2, "\2\1\0\377", 4);
    refuses("8 at cell 0", &p, 0, 0, 0, 8, 0);
    answers("no other cell is searched", &p, 0, 0, 1, true);
    answers("no other cell is searched", &p, 1, 0, 0, false);
    refuses("8 at cell 3", &p, 1, 0, 1, 8, 3);
    forget(p);
}

static void edges(void) {
    /* nobody: empty slices, with no memory behind them */
    struct soroluzko_policy p = {0, 1, 0, NULL, 0, NULL, 0};
    refuses("n 0, d 0", &p, 0, 0, 0, 9, 0);
    p.n = 1;
    refuses("n 1 and an empty assignment", &p, 0, 0, 0, 5, 0);
    p.n = 0, p.d = 1;
    refuses("d 1 and an empty table", &p, 0, 0, 0, 7, 0);

    /* one entity and no domain for it */
    p = policy(1, 1, 0, "\0", 1, "", 0);
    refuses("no domain is below 0", &p, 0, 0, 0, 6, 0);
    forget(p);

    /* the largest policy, with a fault in its last cell, and domains without a member */
    uint8_t *assignment = malloc(64), *table = calloc(32768, 1);
    for (size_t u = 0; u < 64; u++) assignment[u] = (uint8_t)u;
    table[32767] = 2;
    table[32766] = 1;
    p = (struct soroluzko_policy){64, 8, 64, assignment, 64, table, 32768};
    refuses("the last cell", &p, 63, 7, 63, 8, 32767);
    answers("the last but one", &p, 63, 7, 62, true);
    answers("a denial at full size", &p, 0, 0, 0, false);
    memset(assignment, 63, 64);
    refuses("all in the last domain", &p, 0, 7, 0, 8, 32767);
    p.n = 1, p.assignment_length = 1;
    answers("d above n", &p, 0, 0, 0, false);

    /* bytes that the answer does not depend on */
    memset(assignment, 255, 64), memset(table, 255, 32768);
    p.n = 64, p.assignment_length = 64;
    assignment[5] = 3, assignment[9] = 4, table[(3 * 8 + 2) * 64 + 4] = 1, table[(4 * 8 + 2) * 64 + 3] = 0;
    answers("whatever stands elsewhere: a grant", &p, 5, 2, 9, true);
    answers("whatever stands elsewhere: a denial", &p, 9, 2, 5, false);
    free(assignment), free(table);
}

static void fixed(void) {
    grants_and_denials();
    refusals();
    order();
    stray();
    edges();
}

/* one policy, asked eight times */
static void random_calls(void) {
    size_t n = number(64), k = number(8), d = number(below(4) ? 4 : 64);
    size_t s = below(32) || n > 64 ? (n > 64 ? below(65) : n) : below(66);
    size_t t = d <= 64 && k <= 8 ? d * k * d : below(40);
    if (below(32) == 0) t = below(t + 2);
    struct bytes assignment = take(s), table = take(t);
    for (size_t j = 0; j < s; j++) assignment.at[j] = (uint8_t)(below(24) ? below(d && d <= 64 ? d : 1) : next());
    for (size_t j = 0; j < t; j++) table.at[j] = (uint8_t)(below(8) ? below(2) : below(4));
    for (int j = 0; j < 8; j++) {
        size_t u = number(n && n <= 64 ? n - 1 : 2), a = number(k && k <= 8 ? k - 1 : 2), v = number(n && n <= 64 ? n - 1 : 2);
        uint64_t got = soroluzko_ask(n, k, d, u, a, v, assignment.at, s, table.at, t);
        uint64_t want = plain_ask(n, k, d, u, a, v, assignment.at, s, table.at, t);
        meet(want, want >> 8 & 1);
        check(got == want, "n %zu k %zu d %zu u %zu a %zu v %zu lengths %zu %zu: %#llx, and plain C says %#llx", n, k, d, u, a, v, s, t,
              (unsigned long long)got, (unsigned long long)want);
    }
    drop(assignment), drop(table);
}

int main(int count, char **words) {
    const unsigned refusals = 1 << 1 | 1 << 5 | 1 << 6 | 1 << 7 | 1 << 8 | 1 << 9;
    const struct test test = {"ask", {"denied", "granted"}, refusals, 200000, fixed, random_calls};
    return run_test(&test, count, words);
}
