/*
 * Calls soroluzko_alike from C: document 01's patterns, every matrix of a few small sizes, every set of faults at once, a fault or a
 * difference at cells of a matrix of full size; then random calls beside plain_alike.
 */
#include "harness.h"
#include "plain.h"
#include "soroluzko.h"

/* One call: the word, what the header takes from it, and a matrix that stays as it was. */
static void alike(const char *what, struct matrix m, size_t u, size_t v, uint64_t want) {
    struct bytes before = copy(m.cells);
    uint64_t got = soroluzko_alike(m.n, m.k, u, v, m.cells.at, m.cells.length);
    check(got == want, "%s: n %zu k %zu u %zu v %zu length %zu: %#llx instead of %#llx; %s", what, m.n, m.k, u, v, m.cells.length,
          (unsigned long long)got, (unsigned long long)want, shown(m.cells));
    check(soroluzko_refused(got) == ((want & 0xff) != 0) && soroluzko_alike_yes(got) == (want == 256), "%s: the header's reading", what);
    check(same(before, m.cells), "%s: the matrix was changed", what);
    drop(before);
}

static void refuses(const char *what, struct matrix m, size_t u, size_t v, unsigned number, size_t place) {
    alike(what, m, u, v, number | (uint64_t)place << 8);
    check(plain_alike(m.n, m.k, u, v, m.cells.at, m.cells.length) == (number | (uint64_t)place << 8), "%s: plain C", what);
}

/* which of the pairs of P1 to P9 are alike: for each u a word of n characters */
static void patterns(void) {
    static const struct {
        const char *name;
        size_t n, k;
        const char *cells, *yes;
    } all[] = {
        {"P1", 0, 1, "", ""},
        {"P2", 1, 1, "1", "1"},
        {"P3", 2, 1, "0110", "10 01"},
        {"P4", 2, 1, "1111", "11 11"},
        {"P5", 2, 1, "0000", "11 11"},
        {"P6", 3, 1, "001 001 000", "110 110 001"},
        {"P7", 3, 1, "000 000 010", "100 010 001"},
        {"P8", 3, 1, "010 000 010", "101 010 101"},
        {"P9", 2, 2, "1101 1100", "10 01"},
    };
    for (size_t i = 0; i < sizeof all / sizeof *all; i++) {
        struct matrix m = {all[i].n, all[i].k, of_text(all[i].cells)};
        struct bytes yes = of_text(all[i].yes);
        for (size_t u = 0; u < m.n; u++)
            for (size_t v = 0; v < m.n; v++) {
                uint64_t want = (uint64_t)yes.at[u * m.n + v] << 8;
                alike(all[i].name, m, u, v, want);
                check(plain_alike(m.n, m.k, u, v, m.cells.at, m.cells.length) == want, "%s: plain C", all[i].name);
            }
        refuses(all[i].name, m, m.n, 0, 9, 0);
        if (m.n) refuses(all[i].name, m, 0, m.n, 9, 1);
        drop(m.cells), drop(yes);
    }
}

/* P10, P15 and P16 */
static void limits(void) {
    struct matrix m = {3, 1, of_text("1** *** **0")};
    refuses("P10", m, 0, 1, 4, 1);
    m.cells.at[5] = 3;
    refuses("P16", m, 0, 1, 3, 5);
    drop(m.cells);
    m = even_matrix(64, 8, 1);
    alike("P15", m, 0, 63, 256);
    m.n = 65, refuses("P15, n 65", m, 0, 0, 1, 0);
    m.n = 64, m.k = 0, refuses("P15, k 0", m, 0, 0, 1, 1);
    m.k = 9, refuses("P15, k 9", m, 0, 0, 1, 1);
    drop(m.cells);
}

/* every matrix of some sizes, every pair */
static void small_ones(void) {
    static const size_t sizes[][2] = {{1, 1}, {1, 3}, {2, 1}, {2, 2}, {2, 3}, {3, 1}, {4, 1}};
    for (size_t i = 0; i < sizeof sizes / sizeof *sizes; i++) {
        size_t n = sizes[i][0], k = sizes[i][1];
        for (uint64_t bits = 0; bits >> (n * k * n) == 0; bits += every(n * k * n > 9 ? 331 : 1)) {
            struct matrix m = bit_matrix(n, k, bits);
            for (size_t u = 0; u < n; u++)
                for (size_t v = 0; v < n; v++)
                    alike("a small matrix", m, u, v, plain_alike(n, k, u, v, m.cells.at, m.cells.length));
            drop(m.cells);
        }
    }
}

/* Every set of faults, each made in several ways: the first in document 01's order is given. */
static void faults_at_once(void) {
    enum { N, K, LENGTH, ABOVE, GAP, U, V, FAULTS };
    static const size_t n[] = {65, 256, (size_t)1 << 32, SIZE_MAX}, k[] = {0, 9, (size_t)1 << 61, SIZE_MAX}, length[] = {17, 19, 0, 36};
    static const size_t out[] = {3, 4, (size_t)1 << 32, SIZE_MAX};
    static const uint8_t above[] = {3, 4, 128, 255};
    for (unsigned set = 0; set < 1 << FAULTS; set++)
        for (unsigned how = 0; how < 4; how++) {
            struct matrix m = {3, 2, take(set >> LENGTH & 1 ? length[how] : 18)};
            size_t high = how < 2 ? 16 : 1, gap = how < 2 ? 0 : 17; /* the fault is before the gap, or behind it */
            for (size_t i = 0; i < m.cells.length; i++)
                m.cells.at[i] = set >> ABOVE & 1 && i == high ? above[how] : set >> GAP & 1 && i == gap ? 2 : 1;
            if (set >> N & 1) m.n = n[how];
            if (set >> K & 1) m.k = k[how];
            size_t u = set >> U & 1 ? out[how] : 0, v = set >> V & 1 ? out[how] : 2;
            if (set >> N & 1) refuses("faults at once", m, u, v, 1, 0);
            else if (set >> K & 1) refuses("faults at once", m, u, v, 1, 1);
            else if (set >> LENGTH & 1) refuses("faults at once", m, u, v, 2, 0);
            else if (set >> ABOVE & 1) refuses("faults at once", m, u, v, 3, high);
            else if (set >> GAP & 1) refuses("faults at once", m, u, v, 4, gap);
            else if (set >> U & 1) refuses("faults at once", m, u, v, 9, 0);
            else if (set >> V & 1) refuses("faults at once", m, u, v, 9, 1);
            else alike("no fault", m, u, v, 256);
            drop(m.cells);
        }
    /* sizes whose product is 0 in 64 bits, with nothing lent; and entities of a matrix without any */
    refuses("n 2^32", (struct matrix){(size_t)1 << 32, 1, take(0)}, 0, 0, 1, 0);
    refuses("n 8, k 2^58", (struct matrix){8, (size_t)1 << 58, take(0)}, 0, 0, 1, 1);
    refuses("n 64 and nothing lent", (struct matrix){64, 8, take(0)}, 0, 0, 2, 0);
    refuses("n 0", (struct matrix){0, 8, take(0)}, 0, 0, 9, 0);
    refuses("n 0", (struct matrix){0, 8, take(0)}, SIZE_MAX, SIZE_MAX, 9, 0);
}

/* At full size: a difference, a gap or a fault at one cell in seven. */
static void full_size(void) {
    struct matrix m = even_matrix(64, 8, 0);
    for (size_t i = 0; i < m.cells.length; i += 7 * every(31)) { /* the first cell and the last are among them */
        size_t u = i / 512, v = i % 64, x = below(64), y = below(64), gap = below(i + 1), pairs[][2] = {{u, v}, {x, u}, {v, x}, {x, y}};
        m.cells.at[i] = 1; /* u and v are now like nobody else, and not like each other */
        for (int j = 0; j < 4; j++) {
            size_t p = pairs[j][0], q = pairs[j][1];
            alike("a cell that differs", m, p, q, p == q || (p != u && p != v && q != u && q != v) ? 256 : 0);
        }
        m.cells.at[i] = 2;
        alike("a gap", m, x, y, 4 | i << 8);
        m.cells.at[gap] = 2, m.cells.at[i] = 3;
        alike("a fault and a gap before it", m, x, y, 3 | i << 8);
        m.cells.at[gap] = m.cells.at[i] = 0;
    }
    drop(m.cells);
}

static void fixed(void) {
    patterns();
    limits();
    small_ones();
    faults_at_once();
    full_size();
}

/* one matrix: a pair of any numbers, and two entities beside each other */
static void random_calls(void) {
    struct matrix m = any_matrix();
    if (below(8) == 0) spoil(m, false);
    if (below(8) == 0) spoil(m, true);
    size_t most = m.n && m.n <= 64 ? m.n - 1 : 2;
    for (size_t i = 0; i < 4 + 2 * (fits(m) ? m.n : 0); i++) {
        size_t u = number(most), v = number(most);
        if (i >= 4) u = i % 2 ? below(m.n) : u, v = (i - 4) / 2;
        uint64_t want = plain_alike(m.n, m.k, u, v, m.cells.at, m.cells.length);
        meet(want, want >> 8 & 1);
        alike("random", m, u, v, want);
        if ((want & 0xff) && i >= 4) break; /* one refusal of a matrix is enough */
    }
    drop(m.cells);
}

int main(int count, char **words) {
    const struct test test = {"alike", {"no", "yes"}, 1 << 1 | 1 << 2 | 1 << 3 | 1 << 4 | 1 << 9, 6000, fixed, random_calls};
    return run_test(&test, count, words);
}
