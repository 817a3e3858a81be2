/*
 * Calls soroluzko_build from C: document 01's patterns, every matrix of a few small sizes, every set of faults at once, a fault or a
 * difference at the cells of a matrix of full size; then random calls beside plain_build, and what the other calls say to what was
 * built. Both buffers are full of other bytes before each call, often longer than needed, and every byte is looked at after it.
 */
#include <string.h>

#include "harness.h"
#include "plain.h"
#include "soroluzko.h"

struct wanted {
    uint64_t word;
    uint8_t assignment[64], table[64 * 8 * 64];
};

static struct wanted wanted; /* by plain_build */

/* One call with buffers of s and t bytes: the word, what the header takes from it, and every byte. */
static void build(const char *what, struct matrix m, size_t s, size_t t, const struct wanted *want) {
    struct bytes before = copy(m.cells), assignment = lend(s), table = lend(t);
    uint64_t got = soroluzko_build(m.n, m.k, m.cells.at, m.cells.length, assignment.at, s, table.at, t);
    bool refused = (want->word & 0xff) != 0;
    size_t d = refused ? 0 : (size_t)want->word >> 8, bytes = refused ? 0 : m.n, cells = refused ? 0 : d * m.k * d;
    check(got == want->word, "%s: n %zu k %zu lengths %zu %zu %zu: %#llx instead of %#llx; %s", what, m.n, m.k, m.cells.length, s, t,
          (unsigned long long)got, (unsigned long long)want->word, shown(m.cells));
    check(soroluzko_refused(got) == refused && (refused || soroluzko_domains(got) == d), "%s: the header's reading", what);
    check(bytes == 0 || memcmp(assignment.at, want->assignment, bytes) == 0, "%s: n %zu k %zu: the assignment is %s; %s", what, m.n, m.k,
          shown(assignment), shown(m.cells));
    check(cells == 0 || memcmp(table.at, want->table, cells) == 0, "%s: n %zu k %zu d %zu: the table is %s; %s", what, m.n, m.k, d,
          shown(table), shown(m.cells));
    check(kept(assignment, bytes), "%s: n %zu k %zu s %zu: a byte of the assignment's buffer did not stay", what, m.n, m.k, s);
    check(kept(table, cells), "%s: n %zu k %zu d %zu t %zu: a byte of the table's buffer did not stay", what, m.n, m.k, d, t);
    check(same(before, m.cells), "%s: the matrix was changed", what);
    drop(before), drop(assignment), drop(table);
}

/* The same, beside plain_build. */
static uint64_t beside(const char *what, struct matrix m, size_t s, size_t t) {
    wanted.word = plain_build(m.n, m.k, m.cells.at, m.cells.length, wanted.assignment, s, wanted.table, t);
    build(what, m, s, t, &wanted);
    return wanted.word;
}

static void refuses(const char *what, struct matrix m, size_t s, size_t t, unsigned number, size_t place) {
    uint64_t want = number | (uint64_t)place << 8;
    check(beside(what, m, s, t) == want, "%s: plain C", what);
}

static void patterns(void) {
    static const struct {
        const char *name;
        size_t n, k;
        const char *cells;
        size_t d;
        const char *assignment, *table;
    } all[] = {
        {"P1", 0, 1, "", 0, "", ""},
        {"P2", 1, 1, "1", 1, "0", "1"},
        {"P3", 2, 1, "0110", 2, "01", "0110"},
        {"P4", 2, 1, "1111", 1, "00", "1"},
        {"P5", 2, 1, "0000", 1, "00", "0"},
        {"P6", 3, 1, "001 001 000", 2, "001", "0100"},
        {"P7", 3, 1, "000 000 010", 3, "012", "000000010"},
        {"P8", 3, 1, "010 000 010", 2, "010", "0100"},
        {"P9", 2, 2, "1101 1100", 2, "01", "11011100"},
        {"the last two alone are alike", 3, 1, "111 100 100", 2, "011", "1110"},
    };
    for (size_t i = 0; i < sizeof all / sizeof *all; i++) {
        struct matrix m = {all[i].n, all[i].k, of_text(all[i].cells)};
        struct bytes assignment = of_text(all[i].assignment), table = of_text(all[i].table);
        struct wanted want = {.word = all[i].d << 8};
        if (m.n) memcpy(want.assignment, assignment.at, assignment.length), memcpy(want.table, table.at, table.length);
        for (size_t more = 0; more < 20; more++) {
            build(all[i].name, m, m.n + more % 5, table.length + more / 5, &want);
            check(beside(all[i].name, m, m.n + more % 5, table.length + more / 5) == want.word, "%s: plain C", all[i].name);
        }
        for (size_t s = 0; s < m.n; s++) refuses(all[i].name, m, s, s % 2 ? table.length : 0, 10, m.n);
        for (size_t t = 0; t < table.length; t++) refuses(all[i].name, m, m.n + t % 2, t, 11, table.length);
        drop(m.cells), drop(assignment), drop(table);
    }
}

/* P10, P15 and P16 */
static void limits(void) {
    struct matrix m = {3, 1, of_text("1** *** **0")};
    refuses("P10", m, 3, 9, 4, 1);
    m.cells.at[5] = 3;
    refuses("P16", m, 3, 9, 3, 5);
    drop(m.cells);
    m = even_matrix(64, 8, 1);
    check(beside("P15", m, 64, 8) == 1 << 8, "P15: plain C");
    m.n = 65, refuses("P15, n 65", m, 70, 40000, 1, 0);
    m.n = 64, m.k = 0, refuses("P15, k 0", m, 70, 40000, 1, 1);
    m.k = 9, refuses("P15, k 9", m, 70, 40000, 1, 1);
    drop(m.cells);
}

/* what the other calls say to what was built: the judge accepts it, the ask answers by the matrix, alike is sharing a domain */
static void others(struct matrix m, size_t d, size_t pairs) {
    struct bytes assignment = take(m.n), table = take(d * m.k * d);
    uint64_t built = soroluzko_build(m.n, m.k, m.cells.at, m.cells.length, assignment.at, m.n, table.at, table.length);
    struct soroluzko_policy p = {m.n, m.k, d, assignment.at, m.n, table.at, table.length};
    uint64_t judged = soroluzko_policy_judge(&p, m.cells.at, m.cells.length);
    check(built == d << 8, "build once more: n %zu k %zu: %#llx", m.n, m.k, (unsigned long long)built);
    check(judged == d << 16, "the judge of what was built: n %zu k %zu d %zu: %#llx", m.n, m.k, d, (unsigned long long)judged);
    for (size_t u = 0; u < m.n; u++)
        for (size_t a = 0; a < m.k; a++)
            for (size_t v = 0; v < m.n; v++)
                check(soroluzko_policy_ask(&p, (struct soroluzko_request){u, a, v}) == (uint64_t)m.cells.at[cell_at(m, u, a, v)] << 8,
                      "the ask of what was built: n %zu k %zu d %zu: (%zu, %zu, %zu)", m.n, m.k, d, u, a, v);
    for (size_t i = 0; i < m.n * m.n && i < pairs; i++) {
        size_t u = m.n * m.n > pairs ? below(m.n) : i / m.n, v = m.n * m.n > pairs ? below(m.n) : i % m.n;
        uint64_t got = soroluzko_alike(m.n, m.k, u, v, m.cells.at, m.cells.length);
        check(got == (assignment.at[u] == assignment.at[v] ? 256 : 0), "alike and built: n %zu k %zu u %zu v %zu: %#llx", m.n, m.k, u, v,
              (unsigned long long)got);
    }
    drop(assignment), drop(table);
}

/* every matrix of some sizes */
static void small_ones(void) {
    static const size_t sizes[][2] = {{1, 1}, {1, 3}, {2, 1}, {2, 2}, {2, 3}, {3, 1}, {4, 1}};
    for (size_t i = 0; i < sizeof sizes / sizeof *sizes; i++) {
        size_t n = sizes[i][0], k = sizes[i][1];
        for (uint64_t bits = 0; bits >> (n * k * n) == 0; bits += every(n * k * n > 9 ? 331 : 1)) {
            struct matrix m = bit_matrix(n, k, bits);
            size_t d = beside("a small matrix", m, n + below(3), n * k * n + below(3)) >> 8;
            beside("a small matrix, with just the room", m, n, d * k * d);
            others(m, d, n * n);
            drop(m.cells);
        }
    }
}

/* Every set of faults, each made in several ways: the first in document 01's order is given, and nothing is written. */
static void faults_at_once(void) {
    enum { N, K, LENGTH, ABOVE, GAP, SHORT, TABLE, FAULTS };
    static const size_t n[] = {65, 256, (size_t)1 << 32, SIZE_MAX}, k[] = {0, 9, (size_t)1 << 61, SIZE_MAX}, length[] = {17, 19, 0, 36};
    static const size_t few[] = {2, 1, 0, 2}, less[] = {7, 4, 0, 1};
    static const uint8_t above[] = {3, 4, 128, 255};
    for (unsigned set = 0; set < 1 << FAULTS; set++)
        for (unsigned how = 0; how < 4; how++) {
            struct matrix m = {3, 2, take(set >> LENGTH & 1 ? length[how] : 18)};
            size_t high = how < 2 ? 16 : 1, gap = how < 2 ? 0 : 17; /* the fault is before the gap, or behind it */
            for (size_t i = 0; i < m.cells.length; i++) /* 0 and 1 may send to 2: two domains */
                m.cells.at[i] = set >> ABOVE & 1 && i == high ? above[how] : set >> GAP & 1 && i == gap ? 2 : i < 12 && i % 3 == 2;
            if (set >> N & 1) m.n = n[how];
            if (set >> K & 1) m.k = k[how];
            size_t s = set >> SHORT & 1 ? few[how] : 3 + how, t = set >> TABLE & 1 ? less[how] : 8 + how;
            if (set >> N & 1) refuses("faults at once", m, s, t, 1, 0);
            else if (set >> K & 1) refuses("faults at once", m, s, t, 1, 1);
            else if (set >> LENGTH & 1) refuses("faults at once", m, s, t, 2, 0);
            else if (set >> ABOVE & 1) refuses("faults at once", m, s, t, 3, high);
            else if (set >> GAP & 1) refuses("faults at once", m, s, t, 4, gap);
            else if (set >> SHORT & 1) refuses("faults at once", m, s, t, 10, 3);
            else if (set >> TABLE & 1) refuses("faults at once", m, s, t, 11, 8);
            else check(beside("no fault", m, s, t) == 2 << 8, "no fault: plain C");
            drop(m.cells);
        }
    /* sizes whose product is 0 in 64 bits, with nothing lent; and nothing at all */
    refuses("n 2^32", (struct matrix){(size_t)1 << 32, 1, take(0)}, 0, 0, 1, 0);
    refuses("n 8, k 2^58", (struct matrix){8, (size_t)1 << 58, take(0)}, 0, 0, 1, 1);
    refuses("n 64 and nothing lent", (struct matrix){64, 8, take(0)}, 0, 0, 2, 0);
    for (size_t j = 1; j <= 8; j++) check(beside("n 0", (struct matrix){0, j, take(0)}, j % 3, j % 2) == 0, "n 0: plain C");
}

/* At full size: a difference, a gap or a fault at single cells; as many domains as entities, with the room for that and a byte less. */
static void full_size(void) {
    struct matrix m = even_matrix(64, 8, 0);
    for (size_t i = 0; i < m.cells.length; i += 7 * every(31)) { /* the first cell and the last are among them */
        size_t gap = below(i + 1);
        struct wanted want = {.word = 4 | (uint64_t)i << 8};
        m.cells.at[i] = 2;
        build("a gap", m, 64, 64, &want);
        m.cells.at[gap] = 2, m.cells.at[i] = 3, want.word = 3 | (uint64_t)i << 8;
        build("a fault and a gap before it", m, 64, 64, &want);
        m.cells.at[gap] = m.cells.at[i] = 0;
    }
    for (size_t i = 0; i < m.cells.length; i += 31 * every(7)) {
        m.cells.at[i] ^= 1;
        beside("a cell that differs", m, 64, 8 * 9);
        m.cells.at[i] ^= 1;
    }
    /* all send alike but for the last right to the last entity, by the bits of the sender; then what is received */
    for (size_t way = 0; way < 4; way++) {
        memset(m.cells.at, 0, m.cells.length);
        for (size_t u = 0; u < 64; u++)
            for (size_t bit = 0; bit < 6; bit++)
                m.cells.at[way < 2 ? cell_at(m, u, 7, 63 - bit) : cell_at(m, 63 - bit, 7, u)] = (way % 2 ? u / 2 : u) >> bit & 1;
        size_t d = beside("the last cells differ", m, 64, 64 * 8 * 64) >> 8;
        beside("a byte too few", m, 64, d * 8 * d - 1);
        beside("no byte too few", m, 64 + way, d * 8 * d);
        others(m, d, 64 * 64 / every(64));
    }
    memset(m.cells.at, 0, m.cells.length);
    for (size_t u = 0; u < 64; u++) m.cells.at[cell_at(m, u, 7, u)] = 1;
    check(beside("all apart", m, 64, 32768) == 64 << 8, "all apart: plain C");
    refuses("all apart, a byte too few", m, 64, 32767, 11, 32768);
    refuses("all apart, an entity too few", m, 63, 32767, 10, 64);
    drop(m.cells);
}

static void fixed(void) {
    patterns();
    limits();
    small_ones();
    faults_at_once();
    full_size();
}

static void random_calls(void) {
    struct matrix m = any_matrix();
    if (below(16) == 0) spoil(m, false);
    if (below(16) == 0) spoil(m, true);
    wanted.word = plain_build(m.n, m.k, m.cells.at, m.cells.length, wanted.assignment, 64, wanted.table, sizeof wanted.table);
    bool good = (wanted.word & 0xff) == 0;
    size_t d = good ? (size_t)wanted.word >> 8 : 3;
    for (int i = 0; i < 2; i++) {
        uint64_t word = beside("random", m, room(m.n <= 64 ? m.n : 5), room(d * (m.k <= 8 ? m.k : 1) * d));
        meet(word, word >> 8 != m.n);
    }
    if (good) others(m, d, 40);
    drop(m.cells);
}

int main(int count, char **words) {
    const unsigned refusals = 1 << 1 | 1 << 2 | 1 << 3 | 1 << 4 | 1 << 10 | 1 << 11;
    const struct test test = {"build", {"built with all apart", "built with fewer domains"}, refusals, 10000, fixed, random_calls};
    return run_test(&test, count, words);
}
