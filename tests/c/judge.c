/*
 * Calls soroluzko_judge from C: document 01's patterns, every policy of up to two domains on every matrix of up to three entities,
 * every set of faults at once, a conflict or a fault at cells of full size; then random calls beside plain_judge.
 */
#include <string.h>

#include "harness.h"
#include "plain.h"
#include "soroluzko.h"

struct offer {
    size_t d;
    struct bytes assignment, table;
};

/* One call: the word, what the header takes from it, and slices that stay as they were. */
static void judge(const char *what, struct matrix m, struct offer o, uint64_t want) {
    struct soroluzko_policy p = {m.n, m.k, o.d, o.assignment.at, o.assignment.length, o.table.at, o.table.length};
    uint64_t got = soroluzko_policy_judge(&p, m.cells.at, m.cells.length);
    bool refused = (want & 0xff) != 0, conflict = !refused && (want >> 8 & 1);
    check(got == want, "%s: n %zu k %zu d %zu lengths %zu %zu %zu: %#llx instead of %#llx; %s; %s; %s", what, m.n, m.k, o.d,
          m.cells.length, o.assignment.length, o.table.length, (unsigned long long)got, (unsigned long long)want, shown(m.cells),
          shown(o.assignment), shown(o.table));
    check(soroluzko_refused(got) == refused && soroluzko_conflict(got) == conflict && soroluzko_enforces(got) == (!refused && !conflict),
          "%s: the header's reading of the kind", what);
    if (!refused && !conflict) check(soroluzko_enforces_domains(got) == o.d, "%s: the header's reading of d", what);
    if (conflict)
        check(soroluzko_conflict_cell(got) == (want >> 16 & 0xffff) && soroluzko_conflict_logged(got) == want >> 32,
              "%s: the header's reading of the cell", what);
}

/* The same beside plain_judge. */
static uint64_t beside(const char *what, struct matrix m, struct offer o) {
    struct bytes cells = copy(m.cells), assignment = copy(o.assignment), table = copy(o.table);
    uint64_t want =
        plain_judge(m.n, m.k, o.d, m.cells.at, m.cells.length, o.assignment.at, o.assignment.length, o.table.at, o.table.length);
    judge(what, m, o, want);
    check(same(cells, m.cells) && same(assignment, o.assignment) && same(table, o.table), "%s: a slice was changed", what);
    drop(cells), drop(assignment), drop(table);
    return want;
}

static uint64_t enforces(size_t d) { return (uint64_t)d << 16; }
static uint64_t conflict(size_t cell, uint8_t logged) { return 1 << 8 | (uint64_t)cell << 16 | (uint64_t)logged << 32; }
static uint64_t refusal(unsigned number, size_t place) { return number | (uint64_t)place << 8; }

static void expect(const char *what, struct matrix m, struct offer o, uint64_t want) {
    check(beside(what, m, o) == want, "%s: plain C", what);
}

static void forget(struct offer o) { drop(o.assignment), drop(o.table); }

static const struct {
    const char *name;
    size_t n, k;
    const char *cells;
    size_t d;
    const char *assignment, *table;
    bool enforced;
    size_t cell;
    uint8_t logged;
} all[] = {
    {"P1", 0, 1, "", 0, "", "", true, 0, 0},
    {"P2", 1, 1, "1", 1, "0", "1", true, 0, 0},
    {"P3", 2, 1, "0110", 2, "01", "0110", true, 0, 0},
    {"P4", 2, 1, "1111", 1, "00", "1", true, 0, 0},
    {"P5", 2, 1, "0000", 1, "00", "0", true, 0, 0},
    {"P6", 3, 1, "001 001 000", 2, "001", "0100", true, 0, 0},
    {"P7", 3, 1, "000 000 010", 3, "012", "000000010", true, 0, 0},
    {"P8", 3, 1, "010 000 010", 2, "010", "0100", true, 0, 0},
    {"P9", 2, 2, "1101 1100", 2, "01", "11011100", true, 0, 0},
    {"P11", 3, 1, "1** *** **0", 2, "001", "1000", true, 0, 0},
    {"P12", 3, 1, "1** *** **0", 2, "011", "1000", true, 0, 0},
    {"P13", 3, 1, "1** *** **0", 2, "010", "1000", false, 8, 0},
    {"P14", 3, 1, "1** *** **0", 1, "000", "0", false, 0, 1},
    {"P3 in one domain", 2, 1, "0110", 1, "00", "0", false, 1, 1},
    {"P7 by rows only", 3, 1, "000 000 010", 2, "001", "0000", false, 7, 1},
    {"P9 by its first right", 2, 2, "1101 1100", 1, "00", "11", false, 2, 0},
    {"P6 mirrored", 3, 1, "001 001 000", 2, "001", "0010", false, 2, 1},
    {"gaps alone", 2, 1, "****", 1, "00", "1", true, 0, 0},
    {"domains without a member", 2, 1, "1111", 4, "33", "0000 0000 0000 0001", true, 0, 0},
    {"nobody, and three domains", 0, 1, "", 3, "", "101 010 111", true, 0, 0},
};

static void patterns(void) {
    for (size_t i = 0; i < sizeof all / sizeof *all; i++) {
        struct matrix m = {all[i].n, all[i].k, of_text(all[i].cells)};
        struct offer o = {all[i].d, of_text(all[i].assignment), of_text(all[i].table)};
        expect(all[i].name, m, o, all[i].enforced ? enforces(o.d) : conflict(all[i].cell, all[i].logged));
        drop(m.cells), forget(o);
    }
}

/* P15 and P16 */
static void limits(void) {
    struct offer o = {64, take(64), take(32768)};
    struct matrix m = even_matrix(64, 8, 1);
    memset(o.assignment.at, 63, 64), memset(o.table.at, 1, 32768);
    expect("P15", m, o, enforces(64));
    m.cells.at[9] = 2, m.cells.at[20] = 3;
    expect("P16", m, o, refusal(3, 20));
    m.n = 65, expect("P15, n 65", m, o, refusal(1, 0));
    m.n = 64, m.k = 0, expect("P15, k 0", m, o, refusal(1, 1));
    m.k = 9, expect("P15, k 9", m, o, refusal(1, 1));
    m.k = 8, o.d = 65, expect("d 65", m, o, refusal(1, 2));
    drop(m.cells), forget(o);
}

/* every matrix with gaps of some sizes, every policy of up to two domains */
static void small_ones(void) {
    static const size_t sizes[][2] = {{0, 1}, {1, 1}, {1, 2}, {2, 1}, {3, 1}};
    for (size_t i = 0; i < sizeof sizes / sizeof *sizes; i++) {
        size_t n = sizes[i][0], k = sizes[i][1], matrices = 1;
        struct matrix m = even_matrix(n, k, 0);
        for (size_t j = 0; j < m.cells.length; j++) matrices *= 3;
        for (size_t d = 0; d <= 2; d++) {
            struct offer o = {d, take(n), take(d * k * d)};
            size_t bits = o.table.length + (d == 2 ? n : 0); /* the table's cells, then two domains' numbers */
            for (size_t which = 0; which < matrices << bits && (d || n == 0); which += every(matrices << bits > 9000 ? 4999 : 1)) {
                for (size_t j = 0; j < o.table.length; j++) o.table.at[j] = which >> j & 1;
                for (size_t j = 0; j < n; j++) o.assignment.at[j] = d == 2 ? which >> (o.table.length + j) & 1 : 0;
                for (size_t j = 0, rest = which >> bits; j < m.cells.length; j++, rest /= 3) m.cells.at[j] = (uint8_t)(rest % 3);
                judge("a small policy", m, o,
                      plain_judge(n, k, d, m.cells.at, m.cells.length, o.assignment.at, n, o.table.at, o.table.length));
            }
            forget(o);
        }
        drop(m.cells);
    }
}

/* Every set of faults, each made in several ways: the first in document 01's order is given, and a conflict only without one. */
static void faults_at_once(void) {
    enum { N, K, D, LENGTH, ABOVE, SHORT, DOMAIN, TABLE, CELL, CONFLICT, FAULTS };
    static const size_t n[] = {65, 256, (size_t)1 << 32, SIZE_MAX}, k[] = {0, 9, (size_t)1 << 61, SIZE_MAX};
    static const size_t d[] = {65, 256, (size_t)1 << 32, SIZE_MAX}, length[] = {17, 19, 0, 36}, s[] = {2, 4, 0, 6}, t[] = {7, 9, 0, 16};
    static const uint8_t above[] = {3, 4, 128, 255}, domain[] = {2, 3, 64, 255}, cell[] = {2, 3, 128, 255};
    for (unsigned set = 0; set < 1 << FAULTS; set++)
        for (unsigned how = 0; how < 4; how++) {
            struct matrix m = {3, 2, take(set >> LENGTH & 1 ? length[how] : 18)};
            struct offer o = {2, take(set >> SHORT & 1 ? s[how] : 3), take(set >> TABLE & 1 ? t[how] : 8)};
            /* 0 and 1 are granted all towards 2, and nothing else is logged but denials of what 2 may; then faults, two of a kind */
            for (size_t i = 0; i < m.cells.length; i++) m.cells.at[i] = i >= 12 ? 0 : i % 3 == 2 ? 1 : 2;
            for (size_t i = 0; i < o.assignment.length; i++) o.assignment.at[i] = i == 2;
            for (size_t i = 0; i < o.table.length; i++) o.table.at[i] = i == 1 || i == 3;
            if (set >> CONFLICT & 1 && m.cells.length > 14) m.cells.at[8] = 0, m.cells.at[14] = 1;
            if (set >> ABOVE & 1 && m.cells.length > 12) m.cells.at[9 + how] = above[how], m.cells.at[13] = 3;
            if (set >> DOMAIN & 1 && o.assignment.length > 1) o.assignment.at[how % 2] = domain[how], o.assignment.at[1] = 255;
            if (set >> CELL & 1 && o.table.length > 5) o.table.at[2 + how] = cell[how], o.table.at[6] = 2;
            if (set >> N & 1) m.n = n[how];
            if (set >> K & 1) m.k = k[how];
            if (set >> D & 1) o.d = d[how];
            expect("faults at once", m, o,
                   set >> N & 1          ? refusal(1, 0)
                   : set >> K & 1        ? refusal(1, 1)
                   : set >> D & 1        ? refusal(1, 2)
                   : set >> LENGTH & 1   ? refusal(2, 0)
                   : set >> ABOVE & 1    ? refusal(3, 9 + how)
                   : set >> SHORT & 1    ? refusal(5, 0)
                   : set >> DOMAIN & 1   ? refusal(6, how % 2)
                   : set >> TABLE & 1    ? refusal(7, 0)
                   : set >> CELL & 1     ? refusal(8, 2 + how)
                   : set >> CONFLICT & 1 ? conflict(8, 0)
                                         : enforces(2));
            drop(m.cells), forget(o);
        }
}

/* sizes whose product is 0 in 64 bits, with nothing lent; one entity and no domain for it */
static void nothing_lent(void) {
    struct offer none = {0, take(0), take(0)}, one = {0, of_text("0"), take(0)};
    expect("n 2^32", (struct matrix){(size_t)1 << 32, 1, take(0)}, none, refusal(1, 0));
    expect("k 2^58", (struct matrix){8, (size_t)1 << 58, take(0)}, none, refusal(1, 1));
    expect("n 64 and nothing lent", (struct matrix){64, 8, take(0)}, none, refusal(2, 0));
    none.d = (size_t)1 << 32, expect("d 2^32", (struct matrix){0, 1, take(0)}, none, refusal(1, 2));
    none.d = 64, expect("d 64 and nothing lent", (struct matrix){0, 8, take(0)}, none, refusal(7, 0));
    struct matrix m = even_matrix(1, 1, 2);
    expect("no domain is below 0", m, one, refusal(6, 0));
    drop(m.cells), forget(one);
}

/* At full size, with a domain for each entity: a conflict or a fault at one cell in seven; a fault at each entity. */
static void full_size(void) {
    struct offer o = {64, take(64), take(32768)};
    struct matrix m = full_matrix(64, 8);
    for (size_t u = 0; u < 64; u++) o.assignment.at[u] = (uint8_t)u;
    memcpy(o.table.at, m.cells.at, 32768);
    expect("the matrix as a table", m, o, enforces(64));
    for (size_t i = 0; i < 32768; i += 7 * every(31)) { /* the first cell and the last are among them */
        size_t later = i + below(32768 - i); /* a second one, that the first hides */
        uint8_t was = o.table.at[i], held = o.table.at[later];
        m.cells.at[later] = held ^ 1, m.cells.at[i] = was ^ 1;
        judge("a conflict", m, o, conflict(i, was ^ 1));
        m.cells.at[later] = m.cells.at[i] = 2;
        judge("two gaps", m, o, enforces(64));
        m.cells.at[later] = m.cells.at[i] = 3;
        judge("a cell of the matrix", m, o, refusal(3, i));
        m.cells.at[later] = held, m.cells.at[i] = was;
        o.table.at[later] = o.table.at[i] = 2;
        judge("a cell of the table", m, o, refusal(8, i));
        o.table.at[later] = held, o.table.at[i] = was;
    }
    for (size_t u = 0; u < 64; u++) {
        o.assignment.at[63] = 255, o.assignment.at[u] = 64;
        expect("a domain number", m, o, refusal(6, u));
        o.assignment.at[63] = 63, o.assignment.at[u] = (uint8_t)u;
    }
    drop(m.cells), forget(o);
}

static void fixed(void) {
    patterns();
    limits();
    small_ones();
    faults_at_once();
    nothing_lent();
    full_size();
}

/* A policy for a full matrix that fits: built, with its domains spread among up to 64, or a domain for each entity, or of no order. */
static struct offer any_offer(struct matrix m) {
    static uint8_t assignment[64], table[32768];
    size_t kind = below(8), built = (size_t)plain_build(m.n, m.k, m.cells.at, m.cells.length, assignment, 64, table, 32768) >> 8;
    size_t d = kind == 0 ? below(65) : kind == 1 ? m.n : below(3) ? built : built + below(65 - built), places[64];
    if (d == 0 && m.n && below(8)) d = 1;
    struct offer o = {d, take(m.n), take(d * m.k * d)};
    for (size_t i = 0; i < o.table.length; i++) o.table.at[i] = below(2);
    for (size_t u = 0; u < m.n; u++) o.assignment.at[u] = (uint8_t)(d ? below(d) : 0);
    if (kind == 0) return o;
    if (kind == 1) {
        for (size_t u = 0; u < m.n; u++) o.assignment.at[u] = (uint8_t)u;
        if (o.table.length) memcpy(o.table.at, m.cells.at, o.table.length);
        return o;
    }
    for (size_t p = 0; p < d; p++) {
        size_t q = below(p + 1);
        places[p] = places[q], places[q] = p;
    }
    for (size_t u = 0; u < m.n; u++) o.assignment.at[u] = (uint8_t)places[assignment[u]];
    for (size_t p = 0; p < built; p++)
        for (size_t a = 0; a < m.k; a++)
            for (size_t q = 0; q < built; q++) o.table.at[(places[p] * m.k + a) * d + places[q]] = table[(p * m.k + a) * built + q];
    return o;
}

/* bytes of another length, a byte more or less or none of them */
static struct bytes relength(struct bytes b) {
    struct bytes c = take(below(2) ? b.length + 1 : b.length && below(4) ? b.length - 1 : 0);
    if (c.length) memset(c.at, 0, c.length);
    drop(b);
    return c;
}

static void random_calls(void) {
    struct matrix m = any_matrix();
    struct offer o = fits(m) ? any_offer(m) : (struct offer){number(64), lend(below(66)), lend(below(70))};
    /* a conflict or none, gaps, faults */
    if (below(4) == 0 && m.cells.length) m.cells.at[below(m.cells.length)] ^= 1;
    if (below(8) == 0 && o.table.length) o.table.at[below(o.table.length)] ^= 1;
    size_t one_in = below(3) ? 1 + below(6) : 0;
    for (size_t i = 0; i < m.cells.length && one_in; i++)
        if (below(one_in) == 0) m.cells.at[i] = 2;
    if (below(16) == 0) spoil(m, true);
    if (below(16) == 0) o.assignment = relength(o.assignment);
    if (below(16) == 0 && o.assignment.length) o.assignment.at[below(o.assignment.length)] = (uint8_t)(below(2) ? o.d : next());
    if (below(16) == 0) o.table = relength(o.table);
    if (below(16) == 0 && o.table.length) o.table.at[below(o.table.length)] = (uint8_t)(2 + below(254));
    if (below(32) == 0) o.d = number(64);
    uint64_t word = beside("random", m, o);
    meet(word, word >> 8 & 1);
    drop(m.cells), forget(o);
}

int main(int count, char **words) {
    const unsigned refusals = 1 << 1 | 1 << 2 | 1 << 3 | 1 << 5 | 1 << 6 | 1 << 7 | 1 << 8;
    const struct test test = {"judge", {"enforces", "conflict"}, refusals, 30000, fixed, random_calls};
    return run_test(&test, count, words);
}
