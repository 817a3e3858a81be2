#include <string.h>

#include "content.h"
#include "plain.h"
#include "soroluzko.h"

struct content of_sizes(bool policy, size_t n, size_t k, size_t d) {
    struct content c = {policy, n, k, d, take(policy ? n : 0), take(policy ? d * k * d : n * k * n)};
    for (size_t u = 0; u < c.assignment.length; u++) c.assignment.at[u] = (uint8_t)(u == n / 2 ? d - 1 : below(d));
    for (size_t i = 0; i < c.cells.length; i++) c.cells.at[i] = (uint8_t)below(policy ? 2 : 3);
    return c;
}

void forget(struct content c) { drop(c.assignment), drop(c.cells); }

uint64_t holds(struct content c) { return c.n << 8 | c.k << 16 | c.d << 24; }

uint64_t read_file(const char *what, bool policy, struct bytes file, size_t s, size_t t) {
    static uint8_t domains[64], values[64 * 8 * 64]; /* by plain C */
    struct bytes before = copy(file), assignment = lend(policy ? s : 0), cells = lend(t);
    uint64_t want, got;
    if (policy) {
        want = plain_read_policy(file.at, file.length, domains, s, values, t);
        got = soroluzko_read_policy(file.at, file.length, assignment.at, s, cells.at, t);
    } else {
        want = plain_read_matrix(file.at, file.length, values, t);
        got = soroluzko_read_matrix(file.at, file.length, cells.at, t);
    }
    bool refused = (want & 0xff) != 0;
    size_t n = refused ? 0 : want >> 8 & 0xff, k = refused ? 0 : want >> 16 & 0xff, d = refused ? 0 : want >> 24;
    size_t bytes = policy ? n : 0, filled = policy ? d * k * d : n * k * n;
    check(got == want, "%s: lengths %zu %zu %zu: %#llx instead of %#llx; %s", what, file.length, s, t, (unsigned long long)got,
          (unsigned long long)want, shown(file));
    check(soroluzko_refused(got) == refused, "%s: the header's reading", what);
    if (refused)
        check(soroluzko_number(got) == (want & 0xff) && soroluzko_place(got) == want >> 8, "%s: the header's reading of a refusal", what);
    else
        check(soroluzko_read_n(got) == n && soroluzko_read_k(got) == k && soroluzko_read_d(got) == d, "%s: the header's n, k, d", what);
    check(bytes == 0 || memcmp(assignment.at, domains, bytes) == 0, "%s: n %zu: the assignment is %s", what, n, shown(assignment));
    check(filled == 0 || memcmp(cells.at, values, filled) == 0, "%s: n %zu k %zu d %zu: the cells are %s", what, n, k, d, shown(cells));
    check(kept(assignment, bytes), "%s: n %zu s %zu: a byte of the assignment's buffer did not stay", what, n, s);
    check(kept(cells, filled), "%s: n %zu k %zu d %zu t %zu: a byte of the cells' buffer did not stay", what, n, k, d, t);
    check(same(before, file), "%s: the file was changed", what);
    drop(before), drop(assignment), drop(cells);
    return want;
}

void reads(const char *what, bool policy, struct bytes file, size_t s, size_t t, uint64_t want) {
    check(read_file(what, policy, file, s, t) == want, "%s: plain C", what);
}

uint64_t plain_write(struct content c, uint8_t *file, size_t length) {
    return c.policy ? plain_write_policy(c.n, c.k, c.d, c.assignment.at, c.assignment.length, c.cells.at, c.cells.length, file, length)
                    : plain_write_matrix(c.n, c.k, c.cells.at, c.cells.length, file, length);
}

static uint64_t proved_write(struct content c, uint8_t *file, size_t length) {
    struct soroluzko_policy p = {c.n, c.k, c.d, c.assignment.at, c.assignment.length, c.cells.at, c.cells.length};
    return c.policy ? soroluzko_policy_write(&p, file, length)
                    : soroluzko_write_matrix(c.n, c.k, c.cells.at, c.cells.length, file, length);
}

uint64_t write_file(const char *what, struct content c, size_t length) {
    static uint8_t text[33230]; /* by plain C */
    struct bytes assignment = copy(c.assignment), cells = copy(c.cells), file = lend(length);
    uint64_t want = plain_write(c, text, length), got = proved_write(c, file.at, length);
    bool refused = (want & 0xff) != 0;
    size_t filled = refused ? 0 : want >> 8;
    check(got == want, "%s: n %zu k %zu d %zu lengths %zu %zu %zu: %#llx instead of %#llx", what, c.n, c.k, c.d, c.assignment.length,
          c.cells.length, length, (unsigned long long)got, (unsigned long long)want);
    check(soroluzko_refused(got) == refused && (refused || soroluzko_file_length(got) == filled), "%s: the header's reading", what);
    check(filled == 0 || memcmp(file.at, text, filled) == 0, "%s: n %zu k %zu d %zu: the file is %s", what, c.n, c.k, c.d, shown(file));
    check(kept(file, filled), "%s: n %zu k %zu d %zu length %zu: a byte of the buffer did not stay", what, c.n, c.k, c.d, length);
    check(same(assignment, c.assignment) && same(cells, c.cells), "%s: a slice was changed", what);
    drop(assignment), drop(cells), drop(file);
    return want;
}

void writes(const char *what, struct content c, size_t length, uint64_t want) {
    check(write_file(what, c, length) == want, "%s: plain C", what);
}

struct bytes file_of(struct content c) {
    static uint8_t text[33230];
    struct bytes file = take((size_t)plain_write(c, text, sizeof text) >> 8);
    memcpy(file.at, text, file.length);
    return file;
}

void round_trip(const char *what, struct content c) {
    struct bytes file = file_of(c), written = take(file.length), assignment = take(c.assignment.length), cells = take(c.cells.length);
    writes(what, c, file.length, (uint64_t)file.length << 8);
    writes(what, c, file.length + 1 + below(9), (uint64_t)file.length << 8);
    reads(what, c.policy, file, assignment.length, cells.length, holds(c));
    reads(what, c.policy, file, assignment.length + below(9), cells.length + 1 + below(9), holds(c));
    proved_write(c, written.at, written.length);
    uint64_t got = c.policy ? soroluzko_read_policy(written.at, written.length, assignment.at, assignment.length, cells.at, cells.length)
                            : soroluzko_read_matrix(written.at, written.length, cells.at, cells.length);
    check(got == holds(c) && same(assignment, c.assignment) && same(cells, c.cells), "%s: n %zu k %zu d %zu: read again: %#llx", what,
          c.n, c.k, c.d, (unsigned long long)got);
    drop(file), drop(written), drop(assignment), drop(cells);
}

struct content any_content(void) {
    if (below(2)) {
        struct matrix m = any_matrix();
        for (size_t i = 0; i < m.cells.length; i++)
            if (below(4) == 0) m.cells.at[i] = 2;
        if (below(12) == 0) spoil(m, true);
        return (struct content){false, m.n, m.k, 0, take(0), m.cells};
    }
    size_t n = number(below(2) ? 64 : 9), k = number(8), d = number(below(2) ? 64 : 12), s = n, t = d * k * d;
    bool limits = n <= 64 && k <= 8 && d <= 64;
    if (!limits || below(24) == 0) s = below(66);
    if (!limits || below(24) == 0) t = limits && below(2) ? t + 1 : below(40);
    struct content c = {true, n, k, d, take(s), take(t)};
    for (size_t u = 0; u < s; u++) c.assignment.at[u] = (uint8_t)(d ? below(d < 64 ? d : 64) : 0);
    for (size_t i = 0; i < t; i++) c.cells.at[i] = (uint8_t)below(2);
    if (below(16) == 0 && s) c.assignment.at[below(s)] = (uint8_t)(below(2) ? d : next());
    if (below(16) == 0 && t) c.cells.at[below(t)] = (uint8_t)(2 + below(254));
    return c;
}
