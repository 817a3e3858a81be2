/*
 * Calls soroluzko_read_matrix, soroluzko_read_policy, soroluzko_write_matrix and soroluzko_write_policy from C: document 01's example;
 * small matrices and policies, and some of every size, written and read again; every number of two digits where a file has one; files
 * with every byte changed to every other, cut at every place, with bytes behind; every set of faults at once; then random calls. All of
 * it is beside plain C (content.h).
 */
#include <stdio.h>
#include <string.h>

#include "content.h"
#include "damage.h"
#include "plain.h"
#include "soroluzko.h"

/* Every room that is too small. */
static void too_small(const char *what, struct content c) {
    struct bytes file = file_of(c);
    for (size_t i = 0; i < file.length; i++) writes(what, c, i, refusal(11, file.length));
    for (size_t s = 0; s < c.assignment.length; s++) reads(what, true, file, s, s % 2 ? 0 : c.cells.length, refusal(10, c.n));
    for (size_t t = 0; t < c.cells.length; t++) reads(what, c.policy, file, c.n + t % 2, t, refusal(11, c.cells.length));
    drop(file);
}

static const struct {
    const char *text;
    size_t n, k, d;
    const char *assignment, *cells;
} well_formed[] = {
    {"MX031\nRW00001\nRW01001\nRW02000\nZZ\n", 3, 1, 0, "", "001 001 000"},
    {"PD03102\nAS000001\nTB0001\nTB0100\nZZ\n", 3, 1, 2, "001", "01 00"},
    {"MX031\nRW001**\nRW01***\nRW02**0\nZZ\n", 3, 1, 0, "", "1** *** **0"},
    {"MX022\nRW001101\nRW011100\nZZ\n", 2, 2, 0, "", "1101 1100"},
    {"PD02202\nAS0001\nTB001101\nTB011100\nZZ\n", 2, 2, 2, "01", "1101 1100"},
    {"MX001\nZZ\n", 0, 1, 0, "", ""},
    {"MX008\nZZ\n", 0, 8, 0, "", ""},
    {"MX013\nRW00*10\nZZ\n", 1, 3, 0, "", "*10"},
    {"PD00100\nAS\nZZ\n", 0, 1, 0, "", ""},
    {"PD00302\nAS\nTB00011010\nTB01000111\nZZ\n", 0, 3, 2, "", "011010 000111"},
    {"PD01101\nAS00\nTB001\nZZ\n", 1, 1, 1, "0", "1"},
    {"PD02104\nAS0303\nTB000000\nTB010000\nTB020000\nTB030001\nZZ\n", 2, 1, 4, "33", "0000 0000 0000 0001"},
};

/* the text on one line, for a fault's */
static const char *label(const char *text) {
    static char line[99];
    size_t i = 0;
    for (; text[i] && i < sizeof line - 1; i++) line[i] = text[i] == '\n' ? '|' : text[i];
    line[i] = 0;
    return line;
}

static void examples(void) {
    for (size_t i = 0; i < sizeof well_formed / sizeof *well_formed; i++) {
        const char *text = well_formed[i].text, *name = label(text);
        struct content c = {*text == 'P', well_formed[i].n, well_formed[i].k, well_formed[i].d, of_text(well_formed[i].assignment),
                            of_text(well_formed[i].cells)};
        struct bytes file = of_characters(text), plain = file_of(c);
        check(same(file, plain), "%s: plain C writes otherwise", name);
        round_trip(name, c);
        too_small(name, c);
        reads(name, !c.policy, file, 64, 64, refusal(12, 0));
        drop(file), drop(plain), forget(c);
    }
    static const struct {
        const char *text;
        size_t place;
    } refused[] = {
        {"", 0}, {"M", 1}, {"MX", 2}, {"MX7", 2}, {"MX6", 3}, {"MX65", 3}, {"MX64", 4}, {"MX640", 4}, {"MX649", 4}, {"MX648", 5},
        {"mx031\n", 0}, {"NX031\n", 0}, {"MY031\n", 1}, {"MX31\n", 4}, {"MX031\r\n", 5}, {"MX031 \n", 5}, {"MX031\nRW01001\n", 9},
        {"MX031\nRW00001\nRW00001\n", 17}, {"MX031\nRW00002\n", 12}, {"MX031\nRW0000\n", 12}, {"MX031\nRW000010\n", 13},
        {"MX031\nRW00001\nRW01001\nZZ\n", 22}, {"MX001\nRW00\n", 6}, {"MX001\nZZ", 8}, {"MX001\nZZ\n\n", 9}, {"MX001\nZZ\r\n", 8},
        {"P", 1}, {"PD03100", 6}, {"PD0310", 6}, {"PD00100", 7}, {"PD00165", 6}, {"PD0017", 5}, {"PD65", 3}, {"PD000", 4}, {"PD009", 4},
        {"PD03102\nAS000002\n", 15}, {"PD03102\nAS001000\n", 12}, {"PD03102\nAS0000\n", 14}, {"PD03102\nAS00000101\n", 16},
        {"PD01110\nAS10", 10}, {"PD01111\nAS10", 12}, {"PD01111\nAS11", 11}, {"PD01111\nAS09\n", 13}, {"PD00100\nZZ\n", 8},
        {"PD03102\nAS000001\nTB000*\n", 22}, {"PD03102\nAS000001\nTB0001\nTB02", 27}, {"PD03102\nAS000001\nTB0001\nTB0100\nTB", 31},
        {"PD00100\nAS\nTB", 11}, {"PD00100\nAS\nZZ\nZZ\n", 14},
    };
    for (size_t i = 0; i < sizeof refused / sizeof *refused; i++) {
        struct bytes file = of_characters(refused[i].text);
        bool policy = *refused[i].text == 'P';
        for (size_t j = 0; j < 4; j++)
            reads(label(refused[i].text), policy, file, 3 * (j % 2), 9 * (j / 2), refusal(12, refused[i].place));
        drop(file);
    }
    reads("nothing", true, take(0), 0, 0, refusal(12, 0));
}

/* Document 01's whole example: the first file read and built, and the second written of that. */
static void whole_example(void) {
    struct bytes input = of_characters(well_formed[0].text), output = of_characters(well_formed[1].text), file = take(output.length);
    uint8_t matrix[9], assignment[3], table[4];
    uint64_t got = soroluzko_read_matrix(input.at, input.length, matrix, 9);
    uint64_t built = soroluzko_build(soroluzko_read_n(got), soroluzko_read_k(got), matrix, 9, assignment, 3, table, 4);
    uint64_t written = soroluzko_write_policy(3, 1, soroluzko_domains(built), assignment, 3, table, 4, file.at, file.length);
    check(input.length == 33 && written == 34 << 8 && same(file, output), "the whole example: %#llx", (unsigned long long)written);
    drop(input), drop(output), drop(file);
}

static void all_sizes(void) {
    for (size_t i = 0; i < 65 * 8; i += every(61)) {
        struct content c = of_sizes(false, i / 8, i % 8 + 1, 0);
        round_trip("a matrix of some size", c);
        forget(c);
    }
    for (size_t i = 0; i < 65 * 65; i += every(271)) {
        size_t n = i / 65, d = i % 65;
        if (n && d == 0) continue;
        struct content c = of_sizes(true, n, (n + d) % 8 + 1, d);
        round_trip("a policy of some size", c);
        forget(c);
    }
}

/* every matrix of five sizes, every policy of some */
static void small_ones(void) {
    static const size_t sizes[][3] = {{0, 2, 0}, {1, 1, 0}, {1, 2, 0}, {2, 1, 0}, {1, 5, 0}, {0, 1, 1}, {0, 4, 1}, {2, 1, 1}, {0, 1, 2},
                                      {1, 1, 2}, {3, 1, 2}, {1, 2, 2}};
    for (size_t i = 0; i < sizeof sizes / sizeof *sizes; i++) {
        struct content c = of_sizes(i > 4, sizes[i][0], sizes[i][1], sizes[i][2]);
        size_t values = c.policy ? 2 : 3, count = 1;
        for (size_t j = 0; j < c.cells.length; j++) count *= values;
        for (size_t j = 0; j < c.assignment.length; j++) count *= c.d;
        for (size_t which = 0; which < count; which += every(count > 9 ? 7 : 1)) {
            size_t rest = which;
            for (size_t j = 0; j < c.cells.length; j++, rest /= values) c.cells.at[j] = (uint8_t)(rest % values);
            for (size_t j = 0; j < c.assignment.length; j++, rest /= c.d) c.assignment.at[j] = (uint8_t)(rest % c.d);
            round_trip("a small one", c);
        }
        forget(c);
    }
}

/* A text and behind it a number, which should be from least to most, and nothing more: cut there, or refused at one of its digits. */
static void numbered(const char *what, bool policy, const char *text, size_t x, size_t least, size_t most) {
    char start[5100];
    size_t at = (size_t)sprintf(start, "%s%02zu", text, x) - 2, ten = x / 10 * 10;
    struct bytes file = of_characters(start);
    reads(what, policy, file, 4, 4, refusal(12, ten > most || ten + 9 < least ? at : x > most || x < least ? at + 1 : at + 2));
    drop(file);
}

/* Every number of two digits, as n, as d, as a domain and before a record, whatever the others are; every digit as k. */
static void numbers(void) {
    char text[5000];
    for (size_t x = 0; x < 100; x += every(9)) {
        numbered("n of a matrix", false, "MX", x, 0, 64);
        numbered("n of a policy", true, "PD", x, 0, 64);
        for (size_t n = 0; n <= 64; n += every(8))
            for (size_t k = 1; k <= 8; k++) sprintf(text, "PD%02zu%zu", n, k), numbered("d", true, text, x, n > 0, 64);
        for (size_t d = 1; d <= 64; d += every(5))
            for (size_t u = 0; u < 64; u += 1 + below(30)) {
                size_t end = (size_t)sprintf(text, "PD641%02zu\nAS", d);
                for (size_t v = 0; v < u; v++) end += (size_t)sprintf(text + end, "%02zu", below(d));
                numbered("a domain", true, text, x, 0, d - 1);
            }
        for (size_t kind = 0; kind < 2; kind++) {
            size_t end = (size_t)sprintf(text, kind ? "PD00164\nAS\n" : "MX641\n");
            for (size_t u = 0; u < 64; u++) {
                end += (size_t)sprintf(text + end, kind ? "TB" : "RW");
                if (u % every(5) == 0) numbered("a record's number", kind, text, x, u, u);
                end += (size_t)sprintf(text + end, "%02zu%064d\n", u, 0);
            }
        }
    }
    for (size_t x = 0; x < 10; x++)
        for (size_t n = 0; n <= 64; n += every(8))
            for (size_t kind = 0; kind < 2; kind++) {
                sprintf(text, "%s%02zu%zu", kind ? "PD" : "MX", n, x);
                struct bytes file = of_characters(text);
                reads("k", kind, file, 4, 4, refusal(12, x >= 1 && x <= 8 ? 5 : 4));
                drop(file);
            }
}

/* bytes of another length, all 0 */
static struct bytes relength(struct bytes b, size_t length) {
    drop(b), b = take(length);
    if (length) memset(b.at, 0, length);
    return b;
}

/* Every set of faults of a write, each made in several ways: the first in document 01's order is given, and nothing is
 * written. */
static void write_faults(bool policy) {
    enum { N, K, D, SHORT, DOMAIN, LENGTH, CELL, ROOM, FAULTS };
    static const size_t n[] = {65, 256, (size_t)1 << 32, SIZE_MAX}, k[] = {0, 9, (size_t)1 << 61, SIZE_MAX};
    static const size_t d[] = {65, 256, (size_t)1 << 32, SIZE_MAX}, s[] = {2, 4, 0, 6}, t[2][4] = {{17, 19, 0, 36}, {7, 9, 0, 16}};
    static const uint8_t domain[] = {2, 3, 64, 255}, cell[2][4] = {{3, 4, 128, 255}, {2, 3, 128, 255}};
    for (unsigned set = 0; set < 1 << FAULTS; set++)
        for (unsigned how = 0; how < 4; how++) {
            if (!policy && set & (1 << D | 1 << SHORT | 1 << DOMAIN)) continue;
            struct content c = of_sizes(policy, 3, 2, policy ? 2 : 0);
            size_t length = policy ? 38 : 42, lent = set >> ROOM & 1 ? (how == 3 ? 0 : length - 1 - how) : length + how;
            if (set >> LENGTH & 1) c.cells = relength(c.cells, t[policy][how]);
            if (set >> SHORT & 1) c.assignment = relength(c.assignment, s[how]);
            /* two of a kind */
            if (set >> DOMAIN & 1 && c.assignment.length > 1) c.assignment.at[how % 2] = domain[how], c.assignment.at[1] = 255;
            if (set >> CELL & 1 && c.cells.length > 6) c.cells.at[2 + how] = cell[policy][how], c.cells.at[6] = 3;
            if (set >> N & 1) c.n = n[how];
            if (set >> K & 1) c.k = k[how];
            if (set >> D & 1) c.d = d[how];
            writes("faults at once", c, lent,
                   set >> N & 1        ? refusal(1, 0)
                   : set >> K & 1      ? refusal(1, 1)
                   : set >> D & 1      ? refusal(1, 2)
                   : set >> SHORT & 1  ? refusal(5, 0)
                   : set >> DOMAIN & 1 ? refusal(6, how % 2)
                   : set >> LENGTH & 1 ? refusal(policy ? 7 : 2, 0)
                   : set >> CELL & 1   ? refusal(policy ? 8 : 3, 2 + how)
                   : set >> ROOM & 1   ? refusal(11, length)
                                       : (uint64_t)length << 8);
            forget(c);
        }
}

/* The same of a read. */
static void read_faults(bool policy) {
    struct content c = of_sizes(policy, 3, 2, policy ? 2 : 0);
    struct bytes file = file_of(c);
    for (unsigned set = 0; set < 8; set++)
        for (size_t i = 0; i < file.length; i++) {
            size_t domains = set >> 1 & 1 ? i % 3 : 3 + i % 4, cells = c.cells.length - (set >> 2 & 1) * (1 + i % c.cells.length);
            uint8_t was = file.at[i];
            if (set & 1) file.at[i] = 0;
            reads("faults at once", policy, file, domains, cells,
                  set & 1                  ? refusal(12, i)
                  : policy && set >> 1 & 1 ? refusal(10, 3)
                  : set >> 2 & 1           ? refusal(11, c.cells.length)
                                           : holds(c));
            file.at[i] = was;
        }
    drop(file), forget(c);
}

/* sizes whose product is 0 in 64 bits, with nothing lent; one entity and no domain for it; nothing at all, with just the room */
static void nothing_lent(void) {
    const struct bytes none = take(0);
    const size_t most = SIZE_MAX, half = (size_t)1 << 32, high = (size_t)1 << 58;
    writes("n 2^32", (struct content){false, half, 1, 0, none, none}, 0, refusal(1, 0));
    writes("n greatest", (struct content){false, most, most, 0, none, none}, 0, refusal(1, 0));
    writes("k 2^58", (struct content){false, 8, high, 0, none, none}, 0, refusal(1, 1));
    writes("n 64 and nothing lent", (struct content){false, 64, 8, 0, none, none}, 0, refusal(2, 0));
    writes("a matrix of nobody", (struct content){false, 0, 3, 0, none, none}, 0, refusal(11, 9));
    writes("n 2^32", (struct content){true, half, 1, 0, none, none}, 0, refusal(1, 0));
    writes("k 2^58", (struct content){true, 8, high, 8, none, none}, 0, refusal(1, 1));
    writes("d 2^32", (struct content){true, 0, 1, half, none, none}, 0, refusal(1, 2));
    writes("n 64 and nothing lent", (struct content){true, 64, 8, 64, none, none}, 0, refusal(5, 0));
    writes("d 64 and nothing lent", (struct content){true, 0, 8, 64, none, none}, 0, refusal(7, 0));
    writes("a policy of nobody", (struct content){true, 0, 3, 0, none, none}, 0, refusal(11, 14));
    struct content one = {true, 1, 1, 0, of_text("0"), none};
    writes("no domain is below 0", one, 14, refusal(6, 0));
    forget(one);
}

static void fixed(void) {
    examples();
    whole_example();
    all_sizes();
    small_ones();
    numbers();
    damages();
    write_faults(false), write_faults(true);
    read_faults(false), read_faults(true);
    nothing_lent();
}

static void random_calls(void) {
    struct content c = any_content();
    uint64_t word = plain_write(c, NULL, 0); /* a refusal always: 11 and the file's length where it is in order */
    bool good = (word & 0xff) == 11;
    meet(write_file("random", c, room(good ? word >> 8 : 20)), 1);
    if (good) {
        struct bytes file = file_of(c);
        meet(read_file("random", c.policy, file, room(c.n), room(c.cells.length)), 0);
        for (int i = 0; i < 2; i++) {
            struct bytes other = damaged(file);
            meet(read_file("random, damaged", c.policy, other, room(c.n), room(c.cells.length)), 0);
            drop(other);
        }
        drop(file);
    }
    forget(c);
}

int main(int count, char **words) {
    const unsigned refusals = 1 << 1 | 1 << 2 | 1 << 3 | 1 << 5 | 1 << 6 | 1 << 7 | 1 << 8 | 1 << 10 | 1 << 11 | 1 << 12;
    const struct test test = {"files", {"read", "written"}, refusals, 8000, fixed, random_calls};
    return run_test(&test, count, words);
}
