/*
 * Calls soroluzko_weave from C: document 01's example and patterns as files; every full matrix of a few small sizes, and some of every
 * size, with near misses and with gaps; files with every byte changed to every other, cut at every place, with bytes behind; inputs that
 * are longer than every file; outputs that are too short; then random calls. All of it is beside plain_weave. The output is full of other
 * bytes before each call, and every byte is looked at after it.
 */
#include <stdio.h>
#include <string.h>

#include "content.h"
#include "damage.h"
#include "plain.h"
#include "soroluzko.h"

enum { INPUT = 33097, SEEN = 33098, OUTPUT = 33230 }; /* the longest matrix file, what is looked at, the least output */

static uint8_t answer[OUTPUT]; /* by plain C, to the last call */

/* One call with an output of some length: the word, what the header takes from it, and every byte. Plain C's word. */
static uint64_t weave(const char *what, struct bytes input, size_t length) {
    struct bytes before = copy(input), output = lend(length);
    uint64_t want = plain_weave(input.at, input.length, answer, length);
    uint64_t got = soroluzko_weave(input.at, input.length, output.at, length);
    bool refused = (want & 0xff) != 0;
    size_t filled = refused ? 0 : (size_t)want >> 8;
    check(got == want, "%s: lengths %zu %zu: %#llx instead of %#llx; %s", what, input.length, length, (unsigned long long)got,
          (unsigned long long)want, shown(input));
    check(soroluzko_refused(got) == refused, "%s: the header's reading", what);
    check(refused ? soroluzko_number(got) == 11 && soroluzko_place(got) == OUTPUT : soroluzko_file_length(got) == filled,
          "%s: the header's numbers", what);
    check(filled == 0 || memcmp(output.at, answer, filled) == 0, "%s: length %zu: the answer begins %s instead of %s; %s", what,
          input.length, shown((struct bytes){.at = output.at, .length = 10}), shown((struct bytes){.at = answer, .length = 10}),
          shown(input));
    check(kept(output, filled), "%s: lengths %zu %zu: a byte of the output did not stay", what, input.length, length);
    check(same(before, input), "%s: the input was changed", what);
    drop(before), drop(output);
    return want;
}

/* a length that is enough for every answer, and at times more */
static size_t enough(void) { return OUTPUT + below(2) * below(40); }

static void answers(const char *what, struct bytes input, size_t length, const char *want) {
    uint64_t word = weave(what, input, length);
    check(word == strlen(want) << 8 && memcmp(answer, want, strlen(want)) == 0, "%s: plain C", what);
}

/* The answer is the line of a refusal. */
static void line(const char *what, struct bytes input, unsigned number, size_t place) {
    char text[40];
    snprintf(text, sizeof text, "NO%02u%05zu\n", number, place);
    answers(what, input, enough(), text);
}

static void too_short(const char *what, struct bytes input, size_t length) {
    check(weave(what, input, length) == refusal(11, OUTPUT), "%s: plain C", what);
}

static struct bytes text_of(struct matrix m) { return file_of((struct content){false, m.n, m.k, 0, take(0), m.cells}); }

static uint64_t matrix(const char *what, struct matrix m) {
    struct bytes file = text_of(m);
    uint64_t word = weave(what, file, enough());
    drop(file);
    return word;
}

/* The lowest gap of the matrix is there. */
static void gap_at(const char *what, struct matrix m, size_t place) {
    struct bytes file = text_of(m);
    line(what, file, 4, place);
    drop(file);
}

static const struct {
    const char *name, *input, *output;
} examples[] = {
    {"the whole example, P6", "MX031\nRW00001\nRW01001\nRW02000\nZZ\n", "PD03102\nAS000001\nTB0001\nTB0100\nZZ\n"},
    {"P1", "MX001\nZZ\n", "PD00100\nAS\nZZ\n"},
    {"P2", "MX011\nRW001\nZZ\n", "PD01101\nAS00\nTB001\nZZ\n"},
    {"P3", "MX021\nRW0001\nRW0110\nZZ\n", "PD02102\nAS0001\nTB0001\nTB0110\nZZ\n"},
    {"P4", "MX021\nRW0011\nRW0111\nZZ\n", "PD02101\nAS0000\nTB001\nZZ\n"},
    {"P5", "MX021\nRW0000\nRW0100\nZZ\n", "PD02101\nAS0000\nTB000\nZZ\n"},
    {"P7", "MX031\nRW00000\nRW01000\nRW02010\nZZ\n", "PD03103\nAS000102\nTB00000\nTB01000\nTB02010\nZZ\n"},
    {"P8", "MX031\nRW00010\nRW01000\nRW02010\nZZ\n", "PD03102\nAS000100\nTB0001\nTB0100\nZZ\n"},
    {"P9", "MX022\nRW001101\nRW011100\nZZ\n", "PD02202\nAS0001\nTB001101\nTB011100\nZZ\n"},
    {"P10", "MX031\nRW001**\nRW01***\nRW02**0\nZZ\n", "NO0400001\n"},
    {"the last cell alone is a gap", "MX022\nRW000000\nRW01000*\nZZ\n", "NO0400007\n"},
    {"the first cell alone is a gap", "MX012\nRW00*1\nZZ\n", "NO0400000\n"},
    {"a gap and a cell that is none behind it", "MX031\nRW001**\nRW01***\nRW02**2\nZZ\n", "NO1200028\n"},
    {"a gap and a cut", "MX031\nRW001**\nRW01***\nRW02**0\nZZ", "NO1200032\n"},
    {"a gap and a byte behind", "MX031\nRW001**\nRW01***\nRW02**0\nZZ\n\n", "NO1200033\n"},
    {"nothing", "", "NO1200000\n"},
    {"n 65", "MX65", "NO1200003\n"},
    {"a carriage return", "MX001\r\nZZ\r\n", "NO1200005\n"},
    {"a policy", "PD03102\nAS000001\nTB0001\nTB0100\nZZ\n", "NO1200000\n"},
};

/* Each with outputs that are long enough, and with such as are not, where the input is not looked at. */
static void each_example(void) {
    static const size_t lengths[] = {OUTPUT, OUTPUT + 1, OUTPUT + 17, 65535, 65536, 65536 + 9, 100000};
    static const size_t few[] = {0, 1, 9, 10, 11, 33, 34, 32768, INPUT, SEEN, OUTPUT - 2, OUTPUT - 1};
    for (size_t i = 0; i < sizeof examples / sizeof *examples; i++) {
        struct bytes input = of_characters(examples[i].input);
        for (size_t j = i % every(7); j < sizeof lengths / sizeof *lengths; j += every(7))
            answers(examples[i].name, input, lengths[j], examples[i].output);
        for (size_t j = i % every(4); j < sizeof few / sizeof *few; j += every(4)) too_short(examples[i].name, input, few[j]);
        drop(input);
    }
    const uint8_t byte = 'M';
    check(soroluzko_weave(NULL, 0, NULL, 0) == refusal(11, OUTPUT), "nothing lent");
    check(soroluzko_weave(&byte, 1, NULL, 0) == refusal(11, OUTPUT), "nothing lent to write to");
}

/* every full matrix of the least sizes, and every one with gaps of some */
static void small_ones(void) {
    for (size_t n = 0; n <= 3; n++)
        for (uint64_t bits = 0; bits >> (n * n) == 0; bits += every(n == 3 ? 29 : 3)) {
            struct matrix m = bit_matrix(n, 1, bits);
            check((matrix("a small matrix", m) & 0xff) == 0 && answer[0] == 'P', "a small matrix: plain C");
            drop(m.cells);
        }
    for (size_t which = 0; which < 81; which += every(17))
        for (size_t n = 1; n <= 2; n++) {
            struct matrix m = even_matrix(n, n == 1 ? 4 : 1, 0); /* four cells */
            size_t gap = 0, rest = which;
            for (size_t i = 0; i < 4; i++, rest /= 3) m.cells.at[i] = (uint8_t)(rest % 3);
            while (gap < 4 && m.cells.at[gap] != 2) gap++;
            if (gap < 4) gap_at("a small matrix with gaps", m, gap);
            else matrix("a small matrix", m);
            drop(m.cells);
        }
}

/* gaps: a few, many, or the last cell alone */
static void gaps(struct matrix m, size_t kind) {
    if (kind == 0) spoil(m, false);
    for (size_t i = 0; i < m.cells.length && kind == 1; i++)
        if (below(3) == 0) m.cells.at[i] = 2;
    if (kind == 2 && m.cells.length) m.cells.at[m.cells.length - 1] = 2;
}

/* Random matrices of every size: as they are, with a cell changed, with gaps. */
static void all_sizes(void) {
    for (size_t i = 0; i < 65 * 8; i += every(67)) {
        struct matrix m = full_matrix(i / 8, i % 8 + 1);
        matrix("a matrix of some size", m);
        if (m.n) m.cells.at[below(m.cells.length)] ^= 1;
        matrix("a matrix with a cell changed", m);
        gaps(m, (i + i / 8) % 3);
        matrix("a matrix with gaps", m);
        check((answer[0] == 'P') == (m.n == 0 || memchr(m.cells.at, 2, m.cells.length) == NULL), "a matrix with gaps: plain C");
        drop(m.cells);
    }
}

/* At full size: all alike; one cell that differs; one gap, and nothing but gaps behind it; all apart, which has the longest answer. */
static void full_size(void) {
    struct matrix m = even_matrix(64, 8, 0);
    matrix("all alike", m);
    check(memcmp(answer, "PD64801\nAS00", 12) == 0, "all alike: plain C");
    for (size_t i = 0; i < m.cells.length; i += 217 * every(151)) { /* the first cell and the last are among them */
        m.cells.at[i] = 1;
        matrix("a cell that differs", m);
        m.cells.at[i] = 2;
        gap_at("a gap", m, i);
        memset(m.cells.at + i, 2, m.cells.length - i);
        gap_at("gaps from here on", m, i);
        memset(m.cells.at, 0, m.cells.length);
    }
    for (size_t u = 0; u < 64; u++) m.cells.at[cell_at(m, u, 7, u)] = 1;
    check(matrix("all apart", m) == OUTPUT << 8, "all apart: plain C");
    drop(m.cells);
    for (size_t i = 0; i < 64; i += every(16)) {
        m = full_matrix(64, 8);
        matrix("full size", m);
        drop(m.cells);
    }
}

/* A file, and bytes behind it up to a length: one value, or random ones; or cut there. */
static struct bytes of_length(struct bytes file, size_t length, int value) {
    struct bytes b = take(length);
    size_t common = length < file.length ? length : file.length;
    if (common) memcpy(b.at, file.at, common);
    for (size_t i = common; i < length; i++) b.at[i] = (uint8_t)(value < 0 ? next() : (uint64_t)value);
    return b;
}

static void line_at_length(const char *what, struct bytes file, size_t length, int value, size_t place) {
    struct bytes input = of_length(file, length, value);
    line(what, input, 12, place);
    drop(input);
}

/* One byte changed, which is a fault at its place where no file has such a byte; cut; bytes behind. */
static void damage(struct bytes file, size_t step, bool all) {
    for (size_t i = below(step); i < file.length; i += step) {
        uint8_t was = file.at[i];
        for (size_t x = all ? below(every(101)) : below(256); x < 256; x += all ? every(101) : 256) {
            file.at[i] = (uint8_t)x;
            if (x >= 128) line("a byte changed", file, 12, i);
            else weave("a byte changed", file, enough());
            file.at[i] = was;
        }
        line_at_length("cut", file, i, 0, i);
    }
    for (size_t x = 0; x < 256; x += all ? every(101) : 101) {
        line_at_length("a byte behind", file, file.length + 1, (int)x, file.length);
        line_at_length("bytes behind", file, file.length + 2 + below(9), (int)x, file.length);
    }
}

static void damaged_files(void) {
    static const size_t some[] = {0, 1, 2, 8, 9}; /* P6, P1, P2, P9, P10 */
    for (size_t i = 0; i < sizeof some / sizeof *some; i++) {
        struct bytes file = of_characters(examples[some[i]].input);
        damage(file, every(5), true);
        drop(file);
    }
    for (size_t kind = 0; kind < 4; kind++) { /* the longest: full, and with gaps in each way */
        struct matrix m = full_matrix(64, 8);
        if (kind) gaps(m, kind - 1);
        struct bytes file = text_of(m);
        check(file.length == INPUT, "the longest: %zu bytes", file.length);
        damage(file, 331 * every(37), false);
        drop(file), drop(m.cells);
    }
}

/* Two inputs that agree on what is looked at: answered alike, by the archive itself, every byte. */
static void agree(struct bytes file, size_t one, size_t other) {
    struct bytes seen = of_length(file, SEEN, -1), a = of_length(seen, one, -1), b = of_length(seen, other, -1);
    struct bytes x = take(OUTPUT), y = take(OUTPUT);
    memset(x.at, 200, OUTPUT), memset(y.at, 200, OUTPUT);
    uint64_t first = soroluzko_weave(a.at, one, x.at, OUTPUT), second = soroluzko_weave(b.at, other, y.at, OUTPUT);
    check(first == 10 << 8 && second == first && same(x, y), "the first %d bytes alike, lengths %zu %zu: %#llx and %#llx", SEEN, one, other,
          (unsigned long long)first, (unsigned long long)second);
    weave("a long input", a, enough());
    drop(seen), drop(a), drop(b), drop(x), drop(y);
}

/* Inputs as long as the longest file, which is full, has gaps, or has a fault at its end or anywhere; and longer ones. */
static void long_inputs(void) {
    static const size_t lengths[] = {SEEN, SEEN + 1, 65535, 65536, 65536 + INPUT, 100000};
    const size_t count = sizeof lengths / sizeof *lengths;
    struct bytes small = of_characters(examples[0].input), none = take(0);
    for (size_t kind = 0; kind < 8; kind += every(3)) {
        struct matrix m = full_matrix(64, 8);
        if (kind % 4) gaps(m, kind % 4 - 1);
        struct bytes file = text_of(m);
        check((weave("the longest", file, enough()) & 0xff) == 0 && (answer[0] == 'P') == (kind % 4 == 0), "the longest: plain C");
        size_t place = kind < 4 ? INPUT : kind < 6 ? INPUT - 1 : below(INPUT);
        if (kind >= 4) file.at[place] = 255, line("the longest, with a fault", file, 12, place);
        for (size_t i = kind % every(3); i < count; i += every(3)) {
            line_at_length("longer than the longest", file, lengths[i], i % 2 ? '\n' : '0', place);
            agree(file, lengths[i], lengths[(i + 1 + below(count - 1)) % count]);
        }
        drop(file), drop(m.cells);
    }
    for (size_t i = 0; i < count; i += every(4)) {
        line_at_length("a small file and much behind it", small, lengths[i], -1, small.length);
        line_at_length("a small file, 2^16 bytes too many", small, small.length + 65536, 0, small.length);
        line_at_length("nothing but M", none, lengths[i], 'M', 1);
        agree(small, lengths[i], 100000), agree(none, lengths[i], SEEN + below(999));
    }
    drop(small);
}

static void fixed(void) {
    each_example();
    small_ones();
    all_sizes();
    full_size();
    damaged_files();
    long_inputs();
}

/* the answer to a random call: the refusal's number on a line counts as a refusal's, and a policy is of one of two kinds */
static void woven(const char *what, struct bytes input) {
    uint64_t word = weave(what, input, room(OUTPUT));
    if ((word & 0xff) == 0 && answer[0] == 'N') word = (uint64_t)(answer[2] - '0') * 10 + answer[3] - '0';
    meet(word, memcmp(answer + 2, answer + 5, 2) != 0);
}

static void random_calls(void) {
    struct matrix m = full_matrix(below(2) ? below(65) : below(10), 1 + below(8));
    if (below(4) == 0) gaps(m, below(3));
    struct bytes file = text_of(m), other = damaged(file), behind = of_length(file, file.length + 1 + below(40), -1);
    woven("random", file);
    woven("random, damaged", other);
    if (below(4) == 0) woven("random, bytes behind", behind);
    drop(m.cells), drop(file), drop(other), drop(behind);
}

int main(int count, char **words) {
    const unsigned refusals = 1 << 4 | 1 << 11 | 1 << 12;
    const struct test test = {"weave", {"woven with all apart", "woven with fewer domains"}, refusals, 6000, fixed, random_calls};
    return run_test(&test, count, words);
}
