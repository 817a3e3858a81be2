#include "damage.h"

#include <string.h>

#include "content.h"
#include "soroluzko.h"

/* A file with one byte changed, and with two; cut; with bytes behind. Up to a place all is as it was, so a fault is not below it. */
static void damage(struct content c, size_t step, bool all) {
    struct bytes file = file_of(c);
    for (size_t i = 0; i < file.length; i += step) {
        uint8_t was = file.at[i];
        for (size_t x = all ? 0 : below(256); x < 256; x += all ? every(23) : 256) {
            size_t later = i + below(file.length - i);
            uint8_t other = file.at[later];
            file.at[i] = (uint8_t)x;
            uint64_t word = read_file("a byte changed", c.policy, file, room(c.n), room(c.cells.length));
            check((word & 0xff) != 12 || (x != was && word >> 8 >= i), "a byte changed: plain C");
            if (x >= 128) {
                file.at[later] = (uint8_t)x;
                reads("two bytes changed", c.policy, file, room(c.n), room(c.cells.length), refusal(12, i));
                file.at[later] = other;
            }
            file.at[i] = was;
        }
        struct bytes cut = take(i);
        if (i) memcpy(cut.at, file.at, i);
        reads("cut", c.policy, cut, room(c.n), room(c.cells.length), refusal(12, i));
        drop(cut);
    }
    for (size_t x = 0; x < 256; x += all ? 1 : every(101)) {
        struct bytes more = take(file.length + 1 + below(3));
        memset(more.at, (int)x, more.length), memcpy(more.at, file.at, file.length);
        reads("bytes behind", c.policy, more, room(c.n), room(c.cells.length), refusal(12, file.length));
        drop(more);
    }
    struct bytes twice = take(2 * file.length);
    memcpy(twice.at, file.at, file.length), memcpy(twice.at + file.length, file.at, file.length);
    reads("twice", c.policy, twice, 64, c.cells.length, refusal(12, file.length));
    drop(file), drop(twice);
}

/* Every byte of a longest file in turn with its highest bit set, as no file has one: the buffers stay, through all the calls. The cells
 * are equal, which makes the calls quick even where code branches by cells. */
static void everywhere(bool policy) {
    struct content c = of_sizes(policy, 64, 8, policy ? 64 : 0);
    memset(c.cells.at, 1, c.cells.length);
    struct bytes file = file_of(c), assignment = lend(c.assignment.length), cells = lend(c.cells.length);
    for (size_t i = 0; i < file.length; i += every(101)) {
        file.at[i] ^= 128;
        uint64_t got = c.policy ? soroluzko_read_policy(file.at, file.length, assignment.at, assignment.length, cells.at, cells.length)
                                : soroluzko_read_matrix(file.at, file.length, cells.at, cells.length);
        check(got == refusal(12, i), "byte %zu of %zu: %#llx", i, file.length, (unsigned long long)got);
        file.at[i] ^= 128;
    }
    check(kept(assignment, 0) && kept(cells, 0), "a byte of a buffer did not stay");
    drop(file), drop(assignment), drop(cells), forget(c);
}

void damages(void) {
    /* five matrices, and policies */
    static const size_t sizes[][3] = {{0, 1, 0}, {1, 1, 0}, {2, 2, 0}, {3, 1, 0}, {11, 1, 0}, {0, 8, 0}, {0, 1, 2}, {1, 3, 1}, {3, 1, 2},
                                      {12, 1, 3}, {2, 1, 11}, {30, 1, 10}};
    for (size_t i = 0; i < sizeof sizes / sizeof *sizes; i++) {
        struct content c = of_sizes(i > 4, sizes[i][0], sizes[i][1], sizes[i][2]);
        damage(c, 1 + (every(9) - 1) * (i % 5 == 4), true);
        forget(c);
    }
    /* two and two, the longest of them first */
    static const size_t large[][3] = {{64, 8, 0}, {37, 5, 0}, {64, 8, 64}, {20, 3, 40}};
    for (size_t i = 0; i < sizeof large / sizeof *large; i++) {
        struct content c = of_sizes(i > 1, large[i][0], large[i][1], large[i][2]);
        if (c.k == 8) {
            size_t length = c.policy ? 33230 : 33097;
            round_trip("the longest", c);
            writes("the longest, a byte too few", c, length - 1, refusal(11, length));
            struct bytes file = file_of(c);
            check(file.length == length, "the longest: %zu bytes", file.length);
            reads("the longest, a cell too few", c.policy, file, 64, 32767, refusal(11, 32768));
            if (c.policy) reads("the longest, an entity too few", true, file, 63, 32767, refusal(10, 64));
            drop(file);
            everywhere(c.policy);
        }
        damage(c, 61 * every(19), false);
        forget(c);
    }
}

struct bytes damaged(struct bytes file) {
    static const char likely[] = "0123456789*\nMXRWPDASTBZZ";
    static uint8_t text[33230 + 4];
    size_t length = file.length;
    memcpy(text, file.at, length);
    for (size_t times = 1 + below(4); times > 0 && length > 1; times--) {
        size_t kind = below(12), at = below(length < 24 || below(2) ? length : 24);
        uint8_t byte = below(4) ? (uint8_t)likely[below(sizeof likely - 1)] : (uint8_t)next(), was = text[at];
        if (kind < 7) text[at] = byte;
        else if (kind == 7) memmove(text + at + 1, text + at, length++ - at), text[at] = byte;
        else if (kind == 8) memmove(text + at, text + at + 1, --length - at);
        else if (kind == 9 && at) text[at] = text[at - 1], text[at - 1] = was;
        else if (kind == 10) text[length++] = byte;
        else if (kind == 11) length = at;
    }
    struct bytes b = take(length);
    if (length) memcpy(b.at, text, length);
    return b;
}
