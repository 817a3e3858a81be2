/*
 * What the tests of the calls share: counted checks, random numbers that a seed brings back, memory of exact lengths, matrices.
 *
 *     NAME [ROUNDS [SEED]]
 *
 * Round i of the random calls starts from SEED + i, and a fault names that number S: `NAME 1 S` makes the round once more. A run of
 * fewer rounds than usual also passes over most of the cases that are counted through (`every`).
 */
#ifndef HARNESS_H
#define HARNESS_H

#include <stdbool.h>
#include <stddef.h>
#include <stdint.h>

/* ---- checks */

extern unsigned long checks;
void fault(const char *format, ...) __attribute__((format(printf, 1, 2)));
#define check(holds, ...) (checks++, (holds) ? (void)0 : fault(__VA_ARGS__))

/* a random call's answer: its refusal, or which of the test's two kinds of answer it is */
void meet(uint64_t word, unsigned kind);

struct test {
    const char *name, *kinds[2];
    unsigned refusals; /* bit i: refusal i must be met in the random rounds of a whole run, and so must both kinds */
    unsigned long rounds;
    void (*fixed)(void), (*random)(void);
};

int run_test(const struct test *test, int count, char **words);

/* 1 in a whole run, n in a short one */
size_t every(size_t n);

/* ---- random numbers */

uint64_t next(void);
size_t below(size_t n);

/* mostly a number up to most, at times one past it, rarely one of the greatest */
size_t number(size_t most);

/* a length for `need` bytes: mostly enough, at times one byte short or far too short */
size_t room(size_t need);

/* ---- memory: what is lent ends where its block ends, so that valgrind sees a byte read or written past it */

struct bytes {
    uint8_t *at;
    size_t length;
    size_t held; /* bytes to the end of the block: more than length where bytes behind what is lent are watched */
    uint8_t *block;
};

/* length bytes of no known value; at NULL where there are none */
struct bytes take(size_t length);
struct bytes copy(struct bytes b);
/* digits are their value, * is 2, all else is passed over */
struct bytes of_text(const char *cells);
/* the characters themselves */
struct bytes of_characters(const char *characters);
/* a buffer to write to, full of bytes that no call writes, and so are up to seven before it; every other one has bytes behind it that are
 * not lent */
struct bytes lend(size_t length);
/* whether the bytes of a lent buffer are as they were from there on, and those around it */
bool kept(struct bytes b, size_t from);
bool same(struct bytes b, struct bytes c);
void drop(struct bytes b);
/* for a fault's line: the bytes, where there are few */
const char *shown(struct bytes b);

/* ---- matrices */

struct matrix {
    size_t n, k;
    struct bytes cells;
};

size_t cell_at(struct matrix m, size_t u, size_t a, size_t v);
/* every cell of the one value */
struct matrix even_matrix(size_t n, size_t k, uint8_t value);
/* the matrix whose cells are the lowest bits of a number */
struct matrix bit_matrix(size_t n, size_t k, uint64_t bits);
/* random: of planted classes, as they are or with a few cells changed, with rows equal or columns equal, or of no order at all */
struct matrix full_matrix(size_t n, size_t k);
/* random sizes and a matrix for them, mostly in order; its cells are 0 and 1 */
struct matrix any_matrix(void);
/* whether sizes and length are in order */
bool fits(struct matrix m);
/* makes some cells 2 (a gap), or above it */
void spoil(struct matrix m, bool above);

#endif
