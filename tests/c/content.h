/*
 * What the tests of the files and of the weave use: what a file holds, and one read or one write beside plain C. The word is compared,
 * what the header takes from it, and every byte. Buffers are full of other bytes before each call, and often longer than needed.
 */
#ifndef CONTENT_H
#define CONTENT_H

#include "harness.h"

/* of a matrix, where d is 0 and there is no assignment, or of a policy, whose cells are its table's */
struct content {
    bool policy;
    size_t n, k, d;
    struct bytes assignment, cells;
};

/* of these sizes, with random cells, and domains of which the last has a member */
struct content of_sizes(bool policy, size_t n, size_t k, size_t d);
void forget(struct content c);
/* of random sizes, mostly in order */
struct content any_content(void);

/* the word of a refusal */
static inline uint64_t refusal(unsigned number, size_t place) { return number | (uint64_t)place << 8; }

/* a read with buffers of s and t bytes, of which a matrix takes the second alone; plain C's answer, or what that should be */
uint64_t read_file(const char *what, bool policy, struct bytes file, size_t s, size_t t);
void reads(const char *what, bool policy, struct bytes file, size_t s, size_t t, uint64_t want);
/* the answer to a read of its file, where there is room */
uint64_t holds(struct content c);

/* a write with a buffer of some length; the same */
uint64_t write_file(const char *what, struct content c, size_t length);
void writes(const char *what, struct content c, size_t length, uint64_t want);
uint64_t plain_write(struct content c, uint8_t *file, size_t length);
/* by plain C, of what is in order */
struct bytes file_of(struct content c);

/* written and read with just the room and with more; and read by the archive from what the archive wrote */
void round_trip(const char *what, struct content c);

#endif
