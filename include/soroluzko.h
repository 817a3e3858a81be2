/*
 * Soroluzko: domain policies for a message broker. The calls of libsoroluzko.a, for C.
 *
 * There are 0 to 64 entities, 1 to 8 rights and 0 to 64 domains, each numbered from 0.
 *
 * A matrix for n entities and k rights has n*k*n bytes, with the cell of (u, a, v), "u may use right a towards v", at (u*k + a)*n + v.
 * A cell is 0 (deny), 1 (grant) or 2 (unlogged). A matrix is full if no cell is 2.
 * A policy for n entities and k rights has d domains; an assignment of n bytes, the domain of each entity; and a table of d*k*d
 * bytes, each 0 or 1, with the cell of (p, a, q) at (p*k + a)*d + q. It grants (u, a, v) if the cell of (domain of u, a, domain of v)
 * is 1. It enforces a matrix if it grants where the matrix has 1 and does not where it has 0; cells that are 2 bind nothing.
 * Two entities u and v of a full matrix are alike if for every right a the cells (u, a, u), (u, a, v), (v, a, u) and (v, a, v) are
 * equal, and (u, a, x) equals (v, a, x) and (x, a, u) equals (x, a, v) for every other x.
 *
 * A matrix or a policy also stands as a file, in ASCII lines that each end with one line feed (byte 10). A line begins with a mark of two
 * bytes, and there is no other spacing. Numbers are decimal with leading zeros. Cells are the characters 0, 1 and, in a matrix only, *
 * for 2. Where 0 and 1 may send to 2:
 *
 *     MX031      n in two digits, k in one          PD03102     n in two digits, k in one, d in two
 *     RW00001    u in two digits, its k*n cells     AS000001    the domains of the entities, two digits each
 *     RW01001    .. for each entity u in order      TB0001      p in two digits, its k*d cells
 *     RW02000                                       TB0100      .. for each domain p in order
 *     ZZ         nothing follows                    ZZ          nothing follows
 *
 * The limits are as above. Every entity has a domain, so d is 0 only where n is 0; the AS line stands even then. The file of a matrix
 * has 9 + n*(k*n + 5) bytes, at most 33097, that of a policy 14 + 2*n + d*(k*d + 5), at most 33230.
 *
 * Every call answers all numbers and all bytes, by one word; the low byte is the refusal's number, 0 where there is none:
 *
 *     bits 0-7   number of the refusal, or 0
 *     bits 8-31  the refusal's place, 0 where none is given
 *     bits 8-39  where nothing is refused, what the call answers
 *     the rest   0
 *
 * Of several refusals that apply the first is given, in the order that the call lists. A call that is refused has written nothing. What
 * soroluzko_weave finds wrong with its input it writes to its output, as a line, and is not refused for that.
 *
 * Pointers and lengths. Each pointer refers to as many bytes as the length after it says, at most PTRDIFF_MAX: readable ones, and
 * writable ones where the pointer is not to const. Nothing else changes them during the call, and no byte that a call may write is also
 * part of another of its slices. Where the length is 0 nothing is read or written through the pointer, and it may be NULL. The calls keep
 * no pointer, use no memory but their stack and have no state, so they may run at the same time.
 *
 * This page is not checked by the prover. The promise of each call is proved of its Rattle source (docs/PROMISES.md).
 */
#ifndef SOROLUZKO_H
#define SOROLUZKO_H

#include <stdbool.h>
#include <stddef.h>
#include <stdint.h>

#if SIZE_MAX != 0xffffffffffffffff
#error "libsoroluzko is for machines whose size_t has 64 bits"
#endif

#ifdef __cplusplus
extern "C" {
#endif

/* An answer, taken apart. */

static inline bool soroluzko_refused(uint64_t answer) { return (answer & 0xff) != 0; }

/* The refusal's number, or 0. */
static inline unsigned soroluzko_number(uint64_t answer) { return (unsigned)(answer & 0xff); }

/* The refusal's place. It has a meaning only where soroluzko_refused. */
static inline size_t soroluzko_place(uint64_t answer) { return (size_t)(answer >> 8 & 0xffffff); }

/* Whether an ask was granted: not refused, and the policy grants. */
static inline bool soroluzko_granted(uint64_t answer) { return (answer & 0x1ff) == 0x100; }

/* Whether two entities are alike: not refused, and they are. */
static inline bool soroluzko_alike_yes(uint64_t answer) { return (answer & 0x1ff) == 0x100; }

/* The number of domains that a build made. It has a meaning only where not soroluzko_refused. */
static inline size_t soroluzko_domains(uint64_t answer) { return (size_t)(answer >> 8 & 0xff); }

/* Whether a judged policy enforces the matrix, and whether it does not: at most one, and neither where it was refused. */
static inline bool soroluzko_enforces(uint64_t answer) { return (answer & 0x1ff) == 0; }
static inline bool soroluzko_conflict(uint64_t answer) { return (answer & 0x1ff) == 0x100; }

/* The number of domains of a judged policy. It has a meaning only where soroluzko_enforces. */
static inline size_t soroluzko_enforces_domains(uint64_t answer) { return (size_t)(answer >> 16 & 0xff); }

/* The cell of the first conflict and the value logged there. They have a meaning only where soroluzko_conflict. */
static inline size_t soroluzko_conflict_cell(uint64_t answer) { return (size_t)(answer >> 16 & 0xffff); }
static inline uint8_t soroluzko_conflict_logged(uint64_t answer) { return (uint8_t)(answer >> 32 & 0xff); }

/* What a file that was read has: n and k, and d of a policy's. They have a meaning only where not soroluzko_refused. */
static inline size_t soroluzko_read_n(uint64_t answer) { return (size_t)(answer >> 8 & 0xff); }
static inline size_t soroluzko_read_k(uint64_t answer) { return (size_t)(answer >> 16 & 0xff); }
static inline size_t soroluzko_read_d(uint64_t answer) { return (size_t)(answer >> 24 & 0xff); }

/* The length of a file that was written, or of what a weave answered. It has a meaning only where not soroluzko_refused. */
static inline size_t soroluzko_file_length(uint64_t answer) { return (size_t)(answer >> 8 & 0xffffff); }

/* A policy and a request. Name the members where you fill them in (.n = 3, .k = 1, ..), so that no two numbers are exchanged. */

struct soroluzko_policy {
    size_t n; /* entities */
    size_t k; /* rights */
    size_t d; /* domains */
    const uint8_t *assignment;
    size_t assignment_length;
    const uint8_t *table;
    size_t table_length;
};

struct soroluzko_request {
    size_t u; /* sender */
    size_t a; /* right */
    size_t v; /* receiver */
};

/*
 * Ask: may u use right a towards v?
 *
 * Bit 8 is 1 if the policy grants (u, a, v) and 0 if it does not. Refused, by the first of these that applies:
 *
 *     1  n above 64 (place 0); k 0 or above 8 (place 1); d above 64 (place 2)
 *     5  assignment_length is not n (place 0)
 *     7  table_length is not d*k*d (place 0)
 *     9  u not below n (place 0); a not below k (place 1); v not below n (place 2)
 *     6  the domain of u is not below d (place u); the domain of v is not below d (place v)
 *     8  the one cell that is read is above 1 (place: that cell)
 *
 * The answer depends on n, k, d, the two lengths, u, a, v, the domains of u and v and that one cell alone.
 */
uint64_t soroluzko_ask(size_t n, size_t k, size_t d, size_t u, size_t a, size_t v,
                       const uint8_t *assignment, size_t assignment_length, const uint8_t *table, size_t table_length);

/* The same, of a policy and a request. */
static inline uint64_t soroluzko_policy_ask(const struct soroluzko_policy *p, struct soroluzko_request r) {
    return soroluzko_ask(p->n, p->k, p->d, r.u, r.a, r.v, p->assignment, p->assignment_length, p->table, p->table_length);
}

/*
 * Alike: are u and v alike in a full matrix?
 *
 * Bit 8 is 1 if they are and 0 if not. Every entity is alike to itself. Refused, by the first of these that applies:
 *
 *     1  n above 64 (place 0); k 0 or above 8 (place 1)
 *     2  matrix_length is not n*k*n (place 0)
 *     3  a cell is above 2 (place: the lowest such cell)
 *     4  a cell is 2 (place: the lowest such cell)
 *     9  u not below n (place 0); v not below n (place 1)
 */
uint64_t soroluzko_alike(size_t n, size_t k, size_t u, size_t v, const uint8_t *matrix, size_t matrix_length);

/*
 * Build: the policy of a full matrix, with one domain for each class of entities that are alike.
 *
 * Bits 8-15 are the number d of domains. The first n bytes of assignment are the domains of the entities, numbered in order of their
 * smallest members. The first d*k*d bytes of table are the table: the cell of (p, a, q) is the matrix cell of (smallest member of p, a,
 * smallest member of q). Later bytes of both buffers stay as they were. The policy enforces the matrix. Refused, by the first of these
 * that applies, and then all bytes of both buffers stay as they were:
 *
 *      1  n above 64 (place 0); k 0 or above 8 (place 1)
 *      2  matrix_length is not n*k*n (place 0)
 *      3  a cell is above 2 (place: the lowest such cell)
 *      4  a cell is 2 (place: the lowest such cell)
 *     10  assignment_length is below n (place n)
 *     11  table_length is below d*k*d (place d*k*d)
 *
 * The two buffers must not overlap each other, nor the matrix. 64 and 32768 bytes are enough for every matrix.
 */
uint64_t soroluzko_build(size_t n, size_t k, const uint8_t *matrix, size_t matrix_length,
                         uint8_t *assignment, size_t assignment_length, uint8_t *table, size_t table_length);

/*
 * Judge: does a policy enforce a matrix, full or not?
 *
 * If it does, bit 8 is 0 and bits 16-23 are its number of domains, which is d. If it does not, bit 8 is 1, bits 16-31 are the lowest
 * cell on which the two conflict, and bits 32-39 are the value logged there. Refused, by the first of these that applies:
 *
 *     1  n above 64 (place 0); k 0 or above 8 (place 1); d above 64 (place 2)
 *     2  matrix_length is not n*k*n (place 0)
 *     3  a cell of the matrix is above 2 (place: the lowest such cell)
 *     5  assignment_length is not n (place 0)
 *     6  a domain is not below d (place: the lowest such entity)
 *     7  table_length is not d*k*d (place 0)
 *     8  a cell of the table is above 1 (place: the lowest such cell)
 */
uint64_t soroluzko_judge(size_t n, size_t k, size_t d, const uint8_t *matrix, size_t matrix_length,
                         const uint8_t *assignment, size_t assignment_length, const uint8_t *table, size_t table_length);

/* The same, of a policy. */
static inline uint64_t soroluzko_policy_judge(const struct soroluzko_policy *p, const uint8_t *matrix, size_t matrix_length) {
    return soroluzko_judge(p->n, p->k, p->d, matrix, matrix_length, p->assignment, p->assignment_length, p->table, p->table_length);
}

/*
 * Read a matrix: the matrix of a whole file.
 *
 * Bits 8-15 are n and bits 16-23 are k. The first n*k*n bytes of matrix are the file's matrix, 0, 1 and 2 for the characters 0, 1 and *.
 * Later bytes stay as they were. Refused, by the first of these that applies, and then all bytes of the buffer stay as they were:
 *
 *     12  the bytes are no file of a matrix (place: the number of leading bytes that they share with some file of a matrix, at the most)
 *     11  matrix_length is below n*k*n (place n*k*n)
 *
 * So a file that is cut short is refused at its length, one with bytes behind its last line where they begin, and MX65 at 3. The buffer
 * must not overlap the file. 32768 bytes are enough for every file.
 */
uint64_t soroluzko_read_matrix(const uint8_t *file, size_t file_length, uint8_t *matrix, size_t matrix_length);

/*
 * Read a policy: the policy of a whole file.
 *
 * Bits 8-15 are n, bits 16-23 are k and bits 24-31 are d. The first n bytes of assignment are the domains of the entities, and the first
 * d*k*d bytes of table are the table. Later bytes of both buffers stay as they were. Refused, by the first of these that applies, and
 * then all bytes of both buffers stay as they were:
 *
 *     12  the bytes are no file of a policy (place: the number of leading bytes that they share with some file of a policy, at the most)
 *     10  assignment_length is below n (place n)
 *     11  table_length is below d*k*d (place d*k*d)
 *
 * So PD03100 is refused at 6, since no domain is below 0. The two buffers must not overlap each other, nor the file. 64 and 32768 bytes
 * are enough for every file.
 */
uint64_t soroluzko_read_policy(const uint8_t *file, size_t file_length,
                               uint8_t *assignment, size_t assignment_length, uint8_t *table, size_t table_length);

/*
 * Write a matrix, full or not: its file.
 *
 * Bits 8-31 are the file's length, 9 + n*(k*n + 5). The first so many bytes of file are the matrix's file; soroluzko_read_matrix reads
 * n, k and the matrix from them. Later bytes stay as they were. Refused, by the first of these that applies, and then all bytes of the
 * buffer stay as they were:
 *
 *      1  n above 64 (place 0); k 0 or above 8 (place 1)
 *      2  matrix_length is not n*k*n (place 0)
 *      3  a cell is above 2 (place: the lowest such cell)
 *     11  file_length is below the file's length (place: the file's length)
 *
 * The buffer must not overlap the matrix. 33097 bytes are enough for every matrix.
 */
uint64_t soroluzko_write_matrix(size_t n, size_t k, const uint8_t *matrix, size_t matrix_length, uint8_t *file, size_t file_length);

/*
 * Write a policy: its file.
 *
 * Bits 8-31 are the file's length, 14 + 2*n + d*(k*d + 5). The first so many bytes of file are the policy's file; soroluzko_read_policy
 * reads n, k, d, the assignment and the table from them. Later bytes stay as they were. Refused, by the first of these that applies, and
 * then all bytes of the buffer stay as they were:
 *
 *      1  n above 64 (place 0); k 0 or above 8 (place 1); d above 64 (place 2)
 *      5  assignment_length is not n (place 0)
 *      6  a domain is not below d (place: the lowest such entity)
 *      7  table_length is not d*k*d (place 0)
 *      8  a cell of the table is above 1 (place: the lowest such cell)
 *     11  file_length is below the file's length (place: the file's length)
 *
 * The buffer must overlap neither the assignment nor the table. 33230 bytes are enough for every policy.
 */
uint64_t soroluzko_write_policy(size_t n, size_t k, size_t d, const uint8_t *assignment, size_t assignment_length,
                                const uint8_t *table, size_t table_length, uint8_t *file, size_t file_length);

/* The same, of a policy. */
static inline uint64_t soroluzko_policy_write(const struct soroluzko_policy *p, uint8_t *file, size_t file_length) {
    return soroluzko_write_policy(p->n, p->k, p->d, p->assignment, p->assignment_length, p->table, p->table_length, file, file_length);
}

/*
 * Weave: a whole input to a whole output, as the program weave does it.
 *
 * Bits 8-31 are the answer's length. The first so many bytes of output are the answer: the file of the policy that soroluzko_build builds
 * of the matrix that soroluzko_read_matrix reads from the input; or, by the first of these that applies, a line of 10 bytes, which is NO,
 * the number in two digits, the place in five, line feed:
 *
 *     12  the input is no file of a matrix (place: the number of leading bytes that it shares with some file of a matrix, at the most)
 *      4  a cell is * (place: the lowest such cell)
 *
 * Such a line is an answer and no refusal of the call: the word has its length, and its first byte, N and not P, tells it from a policy.
 * Later bytes of output stay as they were. Refused in this case alone, whatever the input is, and then all bytes of output stay as they
 * were:
 *
 *     11  output_length is below 33230 (place 33230)
 *
 * Of the input the first 33098 bytes alone decide: one that is longer than 33097 bytes is no file, and these bytes show where. The output
 * must not overlap the input. The call takes some 66 KB of stack.
 */
uint64_t soroluzko_weave(const uint8_t *input, size_t input_length, uint8_t *output, size_t output_length);

#ifdef __cplusplus
}
#endif

#endif
