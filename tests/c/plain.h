/* The calls in plain C, to compare with by answers; the ask by the clock too. */
#ifndef PLAIN_H
#define PLAIN_H

#include <stddef.h>
#include <stdint.h>

uint64_t plain_ask(size_t n, size_t k, size_t d, size_t u, size_t a, size_t v,
                   const uint8_t *assignment, size_t assignment_length, const uint8_t *table, size_t table_length);

/* by Definition 2.11, clause by clause */
uint64_t plain_alike(size_t n, size_t k, size_t u, size_t v, const uint8_t *matrix, size_t matrix_length);

/* by what each entity sends and receives, as one string */
uint64_t plain_build(size_t n, size_t k, const uint8_t *matrix, size_t matrix_length,
                     uint8_t *assignment, size_t assignment_length, uint8_t *table, size_t table_length);

/* by one loop over the cells' numbers */
uint64_t plain_judge(size_t n, size_t k, size_t d, const uint8_t *matrix, size_t matrix_length,
                     const uint8_t *assignment, size_t assignment_length, const uint8_t *table, size_t table_length);

/* the files: written as the C library prints; read by writing, of all well-formed files, the one that has the most leading bytes of the
 * input, and comparing the two */
uint64_t plain_read_matrix(const uint8_t *file, size_t file_length, uint8_t *matrix, size_t matrix_length);
uint64_t plain_read_policy(const uint8_t *file, size_t file_length,
                           uint8_t *assignment, size_t assignment_length, uint8_t *table, size_t table_length);
uint64_t plain_write_matrix(size_t n, size_t k, const uint8_t *matrix, size_t matrix_length, uint8_t *file, size_t file_length);
uint64_t plain_write_policy(size_t n, size_t k, size_t d, const uint8_t *assignment, size_t assignment_length,
                            const uint8_t *table, size_t table_length, uint8_t *file, size_t file_length);

/* by the three above: the matrix read, its policy built and printed, or the line of the refusal */
uint64_t plain_weave(const uint8_t *input, size_t input_length, uint8_t *output, size_t output_length);

#endif
