/* The nine calls of the archive by the plain functions of tests/c/plain.c, for tests/witness/wrong. The plain functions share buffers and
 * the witness has threads, so one call is served at a time. */
#include <pthread.h>

#include "plain.h"
#include "soroluzko.h"

static pthread_mutex_t one = PTHREAD_MUTEX_INITIALIZER;

static void enter(void) { pthread_mutex_lock(&one); }

static uint64_t leave(uint64_t word) {
    pthread_mutex_unlock(&one);
    return word;
}

uint64_t soroluzko_ask(size_t n, size_t k, size_t d, size_t u, size_t a, size_t v,
                       const uint8_t *assignment, size_t assignment_length, const uint8_t *table, size_t table_length) {
    enter();
    return leave(plain_ask(n, k, d, u, a, v, assignment, assignment_length, table, table_length));
}

uint64_t soroluzko_alike(size_t n, size_t k, size_t u, size_t v, const uint8_t *matrix, size_t matrix_length) {
    enter();
    return leave(plain_alike(n, k, u, v, matrix, matrix_length));
}

uint64_t soroluzko_build(size_t n, size_t k, const uint8_t *matrix, size_t matrix_length,
                         uint8_t *assignment, size_t assignment_length, uint8_t *table, size_t table_length) {
    enter();
    return leave(plain_build(n, k, matrix, matrix_length, assignment, assignment_length, table, table_length));
}

uint64_t soroluzko_judge(size_t n, size_t k, size_t d, const uint8_t *matrix, size_t matrix_length,
                         const uint8_t *assignment, size_t assignment_length, const uint8_t *table, size_t table_length) {
    enter();
    return leave(plain_judge(n, k, d, matrix, matrix_length, assignment, assignment_length, table, table_length));
}

uint64_t soroluzko_read_matrix(const uint8_t *file, size_t file_length, uint8_t *matrix, size_t matrix_length) {
    enter();
    return leave(plain_read_matrix(file, file_length, matrix, matrix_length));
}

uint64_t soroluzko_read_policy(const uint8_t *file, size_t file_length,
                               uint8_t *assignment, size_t assignment_length, uint8_t *table, size_t table_length) {
    enter();
    return leave(plain_read_policy(file, file_length, assignment, assignment_length, table, table_length));
}

uint64_t soroluzko_write_matrix(size_t n, size_t k, const uint8_t *matrix, size_t matrix_length, uint8_t *file, size_t file_length) {
    enter();
    return leave(plain_write_matrix(n, k, matrix, matrix_length, file, file_length));
}

uint64_t soroluzko_write_policy(size_t n, size_t k, size_t d, const uint8_t *assignment, size_t assignment_length,
                                const uint8_t *table, size_t table_length, uint8_t *file, size_t file_length) {
    enter();
    return leave(plain_write_policy(n, k, d, assignment, assignment_length, table, table_length, file, file_length));
}

uint64_t soroluzko_weave(const uint8_t *input, size_t input_length, uint8_t *output, size_t output_length) {
    enter();
    return leave(plain_weave(input, input_length, output, output_length));
}
