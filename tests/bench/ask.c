/*
 * Times soroluzko_ask against plain_ask, a C function that makes the same tests: the same requests to the same policy, turn about in
 * short rounds. Both are called across an object file, compiled at -O3. Prints the medians of nanoseconds a call and of the rounds' ratios.
 */
#define _POSIX_C_SOURCE 200809L
#include <stdio.h>
#include <stdlib.h>
#include <time.h>

#include "plain.h"
#include "soroluzko.h"

enum { REQUESTS = 4096, TURNS = 10, ROUNDS = 1001 };

typedef uint64_t asker(size_t, size_t, size_t, size_t, size_t, size_t, const uint8_t *, size_t, const uint8_t *, size_t);

static uint8_t assignment[64], table[32768];
static struct soroluzko_request requests[REQUESTS];

static double now(void) {
    struct timespec t;
    clock_gettime(CLOCK_MONOTONIC, &t);
    return (double)t.tv_sec * 1e9 + (double)t.tv_nsec;
}

/* nanoseconds a call, and the sum of the answers */
static double round_of(asker *ask, uint64_t *sum) {
    double start = now();
    for (int i = 0; i < TURNS; i++)
        for (int j = 0; j < REQUESTS; j++)
            *sum += ask(64, 8, 64, requests[j].u, requests[j].a, requests[j].v, assignment, 64, table, 32768);
    return (now() - start) / ((double)TURNS * REQUESTS);
}

static int rising(const void *x, const void *y) {
    double a = *(const double *)x, b = *(const double *)y;
    return (a > b) - (a < b);
}

static double median(double *times) {
    qsort(times, ROUNDS, sizeof *times, rising);
    return times[ROUNDS / 2];
}

int main(void) {
    srand(20261115);
    for (int i = 0; i < 64; i++) assignment[i] = (uint8_t)(rand() % 64);
    for (int i = 0; i < 32768; i++) table[i] = (uint8_t)(rand() % 2);
    for (int i = 0; i < REQUESTS; i++) requests[i] = (struct soroluzko_request){rand() % 64, rand() % 8, rand() % 64};
    static double proved[ROUNDS], plain[ROUNDS], ratio[ROUNDS];
    uint64_t ours = 0, theirs = 0;
    for (int i = 0; i < ROUNDS; i++) {
        proved[i] = round_of(soroluzko_ask, &ours);
        plain[i] = round_of(plain_ask, &theirs);
        ratio[i] = proved[i] / plain[i];
    }
    if (ours != theirs) return puts("the answers differ"), 1;
    printf("ask at n 64, k 8, d 64: proved %.2f ns, plain C %.2f ns, ratio %.2f\n", median(proved), median(plain), median(ratio));
    return 0;
}
