/* A broker in C: the file of document 01's example matrix, in which 0 and 1 may send to 2 and nobody else to anybody, is read; its policy
 * is built, judged, asked and written as a file. */
#include <stdio.h>
#include <string.h>

#include "soroluzko.h"

static void put(const char *name, const uint8_t *bytes, size_t length) {
    printf("%s", name);
    for (size_t i = 0; i < length; i++) printf(" %u", bytes[i]);
}

static int refused(uint64_t answer) {
    printf("refused, %u at %zu\n", soroluzko_number(answer), soroluzko_place(answer));
    return 1;
}

int main(void) {
    static const char input[] = "MX031\nRW00001\nRW01001\nRW02000\nZZ\n";
    static uint8_t matrix[32768], assignment[64], table[32768], file[33230]; /* enough for every matrix and every policy */

    uint64_t read = soroluzko_read_matrix((const uint8_t *)input, strlen(input), matrix, sizeof matrix);
    if (soroluzko_refused(read)) return refused(read);
    const size_t n = soroluzko_read_n(read), k = soroluzko_read_k(read), cells = n * k * n;

    uint64_t built = soroluzko_build(n, k, matrix, cells, assignment, sizeof assignment, table, sizeof table);
    if (soroluzko_refused(built)) return refused(built);
    const size_t d = soroluzko_domains(built);
    const struct soroluzko_policy policy = {.n = n, .k = k, .d = d,
                                            .assignment = assignment, .assignment_length = n,
                                            .table = table, .table_length = d * k * d};
    printf("%zu domains;", d);
    put(" assignment", assignment, n);
    put("; table", table, d * k * d);
    printf("\nthe policy %s the matrix\n",
           soroluzko_enforces(soroluzko_policy_judge(&policy, matrix, cells)) ? "enforces" : "does not enforce");
    printf("0 and 1 are %salike\n", soroluzko_alike_yes(soroluzko_alike(n, k, 0, 1, matrix, cells)) ? "" : "not ");

    for (size_t u = 0; u < 4; u++)
        for (size_t v = 0; v < 3; v++) {
            uint64_t answer = soroluzko_policy_ask(&policy, (struct soroluzko_request){.u = u, .a = 0, .v = v});
            printf("%zu to %zu: ", u, v);
            if (soroluzko_refused(answer))
                refused(answer);
            else
                puts(soroluzko_granted(answer) ? "grant" : "deny");
        }

    uint64_t written = soroluzko_policy_write(&policy, file, sizeof file);
    if (soroluzko_refused(written)) return refused(written);
    fwrite(file, 1, soroluzko_file_length(written), stdout);
    return 0;
}
