/* Written from document 01. It shares nothing with the crates, nor with the header's helpers. */
#include <stdio.h>
#include <string.h>

#include "plain.h"

static uint64_t refusal(uint64_t number, uint64_t place) { return number | place << 8; }

uint64_t plain_ask(size_t n, size_t k, size_t d, size_t u, size_t a, size_t v,
                   const uint8_t *assignment, size_t assignment_length, const uint8_t *table, size_t table_length) {
    if (n > 64) return refusal(1, 0);
    if (k < 1 || k > 8) return refusal(1, 1);
    if (d > 64) return refusal(1, 2);
    if (assignment_length != n) return refusal(5, 0);
    if (table_length != d * k * d) return refusal(7, 0);
    if (u >= n) return refusal(9, 0);
    if (a >= k) return refusal(9, 1);
    if (v >= n) return refusal(9, 2);
    size_t p = assignment[u];
    if (p >= d) return refusal(6, u);
    size_t q = assignment[v];
    if (q >= d) return refusal(6, v);
    size_t cell = (p * k + a) * d + q;
    if (table[cell] > 1) return refusal(8, cell);
    return (uint64_t)table[cell] << 8;
}

/* Refusal 1, or 0. A call without domains passes d 0. */
static uint64_t beyond(size_t n, size_t k, size_t d) {
    return n > 64 ? refusal(1, 0) : k < 1 || k > 8 ? refusal(1, 1) : d > 64 ? refusal(1, 2) : 0;
}

/* Refusals 1 to 4, or 0. One that takes gaps passes most 2, one that needs a full matrix most 1. */
static uint64_t unfit(size_t n, size_t k, size_t d, unsigned most, const uint8_t *matrix, size_t matrix_length) {
    uint64_t refused = beyond(n, k, d);
    if (refused) return refused;
    if (matrix_length != n * k * n) return refusal(2, 0);
    for (size_t i = 0; i < matrix_length; i++)
        if (matrix[i] > 2) return refusal(3, i);
    for (size_t i = 0; i < matrix_length; i++)
        if (matrix[i] > most) return refusal(4, i);
    return 0;
}

/* Refusals 5 to 8, or 0, of a policy within the limits. */
static uint64_t invalid(size_t n, size_t k, size_t d, const uint8_t *assignment, size_t assignment_length,
                        const uint8_t *table, size_t table_length) {
    if (assignment_length != n) return refusal(5, 0);
    for (size_t u = 0; u < n; u++)
        if (assignment[u] >= d) return refusal(6, u);
    if (table_length != d * k * d) return refusal(7, 0);
    for (size_t i = 0; i < table_length; i++)
        if (table[i] > 1) return refusal(8, i);
    return 0;
}

#define CELL(u, a, v) matrix[((u) * k + (a)) * n + (v)]

uint64_t plain_alike(size_t n, size_t k, size_t u, size_t v, const uint8_t *matrix, size_t matrix_length) {
    uint64_t refused = unfit(n, k, 0, 1, matrix, matrix_length);
    if (refused) return refused;
    if (u >= n) return refusal(9, 0);
    if (v >= n) return refusal(9, 1);
    for (size_t a = 0; a < k; a++) {
        if (CELL(u, a, u) != CELL(u, a, v) || CELL(u, a, u) != CELL(v, a, u) || CELL(u, a, u) != CELL(v, a, v)) return 0;
        for (size_t x = 0; x < n; x++)
            if (x != u && x != v && (CELL(u, a, x) != CELL(v, a, x) || CELL(x, a, u) != CELL(x, a, v))) return 0;
    }
    return 1 << 8;
}

uint64_t plain_build(size_t n, size_t k, const uint8_t *matrix, size_t matrix_length,
                     uint8_t *assignment, size_t assignment_length, uint8_t *table, size_t table_length) {
    uint64_t refused = unfit(n, k, 0, 1, matrix, matrix_length);
    if (refused) return refused;
    /* two entities are of one class if these strings are equal (Lemma A.3) */
    static uint8_t lines[64][2 * 8 * 64];
    for (size_t u = 0; u < n; u++)
        for (size_t a = 0; a < k; a++)
            for (size_t x = 0; x < n; x++) lines[u][a * n + x] = CELL(u, a, x), lines[u][(k + a) * n + x] = CELL(x, a, u);
    /* the smallest member of each entity's class; a domain's number is how many classes have a smaller one */
    size_t smallest[64], domain[64], d = 0;
    for (size_t u = 0; u < n; u++) {
        smallest[u] = 0, domain[u] = 0;
        while (memcmp(lines[smallest[u]], lines[u], 2 * k * n) != 0) smallest[u]++;
        for (size_t w = 0; w < smallest[u]; w++) domain[u] += smallest[w] == w;
        d += smallest[u] == u;
    }
    if (assignment_length < n) return refusal(10, n);
    if (table_length < d * k * d) return refusal(11, d * k * d);
    for (size_t u = 0; u < n; u++) {
        assignment[u] = (uint8_t)domain[u];
        for (size_t v = 0; v < n && smallest[u] == u; v++)
            for (size_t a = 0; a < k && smallest[v] == v; a++) table[(domain[u] * k + a) * d + domain[v]] = CELL(u, a, v);
    }
    return (uint64_t)d << 8;
}

uint64_t plain_judge(size_t n, size_t k, size_t d, const uint8_t *matrix, size_t matrix_length,
                     const uint8_t *assignment, size_t assignment_length, const uint8_t *table, size_t table_length) {
    uint64_t refused = unfit(n, k, d, 2, matrix, matrix_length);
    if (refused == 0) refused = invalid(n, k, d, assignment, assignment_length, table, table_length);
    if (refused) return refused;
    for (size_t i = 0; i < matrix_length; i++) {
        size_t u = i / (k * n), a = i / n % k, v = i % n;
        uint8_t granted = table[(assignment[u] * k + a) * d + assignment[v]];
        if ((matrix[i] == 1 && granted != 1) || (matrix[i] == 0 && granted == 1))
            return (uint64_t)1 << 8 | (uint64_t)i << 16 | (uint64_t)matrix[i] << 32;
    }
    return (uint64_t)d << 16;
}

/* ---- files */

static char text[33230 + 1]; /* the longest file, and the C library's last 0 */
static size_t length;

static void records(const char *mark, size_t count, size_t width, const uint8_t *cells) {
    for (size_t u = 0; u < count; u++) {
        length += sprintf(text + length, "%s%02zu", mark, u);
        for (size_t i = 0; i < width; i++) text[length++] = "01*"[cells[u * width + i]];
        text[length++] = '\n';
    }
    length += sprintf(text + length, "ZZ\n");
}

static void print_matrix(size_t n, size_t k, const uint8_t *matrix) {
    length = sprintf(text, "MX%02zu%zu\n", n, k);
    records("RW", n, k * n, matrix);
}

static void print_policy(size_t n, size_t k, size_t d, const uint8_t *assignment, const uint8_t *table) {
    length = sprintf(text, "PD%02zu%zu%02zu\nAS", n, k, d);
    for (size_t u = 0; u < n; u++) length += sprintf(text + length, "%02u", assignment[u]);
    text[length++] = '\n';
    records("TB", d, k * d, table);
}

static uint64_t hand_over(uint8_t *file, size_t file_length) {
    if (file_length < length) return refusal(11, length);
    memcpy(file, text, length);
    return (uint64_t)length << 8;
}

uint64_t plain_write_matrix(size_t n, size_t k, const uint8_t *matrix, size_t matrix_length, uint8_t *file, size_t file_length) {
    uint64_t refused = unfit(n, k, 0, 2, matrix, matrix_length);
    if (refused) return refused;
    print_matrix(n, k, matrix);
    return hand_over(file, file_length);
}

uint64_t plain_write_policy(size_t n, size_t k, size_t d, const uint8_t *assignment, size_t assignment_length,
                            const uint8_t *table, size_t table_length, uint8_t *file, size_t file_length) {
    uint64_t refused = beyond(n, k, d);
    if (refused == 0) refused = invalid(n, k, d, assignment, assignment_length, table, table_length);
    if (refused) return refused;
    print_policy(n, k, d, assignment, table);
    return hand_over(file, file_length);
}

/* eight bytes as one number, the first on top; behind the end 0, which is no byte of a file */
static uint64_t top(const void *bytes, size_t count) {
    uint64_t word = 0;
    for (size_t i = 0; i < 8; i++) word = word << 8 | (i < count ? ((const uint8_t *)bytes)[i] : 0);
    return word;
}

/* the first lines of all policies' files, or of all matrices', in rising order */
static size_t first_lines(int policy, uint64_t *lines) {
    size_t count = 0;
    for (size_t n = 0; n <= 64; n++)
        for (size_t k = 1; k <= 8; k++)
            for (size_t d = 0; d <= (policy ? 64 : 0); d++) {
                char line[64];
                int bytes = policy ? sprintf(line, "PD%02zu%zu%02zu\n", n, k, d) : sprintf(line, "MX%02zu%zu\n", n, k);
                if (policy == 0 || n == 0 || d > 0) lines[count++] = top(line, (size_t)bytes); /* an entity has a domain */
            }
    return count;
}

/* Of these the one that has the most leading bytes of the input. Lines that begin alike stand together, so it is beside the input's place
 * among them; and of two lines that one has more which differs by the smaller number. */
static uint64_t first_line(int policy, const uint8_t *file, size_t file_length) {
    static uint64_t all[2][8 * (65 + 64 * 64)];
    static size_t count[2];
    if (count[policy] == 0) count[policy] = first_lines(policy, all[policy]);
    const uint64_t *lines = all[policy];
    size_t bytes = policy ? 8 : 6, low = 0, high = count[policy] - 1;
    uint64_t input = top(file, file_length < bytes ? file_length : bytes);
    while (low < high) { /* to the first line that is not below the input, or the last of all */
        size_t middle = (low + high) / 2;
        if (lines[middle] < input) low = middle + 1;
        else high = middle;
    }
    return low > 0 && (lines[low - 1] ^ input) < (lines[low] ^ input) ? lines[low - 1] : lines[low];
}

static size_t digit(uint64_t line, size_t i) { return line >> (56 - 8 * i) & 15; }

/* The cells of the records that begin at a place, by the characters that stand there; 0 where there is none of a cell. */
static void nearest_cells(size_t at, size_t count, size_t width, int gaps, const uint8_t *file, size_t file_length, uint8_t *cells) {
    for (size_t u = 0; u < count; u++)
        for (size_t i = 0; i < width; i++) {
            size_t place = at + u * (width + 5) + 4 + i;
            uint8_t here = place < file_length ? file[place] : 0;
            cells[u * width + i] = (uint8_t)((here == '1') + 2 * (gaps & (here == '*')));
        }
}

/* the domain below d whose two digits are nearest to what stands at a place, in the sense of first_line */
static uint8_t nearest_domain(size_t at, size_t d, const uint8_t *file, size_t file_length) {
    uint64_t input = at < file_length ? top(file + at, file_length - at) >> 48 : 0, least = UINT64_MAX;
    uint8_t domain = 0;
    for (size_t p = 0; p < d; p++) {
        uint64_t other = (('0' + p / 10) << 8 | ('0' + p % 10)) ^ input;
        if (other < least) least = other, domain = (uint8_t)p;
    }
    return domain;
}

/* Refusal 12, or 0, where the printed file is the nearest. */
static uint64_t malformed(const uint8_t *file, size_t file_length) {
    size_t common = 0;
    while (common < file_length && common < length && file[common] == (uint8_t)text[common]) common++;
    return common == file_length && common == length ? 0 : refusal(12, common);
}

uint64_t plain_read_matrix(const uint8_t *file, size_t file_length, uint8_t *matrix, size_t matrix_length) {
    static uint8_t cells[64 * 8 * 64];
    uint64_t line = first_line(0, file, file_length);
    size_t n = digit(line, 2) * 10 + digit(line, 3), k = digit(line, 4);
    nearest_cells(6, n, k * n, 1, file, file_length, cells);
    print_matrix(n, k, cells);
    uint64_t refused = malformed(file, file_length);
    if (refused) return refused;
    if (matrix_length < n * k * n) return refusal(11, n * k * n);
    if (n) memcpy(matrix, cells, n * k * n);
    return (uint64_t)n << 8 | (uint64_t)k << 16;
}

uint64_t plain_read_policy(const uint8_t *file, size_t file_length,
                           uint8_t *assignment, size_t assignment_length, uint8_t *table, size_t table_length) {
    static uint8_t domains[64], cells[64 * 8 * 64];
    uint64_t line = first_line(1, file, file_length);
    size_t n = digit(line, 2) * 10 + digit(line, 3), k = digit(line, 4), d = digit(line, 5) * 10 + digit(line, 6);
    for (size_t u = 0; u < n; u++) domains[u] = nearest_domain(10 + 2 * u, d, file, file_length);
    nearest_cells(11 + 2 * n, d, k * d, 0, file, file_length, cells);
    print_policy(n, k, d, domains, cells);
    uint64_t refused = malformed(file, file_length);
    if (refused) return refused;
    if (assignment_length < n) return refusal(10, n);
    if (table_length < d * k * d) return refusal(11, d * k * d);
    if (n) memcpy(assignment, domains, n);
    if (d) memcpy(table, cells, d * k * d);
    return (uint64_t)n << 8 | (uint64_t)k << 16 | (uint64_t)d << 24;
}

uint64_t plain_weave(const uint8_t *input, size_t input_length, uint8_t *output, size_t output_length) {
    static uint8_t matrix[64 * 8 * 64], domains[64], cells[64 * 8 * 64];
    if (output_length < 33230) return refusal(11, 33230);
    uint64_t word = plain_read_matrix(input, input_length, matrix, sizeof matrix);
    size_t n = word >> 8 & 0xff, k = word >> 16;
    if ((word & 0xff) == 0) word = plain_build(n, k, matrix, n * k * n, domains, sizeof domains, cells, sizeof cells);
    if ((word & 0xff) == 0) print_policy(n, k, word >> 8, domains, cells);
    else length = sprintf(text, "NO%02u%05u\n", (unsigned)(word & 0xff), (unsigned)(word >> 8));
    return hand_over(output, output_length);
}
