/* The baseline: the same fixed-point elimination in plain C, 64-bit numbers with 128-bit products, pivots from tables. */
#include "plain.h"

#define LONGEST 64
#define LIMIT 5000000

static int64_t inner[LONGEST + 1]; /* pivots, in parts of 2^60, of rows that are not the last */
static int64_t last[LONGEST + 1];  /* the pivot of the last row of a line of n */
static int64_t inner62[LONGEST];    /* the same in parts of 2^62, rows from 0 */
static int64_t last62[LONGEST + 1];

void plain_tables(void) {
    const unsigned __int128 one = (unsigned __int128)1 << 60;
    for (int j = 1; j <= LONGEST; j++) {
        inner[j] = (int64_t)(one * one / ((j == 1 ? 5 : 4) * one - inner[j - 1]));
        last[j] = (int64_t)(one * one / (5 * one - inner[j - 1]));
        inner62[j - 1] = 4 * inner[j];
        last62[j] = 4 * last[j];
    }
}

static int64_t part_of(int64_t w, int64_t b) {
    return (int64_t)(((__int128)w * b) >> 60);
}

static int64_t nearest(int64_t v) {
    return (v + 32768) >> 16;
}

void plain_sweeps(const int64_t *line, int64_t *out, size_t n) {
    int64_t g = 0, x = 0;
    for (size_t j = 0; j < n; j++) {
        g = part_of(j + 1 == n ? last[n] : inner[j + 1], 6 * 65536 * line[j] - g);
        out[j] = g;
    }
    for (size_t j = n; j-- > 0;) {
        x = out[j] - part_of(inner[j + 1], x);
        out[j] = nearest(x);
    }
}

static uint32_t checked(const int64_t *line, size_t n, size_t room) {
    if (n < 2 || n > LONGEST) return 1;
    if (room != n) return 2;
    for (size_t j = 0; j < n; j++)
        if (line[j] < -LIMIT || line[j] > LIMIT) return 3;
    return 0;
}

uint32_t plain_eliminate(const int64_t *line, size_t n, int64_t *out, size_t room) {
    uint32_t refused = checked(line, n, room);
    if (refused == 0) plain_sweeps(line, out, n);
    return refused;
}

static inline int64_t nearest_part(int64_t a, int64_t v) {
    return (int64_t)(((__int128)a * v + ((__int128)1 << 61)) >> 62);
}

static void rounding_sweeps(const int64_t *k, int64_t *x, int n) {
    int j;
    int64_t g = nearest_part((6 * k[0]) * ((int64_t)1 << 32), inner62[0]), y;
    x[0] = g;
    for (j = 1; j < n; j++) x[j] = g = nearest_part(6 * k[j] * ((int64_t)1 << 32) - g, j == n - 1 ? last62[n] : inner62[j]);
    x[n - 1] = (g + ((int64_t)1 << 31)) >> 32;
    for (j = n - 2; j >= 0; j--) {
        g = y = x[j] - nearest_part(g, inner62[j]);
        x[j] = (y + ((int64_t)1 << 31)) >> 32;
    }
}

uint32_t plain_rounding(const int64_t *line, size_t n, int64_t *out, size_t room) {
    uint32_t refused = checked(line, n, room);
    if (refused == 0) rounding_sweeps(line, out, (int)n);
    return refused;
}
