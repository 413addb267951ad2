/* Solves many lines of 64 by the proved library and by the baseline, and holds the answers together.
   bench time              nanoseconds for a line, the median of 15 runs of each
   bench count WHO TIMES   only the calls, for callgrind; WHO is proved, rounding, same or unchecked */
#include "plain.h"
#include <stdio.h>
#include <stdlib.h>
#include <string.h>
#include <time.h>

enum { N = 64, RUNS = 15, TIMES = 20000 };

uint32_t line_eliminate(const int64_t *line, size_t n, int64_t *out, size_t room);

static int64_t line[N], out[N];
static uint64_t seed = 12345;

static int64_t within_limit(void) {
    seed = seed * 6364136223846793005u + 1442695040888963407u;
    return (int64_t)((seed >> 33) % 10000001) - 5000000;
}

static void fill(void) {
    for (int j = 0; j < N; j++) line[j] = within_limit();
}

typedef uint32_t solver(const int64_t *, size_t, int64_t *, size_t);

static uint32_t sweeps_only(const int64_t *k, size_t n, int64_t *x, size_t room) {
    (void)room;
    plain_sweeps(k, x, n);
    return 0;
}

static void solve_many(solver *solve, long times) {
    for (long i = 0; i < times; i++) {
        line[i & 63] ^= 1;
        if (solve(line, N, out, N) != 0) exit(2);
    }
}

static int by_size(const void *a, const void *b) {
    double x = *(const double *)a, y = *(const double *)b;
    return (x > y) - (x < y);
}

static double nanoseconds(solver *solve) {
    double run[RUNS];
    struct timespec from, to;
    for (int r = 0; r < RUNS; r++) {
        clock_gettime(CLOCK_MONOTONIC, &from);
        solve_many(solve, TIMES);
        clock_gettime(CLOCK_MONOTONIC, &to);
        run[r] = ((to.tv_sec - from.tv_sec) * 1e9 + (to.tv_nsec - from.tv_nsec)) / TIMES;
    }
    qsort(run, RUNS, sizeof *run, by_size);
    return run[RUNS / 2];
}

/* Whether each residual of x lies within 3. */
static int within_grade(const int64_t *k, const int64_t *x, size_t n) {
    for (size_t j = 0; j < n; j++) {
        int64_t sum = x[j ? j - 1 : 0] + 4 * x[j] + x[j + 1 < n ? j + 1 : j];
        if (sum - 6 * k[j] > 3 || sum - 6 * k[j] < -3) return 0;
    }
    return 1;
}

/* The same steps give the same answers; the other baseline keeps the same grade. */
static void agree(void) {
    int64_t proved[N];
    for (int i = 0; i < 1000; i++) {
        fill();
        for (size_t n = 2; n <= N; n++) {
            if (line_eliminate(line, n, proved, n) || plain_eliminate(line, n, out, n) || memcmp(proved, out, n * sizeof *out)) {
                fprintf(stderr, "the answers differ at length %zu\n", n);
                exit(1);
            }
            if (plain_rounding(line, n, out, n) || !within_grade(line, out, n)) {
                fprintf(stderr, "the baseline with rounded products misses the grade at length %zu\n", n);
                exit(1);
            }
        }
    }
}

int main(int argc, char **argv) {
    plain_tables();
    fill();
    if (argc == 2 && !strcmp(argv[1], "time")) {
        agree();
        printf("%.1f %.1f %.1f %.1f\n", nanoseconds(line_eliminate), nanoseconds(plain_eliminate), nanoseconds(plain_rounding),
               nanoseconds(sweeps_only));
        return 0;
    }
    if (argc == 4 && !strcmp(argv[1], "count")) {
        long times = atol(argv[3]);
        solve_many(argv[2][0] == 'p' ? line_eliminate : argv[2][0] == 's' ? plain_eliminate : argv[2][0] == 'r' ? plain_rounding : sweeps_only, times);
        return 0;
    }
    fprintf(stderr, "usage: bench time | bench count WHO TIMES\n");
    return 2;
}
