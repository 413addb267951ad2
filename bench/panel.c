/* The baseline: the same panel calls in plain C, with the same checks, refusals and tolerances. */
#include "panel.h"
#include <string.h>

#define PART_LIMIT 100000
#define REACH 16000000

static int within(const int32_t *v, size_t n, int32_t limit) {
    for (size_t k = 0; k < n; k++)
        if (v[k] < -limit || v[k] > limit) return 0;
    return 1;
}

int plain_make(struct plain_panel *p, int rows, int columns, int parts, const int32_t *samples) {
    if (rows < 2 || rows > MOST || columns < 2 || columns > MOST) return 14;
    if (!within(samples, (size_t)rows * columns * parts, PART_LIMIT)) return 24;
    memset(p, 0, sizeof *p);
    p->rows = rows;
    p->columns = columns;
    p->parts = parts;
    return 0;
}

int plain_probe(struct plain_panel *p, int32_t *samples, int row, int column, const int32_t *sample) {
    if (row < 1 || row > p->rows || column < 1 || column > p->columns) return 21;
    if (!within(sample, (size_t)p->parts, PART_LIMIT)) return 24;
    if (p->probes >= 60000) return 25;
    memcpy(samples + ((row - 1) * p->columns + column - 1) * p->parts, sample, sizeof *sample * (size_t)p->parts);
    p->probes++;
    p->first_current[row - 1] = 0;
    memset(p->second_current, 0, sizeof p->second_current);
    return 0;
}

/* Solves all parts of a line, which starts at one number and goes on by equal steps, and stores them if none is refused. */
static int fit(const int32_t *source, int32_t *target, size_t start, size_t step, size_t count, int parts, int64_t factor, plain_solver *solve) {
    int64_t line[MOST], fitted[4][MOST];
    for (int q = 0; q < parts; q++) {
        for (size_t e = 0; e < count; e++) line[e] = factor * source[start + e * step + q];
        if (solve(line, count, fitted[q], count)) return 42;
    }
    for (int q = 0; q < parts; q++)
        for (size_t e = 0; e < count; e++) target[start + e * step + q] = (int32_t)fitted[q][e];
    return 0;
}

int plain_first_line(struct plain_panel *p, const int32_t *samples, int32_t *halves, int line, plain_solver *solve, int grade) {
    if (line < 1 || line > p->rows) return 22;
    size_t wide = (size_t)p->columns * p->parts;
    int refused = fit(samples, halves, (line - 1) * wide, p->parts, p->columns, p->parts, 16, solve);
    if (refused) return refused;
    p->first_current[line - 1] = 1;
    p->first_grade[line - 1] = (uint8_t)grade;
    memset(p->second_current, 0, sizeof p->second_current);
    return 0;
}

int plain_second_line(struct plain_panel *p, const int32_t *halves, int32_t *controls, int line, plain_solver *solve, int grade) {
    if (line < 1 || line > p->columns) return 22;
    for (int i = 0; i < p->rows; i++)
        if (!p->first_current[i]) return 31;
    size_t wide = (size_t)p->columns * p->parts;
    int refused = fit(halves, controls, (size_t)(line - 1) * p->parts, wide, p->rows, p->parts, 1, solve);
    if (refused) return refused;
    p->second_current[line - 1] = 1;
    p->second_grade[line - 1] = (uint8_t)grade;
    return 0;
}

static void weights(int64_t t, int64_t *w) {
    int64_t u = 32 - t;
    w[0] = u * u * u;
    w[1] = 3 * t * t * t - 192 * t * t + 131072;
    w[2] = -3 * t * t * t + 96 * t * t + 3072 * t + 32768;
    w[3] = t * t * t;
}

static int clamped(int count, int j) {
    return j < 1 ? 1 : j > count ? count : j;
}

int plain_read(const struct plain_panel *p, const int32_t *controls, int x, int y, int32_t *reading, uint32_t *tolerance) {
    const int64_t whole = 36ll << 30;
    int64_t u[4], v[4];
    const int32_t *rows[4];
    int columns[4], first = 0, second = 0;
    if (x < 32 || x >= 32 * p->rows || y < 32 || y >= 32 * p->columns) return 23;
    for (int a = 0; a < 4; a++) {
        rows[a] = controls + (clamped(p->rows, x / 32 + a - 1) - 1) * p->columns * p->parts;
        columns[a] = (clamped(p->columns, y / 32 + a - 1) - 1);
    }
    for (int b = 0; b < 4; b++) {
        if (!p->second_current[columns[b]]) return 32;
        if (p->second_grade[columns[b]] > second) second = p->second_grade[columns[b]];
        columns[b] *= p->parts;
    }
    for (int i = 0; i < p->rows; i++)
        if (p->first_grade[i] > first) first = p->first_grade[i];
    weights(x % 32, u);
    weights(y % 32, v);
    for (int q = 0; q < p->parts; q++)
        for (int a = 0; a < 4; a++)
            for (int b = 0; b < 4; b++) {
                int32_t point = rows[a][columns[b] + q];
                if (point < -REACH || point > REACH) return 43;
            }
    for (int q = 0; q < p->parts; q++) {
        int64_t sum = 0;
        for (int a = 0; a < 4; a++) {
            int64_t across = 0;
            for (int b = 0; b < 4; b++) across += v[b] * rows[a][columns[b] + q];
            sum += u[a] * across;
        }
        int64_t twice = 2 * sum + whole, quotient = twice / (2 * whole);
        reading[q] = (int32_t)(quotient - (twice % (2 * whole) < 0));
    }
    *tolerance = (uint32_t)(second + 3 * first + 1);
    return 0;
}
