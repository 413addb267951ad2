/* The work of crates/panel_bench in plain C: bench_panel SWEEPS WORK KIND TIMES, SWEEPS being same (the very steps of the proved solver) or
   rounding (finer numbers, each product rounded). It prints a check sum; with the same sweeps it must be that of panel_bench. */
#include "panel.h"
#include <stdio.h>
#include <stdlib.h>
#include <string.h>

static int32_t samples[MOST * MOST * 3], halves[MOST * MOST * 3], controls[MOST * MOST * 3];
static uint64_t state;

static uint32_t next(void) {
    state = state * 6364136223846793005u + 1442695040888963407u;
    return (uint32_t)(state >> 33);
}

static void fit(struct plain_panel *p, plain_solver *solve) {
    int refused = 0;
    for (int i = 1; i <= p->rows; i++) refused |= plain_first_line(p, samples, halves, i, solve, 3);
    for (int j = 1; j <= p->columns; j++) refused |= plain_second_line(p, halves, controls, j, solve, 3);
    if (refused) exit(2);
}

int main(int argc, char **argv) {
    if (argc != 5) {
        fprintf(stderr, "usage: bench_panel same|rounding fit|read heights|points TIMES\n");
        return 2;
    }
    plain_solver *solve = strcmp(argv[1], "same") ? plain_rounding : plain_eliminate;
    int parts = strcmp(argv[3], "points") ? 1 : 3;
    long times = atol(argv[4]);
    struct plain_panel panel;
    int64_t sum = 0;
    plain_tables();
    state = 12409;
    for (int i = 0; i < MOST * MOST * parts; i++) samples[i] = (int32_t)(next() % 200001) - 100000;
    if (plain_make(&panel, MOST, MOST, parts, samples)) return 2;
    fit(&panel, solve);
    if (!strcmp(argv[2], "fit")) {
        for (long i = 0; i < times; i++) {
            int32_t new[3] = {(int32_t)(i % 1000), samples[1], samples[2]};
            plain_probe(&panel, samples, 1, 1, new);
            fit(&panel, solve);
            for (int k = 0; k < MOST * MOST; k++) sum += controls[k * parts];
        }
    } else {
        state = 777;
        for (long i = 0; i < times; i++) {
            int32_t reading[3];
            uint32_t tolerance;
            int x = 32 + (int)(next() % 2016), y = 32 + (int)(next() % 2016);
            if (plain_read(&panel, controls, x, y, reading, &tolerance)) return 2;
            sum += (int64_t)reading[0] + tolerance;
        }
    }
    printf("%lld\n", (long long)sum);
    return 0;
}
