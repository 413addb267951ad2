/* The baseline of a panel in plain C: what it offers. Grids are row by row, the parts of a sample side by side; order rows first. */
#include "plain.h"

enum { MOST = 64 };

struct plain_panel {
    int rows, columns, parts;
    uint32_t probes;
    uint8_t first_grade[MOST], second_grade[MOST];
    uint8_t first_current[MOST], second_current[MOST];
};

/* Which sweeps solve a line: those of the proved solver, or finer ones with rounded products. */
typedef uint32_t plain_solver(const int64_t *line, size_t n, int64_t *out, size_t room);

/* Each answers 0 or the number of the refusal, as the proved calls do; a refusal writes nothing. */
int plain_make(struct plain_panel *p, int rows, int columns, int parts, const int32_t *samples);
int plain_probe(struct plain_panel *p, int32_t *samples, int row, int column, const int32_t *sample);
int plain_first_line(struct plain_panel *p, const int32_t *samples, int32_t *halves, int line, plain_solver *solve, int grade);
int plain_second_line(struct plain_panel *p, const int32_t *halves, int32_t *controls, int line, plain_solver *solve, int grade);
int plain_read(const struct plain_panel *p, const int32_t *controls, int x, int y, int32_t *reading, uint32_t *tolerance);
