/* The baseline in plain C: what it offers. */
#include <stddef.h>
#include <stdint.h>

void plain_tables(void); /* once, before the others */

/* Both sweeps alone, with no check of the line. */
void plain_sweeps(const int64_t *line, int64_t *out, size_t n);

/* The same steps as the proved solver: the checks, then both sweeps, products rounded down. */
uint32_t plain_eliminate(const int64_t *line, size_t n, int64_t *out, size_t room);

/* The same checks and recurrences with finer numbers: 2^32 finer units, pivots in parts of 2^62, each product rounded to nearest. */
uint32_t plain_rounding(const int64_t *line, size_t n, int64_t *out, size_t room);
