/* The yardsticks: one scan in plain C, by the rows of any table and by a program written in C. */
#ifndef PROGRAMS_H
#define PROGRAMS_H

#include <stdint.h>

/* A table as kv_table leaves it. */
struct table {
    const uint32_t *rows, *cells;
    uint32_t n_rows, n_cells;
};

/* rows.c: one scan of any table that keeps the rules, in one loop. Nothing is tested. */
void scan_rows(const struct table *t, int64_t *state, const int64_t *inputs);

/* straight.c: one scan of the program of that name. */
typedef void straight_scan(int64_t *state, const int64_t *inputs);
straight_scan totalizer, valve, median;

#endif
