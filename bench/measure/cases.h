/* The cases of the table: shallow chains as sites draw them, strict inserts of them, inserts of them with wires, a few rows, the
 * worst cases, mending in its worst cases, old sheets converted, runs of counts, and growth from 64 to 2,048 rows. */
#ifndef CASES_H
#define CASES_H

#include "results.h"

void measure_shallow(struct results *r);

/* The strict insert over the plain one. */
struct worst_ratio measure_strict(const struct pace *pace);

/* Sheets with wires beside the same sheets without. */
void measure_wires(const struct pace *pace);

void measure_few(struct results *r);

/* CPU seconds of the library's insert of a tiny sheet into a deep store. */
double measure_worst(struct results *r);

/* The slowest of the stores that are mended, CPU seconds, and which it is. */
struct worst_mend {
    double seconds;
    char where[64];
};

struct worst_mend measure_mend(const struct pace *pace);

/* Converting over the same in C. */
struct worst_ratio measure_converts(const struct pace *pace);

/* A run over the same loop in C. */
struct worst_ratio measure_runs(const struct pace *pace);

void measure_growth(struct results *r);

#endif
