/* Measured cases: printed as they come, and kept for the goals. */
#ifndef RESULTS_H
#define RESULTS_H

#include "timing.h"

/* What a case counts for: a check or key of a shallow store, an insert of a shallow sheet, sorting shallow rows, deep rows and
 * loops, and not being slower than before, with 100 rows and with 500 or more. For sorting count the checks, and the inserts of
 * so many rows that the rest of an insert is as nothing. */
enum { FOR_CHECK = 1, FOR_INSERT = 2, FOR_SORT = 4, FOR_DEEP = 8, FOR_FEW = 16, FOR_MANY = 32 };

struct result {
    char name[64];
    double rows;
    uint32_t rounds;
    double times[MOST_KINDS];
    unsigned counts;
};

enum { MOST_RESULTS = 96 };

struct results {
    struct pace pace;
    int many;
    struct result all[MOST_RESULTS];
};

/* Compares, measures and keeps a task. */
const struct result *measure(struct results *r, const struct task *t, unsigned counts);

double ratio(const struct result *result, int kind);

/* The case with the worst ratio among those that count for something. */
const struct result *worst_of(const struct results *r, unsigned counts, int kind);

/* The middle ratio among them. */
double middle_of(const struct results *r, unsigned counts, int kind);

/* The worst ratio of two times that were taken side by side, and where it is. */
struct worst_ratio {
    double worst;
    char where[64];
};

void note_ratio(struct worst_ratio *found, double over, const char *where);

void print_head(const char *title);

void print_result(const struct result *result);

/* The last column, of the library over the one before: only in a run that has an older library. */
void print_before_head(const char *word);
void print_before(const struct result *result);

#endif
