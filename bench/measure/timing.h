/* CPU time of a call: batches of calls, the kinds in turn so that all meet the same load, and the median of the batches. */
#ifndef TIMING_H
#define TIMING_H

#include "task.h"

enum { MOST_REPEATS = 15 };

struct pace {
    double batch;     /* CPU seconds that a batch should take */
    int repeats;      /* batches */
    double slow;      /* a run over the calls that takes as long is repeated less */
    int slow_repeats;
    double tiny;      /* CPU seconds for the tiny sheets that follow a deep store */
    double most;      /* CPU seconds that a whole bundle of them may take */
};

double cpu_now(void);

double median(double *times, int many);

/* CPU seconds of a call, for each kind. */
void time_task(const struct task *t, const struct pace *p, double *times);

/* The same for so many other calls, MOST_KINDS at the most. */
void time_calls(const struct task *t, const struct pace *p, const struct calls *calls, int many, double *times);

/* The same for works of some other kind, by the number of the kind. */
void time_works(const struct pace *p, void (*work)(int kind), int many, double *times);

#endif
