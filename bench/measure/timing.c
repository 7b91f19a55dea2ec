#include "timing.h"

#include <time.h>

double cpu_now(void)
{
    struct timespec now;
    clock_gettime(CLOCK_PROCESS_CPUTIME_ID, &now);
    return (double)now.tv_sec + (double)now.tv_nsec / 1e9;
}

double median(double *times, int many)
{
    for (int i = 1; i < many; i++) {
        double time = times[i];
        int k = i;
        for (; k > 0 && times[k - 1] > time; k--)
            times[k] = times[k - 1];
        times[k] = time;
    }
    return times[many / 2];
}

/* CPU seconds of one run over the task's calls, from so many. */
static double time_runs(const struct task *t, const struct calls *calls, struct lent *l, int runs)
{
    double start = cpu_now();
    for (int i = 0; i < runs; i++)
        run_calls(t, calls, l);
    return (cpu_now() - start) / runs;
}

/* CPU seconds of a run. The first run is not counted: nothing is in a cache yet. */
static double time_once(const struct task *t, const struct pace *p, const struct calls *calls, struct lent *l)
{
    double once = time_runs(t, calls, l, 1);
    return once < p->slow ? time_runs(t, calls, l, 1) : once;
}

/* How many runs fill a batch. */
static int runs_of(const struct pace *p, double once)
{
    return once < p->batch ? 1 + (int)(p->batch / once) : 1;
}

static int repeats_of(const struct pace *p, double once)
{
    return once < p->slow ? p->repeats : p->slow_repeats;
}

void time_task(const struct task *t, const struct pace *p, double *times)
{
    time_calls(t, p, calls_of, kinds, times);
}

void time_calls(const struct task *t, const struct pace *p, const struct calls *calls, int many, double *times)
{
    static struct lent lent; /* the same memory for all kinds, so that none has it better aligned */
    static double all[MOST_KINDS][MOST_REPEATS];
    int runs[MOST_KINDS], repeats[MOST_KINDS];
    for (int kind = 0; kind < many; kind++) {
        lend(t, &lent);
        double once = time_once(t, p, &calls[kind], &lent);
        runs[kind] = runs_of(p, once);
        repeats[kind] = repeats_of(p, once);
    }
    for (int i = 0; i < p->repeats; i++)
        for (int kind = 0; kind < many; kind++)
            if (i < repeats[kind])
                all[kind][i] = time_runs(t, &calls[kind], &lent, runs[kind]) / t->calls;
    for (int kind = 0; kind < many; kind++)
        times[kind] = median(all[kind], repeats[kind]);
}

/* CPU seconds of a work of a kind, from so many. */
static double time_work(void (*work)(int kind), int kind, int runs)
{
    double start = cpu_now();
    for (int i = 0; i < runs; i++)
        work(kind);
    return (cpu_now() - start) / runs;
}

void time_works(const struct pace *p, void (*work)(int kind), int many, double *times)
{
    static double all[MOST_KINDS][MOST_REPEATS];
    int runs[MOST_KINDS];
    for (int kind = 0; kind < many; kind++)
        runs[kind] = runs_of(p, time_work(work, kind, 1));
    for (int i = 0; i < p->repeats; i++)
        for (int kind = 0; kind < many; kind++)
            all[kind][i] = time_work(work, kind, runs[kind]);
    for (int kind = 0; kind < many; kind++)
        times[kind] = median(all[kind], p->repeats);
}
