#include "results.h"

#include <stdio.h>
#include <stdlib.h>
#include <string.h>

const struct result *measure(struct results *r, const struct task *t, unsigned counts)
{
    if (r->many == MOST_RESULTS) {
        fprintf(stderr, "bench: more cases than there is room for\n");
        exit(2);
    }
    struct result *result = &r->all[r->many++];
    strcpy(result->name, t->name);
    result->rows = rows_of(t);
    result->counts = counts;
    result->rounds = compare_results(t);
    time_task(t, &r->pace, result->times);
    return result;
}

double ratio(const struct result *result, int kind)
{
    return result->times[LIBRARY] / result->times[kind];
}

const struct result *worst_of(const struct results *r, unsigned counts, int kind)
{
    const struct result *worst = NULL;
    for (int i = 0; i < r->many; i++) {
        const struct result *one = &r->all[i];
        if ((one->counts & counts) != 0 && (worst == NULL || ratio(one, kind) > ratio(worst, kind)))
            worst = one;
    }
    return worst;
}

double middle_of(const struct results *r, unsigned counts, int kind)
{
    double ratios[MOST_RESULTS];
    int many = 0;
    for (int i = 0; i < r->many; i++)
        if ((r->all[i].counts & counts) != 0)
            ratios[many++] = ratio(&r->all[i], kind);
    return median(ratios, many);
}

void note_ratio(struct worst_ratio *found, double over, const char *where)
{
    if (over <= found->worst)
        return;
    found->worst = over;
    snprintf(found->where, sizeof found->where, "%s", where);
}

void print_before_head(const char *word)
{
    if (kinds > BEFORE)
        printf(" %8s", word);
    printf("\n");
}

void print_before(const struct result *result)
{
    if (kinds > BEFORE)
        printf(" %8.3f", ratio(result, BEFORE));
    printf("\n");
    fflush(stdout);
}

void print_head(const char *title)
{
    printf("\n%-46s %5s %6s %12s %12s %12s %8s %8s", title, "rows", "rounds", "library", "rounds in C", "Hopcroft", "library/",
           "library/");
    print_before_head("library/");
    printf("%-46s %5s %6s %12s %12s %12s %8s %8s", "", "", "", "us a call", "us a call", "us a call", "rounds", "Hopcroft");
    print_before_head("before");
}

/* Calls on a few rows take about a microsecond. */
static void print_time(double seconds)
{
    double us = 1e6 * seconds;
    printf(" %12.*f", us < 10 ? 2 : 1, us);
}

void print_result(const struct result *result)
{
    printf("%-46s %5.0f %6u", result->name, result->rows, result->rounds);
    for (int kind = LIBRARY; kind <= HOPCROFT; kind++)
        print_time(result->times[kind]);
    printf(" %8.2f %8.2f", ratio(result, ROUNDS), ratio(result, HOPCROFT));
    print_before(result);
}
