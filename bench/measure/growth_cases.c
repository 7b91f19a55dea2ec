/* Growth: an insert that sorts from 64 to 2,048 rows, half of them in the store and half in the sheet, which draws the same
 * trees in another order. Shallow chains, and one deep chain. */
#include <stdio.h>

#include "../inputs/shallow.h"
#include "../inputs/worst.h"
#include "cases.h"

enum { LEAST = 64, MOST = 2048 };

static struct task task;
static struct chance chance = {3};

/* The store's rows drawn again as the task's sheet. */
static void draw_sheet(void)
{
    static struct drawn drawn;
    draw_store(task.store, &drawn);
    draw_again(&chance, &drawn);
    task.sheets.sheets = 0;
    add_sheet(&task.sheets, &drawn, MOST_BUNDLE);
}

static void print_growth_head(void)
{
    printf("\n%-46s %5s %6s %12s %8s %12s %8s %8s %8s", "Growth from 64 to 2,048 rows", "rows", "rounds", "library", "times",
           "Hopcroft", "times", "library/", "library/");
    print_before_head("library/");
    printf("%-46s %5s %6s %12s %8s %12s %8s %8s %8s", "", "", "", "us a call", "of half", "us a call", "of half", "rounds",
           "Hopcroft");
    print_before_head("before");
}

static double times_longer(const struct result *first, const struct result *last, int kind)
{
    return last->times[kind] / first->times[kind];
}

static void print_times_of_half(const struct result *result, const struct result *half, int kind)
{
    printf(" %12.1f", 1e6 * result->times[kind]);
    if (half == NULL)
        printf(" %8s", "");
    else
        printf(" %8.2f", times_longer(half, result, kind));
}

static void print_growth(const struct result *result, const struct result *half)
{
    printf("%-46s %5.0f %6u", result->name, result->rows, result->rounds);
    print_times_of_half(result, half, LIBRARY);
    print_times_of_half(result, half, HOPCROFT);
    printf(" %8.2f %8.2f", ratio(result, ROUNDS), ratio(result, HOPCROFT));
    print_before(result);
}

static void print_whole_growth(const char *name, const struct result *first, const struct result *last)
{
    double rows = last->rows / first->rows;
    printf("%s: with %.0f times the rows the library takes %.0f times as long, Hopcroft %.0f times (%.0f is in step with the rows, "
           "%.0f with their square)\n", name, rows, times_longer(first, last, LIBRARY), times_longer(first, last, HOPCROFT), rows,
           rows * rows);
}

static void build_shallow_store(uint32_t rows)
{
    static struct site site;
    open_site(&site, 9, 0);
    build_shallow(&site, rows, task.store);
}

static void build_deep_store(uint32_t rows)
{
    build_deep(rows, task.store);
}

/* A series, of which the case with the most rows counts for something. */
static void measure_series(struct results *r, const char *name, void (*build)(uint32_t rows), unsigned counts)
{
    const struct result *first = NULL, *half = NULL;
    for (uint32_t rows = LEAST; rows <= MOST; rows *= 2) {
        build(rows / 2);
        draw_sheet();
        snprintf(task.name, sizeof task.name, "%s: insert of %u rows beside %u", name, rows / 2, rows / 2);
        task.kind = INSERT;
        task.calls = 1;
        const struct result *result = measure(r, &task, rows == MOST ? counts : 0);
        print_growth(result, half);
        first = first == NULL ? result : first;
        half = result;
    }
    print_whole_growth(name, first, half);
}

void measure_growth(struct results *r)
{
    print_growth_head();
    measure_series(r, "anew", build_shallow_store, FOR_SORT | FOR_MANY);
    measure_series(r, "deep", build_deep_store, FOR_DEEP);
}
