/* Counts run through chains, beside the same loop in C, which puts the rows in order once and evaluates each once a tick: a shallow
 * chain alone and beside others, 1,024 rows straight on, and loops through holds. All that is given back is compared first. */
#include <chain_register.h>
#include <stdio.h>
#include <stdlib.h>
#include <string.h>

#include "../baseline/operations.h"
#include "../inputs/shallow.h"
#include "../inputs/worst.h"
#include "cases.h"

enum { CHANNELS = 8, TICKS = 1000, FEW_TICKS = 10, LEAST_ROWS = 50, MOST_ROWS = 60, STAGES = 255 };

/* The library's run, and the one in C. */
enum { BY_LIBRARY, IN_C, BOTH_RUNS };

static uint32_t store[STORE_WORDS], drawn[STORE_WORDS], row_run, ticks;
static int32_t values[TICKS * CHANNELS], output[TICKS], wanted[TICKS];
static struct chance chance = {11};

/* Counts as a hood has them: about a level, with noise, and now and then the ends of 32 bits. */
static void record_counts(void)
{
    for (uint32_t i = 0; i < TICKS * CHANNELS; i++) {
        int32_t count = 300 + (int32_t)below(&chance, 100) - (int32_t)below(&chance, 600);
        values[i] = below(&chance, 50) == 0 ? below(&chance, 2) == 0 ? INT32_MIN : INT32_MAX : count;
    }
}

static uint32_t run_by(int kind, int32_t *to)
{
    if (kind == BY_LIBRARY)
        return chain_run(store, STORE_WORDS, row_run, CHANNELS, values, ticks * CHANNELS, to, ticks);
    return run_counts(sort_by_hopcroft, store, STORE_WORDS, row_run, CHANNELS, values, ticks * CHANNELS, to, ticks);
}

static void run_once(int kind)
{
    run_by(kind, output);
}

static void measure_run(const struct pace *p, const char *name, uint32_t many, struct worst_ratio *found)
{
    double times[BOTH_RUNS];
    ticks = many;
    memset(output, 0, sizeof output);
    memset(wanted, 0, sizeof wanted);
    uint32_t number = run_by(BY_LIBRARY, output), other = run_by(IN_C, wanted);
    if (number != CHAIN_DONE || other != CHAIN_DONE || memcmp(output, wanted, sizeof output) != 0) {
        fprintf(stderr, "bench: results differ: %s: the library gave %u, the loop in C gave %u\n", name, number, other);
        exit(1);
    }
    time_works(p, run_once, BOTH_RUNS, times);
    double over = times[BY_LIBRARY] / times[IN_C];
    printf("%-46s %5u %6u %12.1f %12.1f %8.2f\n", name, store[0], ticks, 1e6 * times[BY_LIBRARY], 1e6 * times[IN_C], over);
    fflush(stdout);
    note_ratio(found, over, name);
}

/* The first sheet of a site that has 50 rows or more, into an empty store; behind it the sheets that follow, as long as they surely
 * fit into so many rows. */
static void build_chains(uint32_t rows)
{
    static struct site site;
    static struct drawn d;
    static struct bundle b;
    uint32_t answers[SHEET_ROWS], added;
    open_site(&site, 17, 0);
    do
        draw_chain(&site, MOST_ROWS, &d);
    while (d.count < LEAST_ROWS);
    store[0] = 0;
    do {
        read_eight_channels(&d);
        b.sheets = 0;
        add_sheet(&b, &d, MOST_BUNDLE);
        insert_sheet(sort_by_hopcroft, store, STORE_WORDS, b.bytes, b.place[1], answers, SHEET_ROWS, &added);
        draw_chain(&site, MOST_ROWS, &d);
    } while (store[0] + MOST_ROWS <= rows);
    row_run = 0;
}

/* The rows in some order; what leads to all of them is row 0 of the drawing. */
static void put_in_order(uint16_t *order, void (*put)(uint16_t *order, uint32_t rows))
{
    put(order, drawn[0]);
    renumber(drawn, order, store);
    row_run = order[0];
}

static void shuffled_order(uint16_t *order, uint32_t rows)
{
    shuffle(&chance, order, rows);
}

static const struct order_case {
    const char *name;
    void (*put)(uint16_t *order, uint32_t rows);
} order_cases[] = {{"root first", same_order}, {"leaf first", turned_order}, {"shuffled", shuffled_order}};

static void measure_orders(const struct pace *p, const char *what, uint32_t many, struct worst_ratio *found)
{
    static uint16_t order[STORE_ROWS];
    char name[64];
    for (size_t i = 0; i < sizeof order_cases / sizeof order_cases[0]; i++) {
        put_in_order(order, order_cases[i].put);
        snprintf(name, sizeof name, "%s, %s", what, order_cases[i].name);
        measure_run(p, name, many, found);
    }
}

struct worst_ratio measure_runs(const struct pace *pace)
{
    struct worst_ratio found = {0, ""};
    printf("\n%-46s %5s %6s %12s %12s %8s\n", "Runs of counts, 8 channels", "rows", "ticks", "library", "loop in C", "library/");
    printf("%-46s %5s %6s %12s %12s %8s\n", "", "", "", "us a call", "us a call", "loop");
    record_counts();
    build_chains(0);
    measure_run(pace, "a shallow chain", TICKS, &found);
    measure_run(pace, "a shallow chain, a few ticks", FEW_TICKS, &found);
    build_chains(STORE_ROWS);
    measure_run(pace, "a shallow chain beside others", TICKS, &found);
    build_straight(STORE_ROWS, drawn);
    measure_orders(pace, "straight on", TICKS, &found);
    build_deep(STORE_ROWS, drawn);
    measure_orders(pace, "holds one on another", TICKS, &found);
    build_loop(STORE_ROWS, 255, drawn);
    measure_orders(pace, "a loop of holds and a scale", TICKS, &found);
    build_stages(STAGES, drawn);
    measure_orders(pace, "stages in series", TICKS, &found);
    build_straight(STORE_ROWS, drawn);
    measure_orders(pace, "straight on, a few ticks", FEW_TICKS, &found);
    return found;
}
