#include "program_cases.h"

#include <stdio.h>

#include "../baseline/operations.h"
#include "../inputs/shallow.h"
#include "../inputs/worst.h"

enum { FIRST = 32, DEEP = 1024, DEEP_WITH_ROOM = 1001, LEAST_TINY = 4, MOST_TINY = 2000, MOST_ONES = 2132 };

static struct bundle bundle;

/* Whether the store takes the sheet that was added last. */
static int takes_last(uint32_t *store)
{
    uint32_t answers[SHEET_ROWS], added;
    const uint32_t *place = bundle.place + bundle.sheets - 1;
    return insert_sheet(sort_by_hopcroft, store, STORE_WORDS, bundle.bytes + place[0], place[1] - place[0], answers, SHEET_ROWS,
                        &added) == 0;
}

/* New chains until the store has no room for the next. The first of them are kept. */
static void fill_new(struct site *s, struct drawn *first)
{
    static uint32_t store[STORE_WORDS];
    static struct drawn d;
    store[0] = 0;
    bundle.sheets = 0;
    do {
        draw_chain(s, SHEET_ROWS, &d);
        if (bundle.sheets < FIRST)
            first[bundle.sheets] = d;
        if (!add_sheet(&bundle, &d, BUNDLE_BYTES))
            return;
    } while (takes_last(store));
    bundle.sheets--;
}

/* A bundle that is full of sheets that are done: new chains, and then the first of them drawn again in other orders. */
static void fill_shallow(uint64_t seed, int copies)
{
    static struct site site;
    static struct drawn first[FIRST], d;
    struct chance chance = {13};
    open_site(&site, seed, copies);
    fill_new(&site, first);
    do {
        d = first[below(&chance, FIRST)];
        draw_again(&chance, &d);
    } while (add_sheet(&bundle, &d, BUNDLE_BYTES));
}

/* A deep chain of so many rows as the first sheet. */
static void begin_deep(uint32_t rows, void (*put_order)(uint16_t *order, uint32_t rows))
{
    static uint32_t store[STORE_WORDS];
    static struct drawn d;
    uint16_t order[SHEET_ROWS];
    build_deep(rows, store);
    draw_store(store, &d);
    put_order(order, rows);
    reorder(&d, order);
    bundle.sheets = 0;
    add_sheet(&bundle, &d, BUNDLE_BYTES);
}

/* A deep chain, and so many tiny sheets. */
static void fill_deep(uint32_t tiny)
{
    static struct drawn d;
    struct chance chance = {19};
    begin_deep(DEEP_WITH_ROOM, same_order);
    while (bundle.sheets <= tiny) {
        draw_tiny(&chance, &d);
        if (!add_sheet(&bundle, &d, BUNDLE_BYTES))
            return;
    }
}

/* Much work for 32,768 bytes: a chain that fills the store, leaf first, and so many sheets of one row without inputs, by
 * turns the chain's channel and one for which there is no room. */
static void fill_ones(uint32_t ones)
{
    static struct drawn d;
    begin_deep(DEEP, turned_order);
    d.count = 1;
    while (bundle.sheets <= ones) {
        d.rows[0] = row(CHANNEL, 1 + bundle.sheets % 2, 0, 0, 0);
        if (!add_sheet(&bundle, &d, BUNDLE_BYTES))
            return;
    }
}

static double measure_bundle(const struct programs *p, const char *name)
{
    struct program_times t = time_programs(p, &bundle);
    double ratio = t.register_time / t.baseline_time;
    printf("%-46s %7u %12.1f %12.1f %8.2f\n", name, bundle.sheets, 1e3 * t.register_time, 1e3 * t.baseline_time, ratio);
    fflush(stdout);
    return ratio;
}

static double larger(double a, double b)
{
    return a > b ? a : b;
}

/* The deep bundles, with as many tiny sheets as there is time for. The second is measured whole if there is time at all, as its
 * goal is set so, and then it takes so long that fewer repeats do. */
static double measure_deep(const struct programs *p, const struct pace *pace, double tiny_insert)
{
    double many = larger(pace->tiny / tiny_insert, LEAST_TINY);
    fill_deep(many < MOST_TINY ? (uint32_t)many : MOST_TINY);
    double tiny = measure_bundle(p, "a deep chain, then tiny sheets");
    struct programs fewer = *p;
    fewer.repeats = p->repeats - 2;
    fill_ones(MOST_ONES * tiny_insert < pace->most ? MOST_ONES : (uint32_t)many);
    return larger(tiny, measure_bundle(&fewer, "a deep chain leaf first, then sheets of a row"));
}

struct program_ratios measure_programs(const struct programs *p, const struct pace *pace, double tiny_insert)
{
    printf("\n%-46s %7s %12s %12s %8s\n", "The programs, as whole processes", "sheets", "chains", "Hopcroft", "chains/");
    printf("%-46s %7s %12s %12s %8s\n", "(less the time of an empty bundle)", "", "ms", "ms", "Hopcroft");
    fill_shallow(17, 0);
    double anew = measure_bundle(p, "anew: a bundle of shallow chains");
    fill_shallow(18, 1);
    double copied = measure_bundle(p, "copied: a bundle of shallow chains");
    double deep = measure_deep(p, pace, tiny_insert);
    return (struct program_ratios){larger(anew, copied), deep};
}
