/* The worst cases: deep chains in three orders, loops with one odd row, a deep chain above a loop, smoothing stages in series,
 * rings with own inputs, 2,048 different channels, and a deep store followed by tiny sheets: as many of them as the pace has time
 * for. */
#include <stdio.h>
#include <string.h>

#include "../inputs/worst.h"
#include "cases.h"

enum { DEEP = 1024, DEEP_WITH_ROOM = 1001, STAGES = 255, TINY = 2000, LEAST_TINY = 4, NO_ROOM = 8 };

static struct task task;
static struct drawn drawn;
static uint32_t built[STORE_WORDS];
static uint16_t order[STORE_ROWS];
static struct chance chance = {11};

static const struct {
    const char *name;
    int which;
} orders[] = {{"root first", 0}, {"leaf first", 1}, {"shuffled", 2}};

static void choose_order(int which, uint32_t rows)
{
    if (which == 0)
        same_order(order, rows);
    else if (which == 1)
        turned_order(order, rows);
    else
        shuffle(&chance, order, rows);
}

/* What is built becomes the task's store, in an order. */
static void store_built(int which)
{
    choose_order(which, built[0]);
    renumber(built, order, task.store);
}

/* What is drawn becomes the task's only sheet, in an order. */
static void sheet_drawn(int which)
{
    choose_order(which, drawn.count);
    reorder(&drawn, order);
    task.sheets.sheets = 0;
    add_sheet(&task.sheets, &drawn, MOST_BUNDLE);
}

/* What is built becomes the task's only sheet, in an order. */
static void sheet_built(int which)
{
    draw_store(built, &drawn);
    sheet_drawn(which);
}

static void measure_as(struct results *r, enum operation_kind kind, int number, unsigned counts, const char *what,
                       const char *which)
{
    snprintf(task.name, sizeof task.name, "%s%s", what, which);
    task.kind = kind;
    task.number = number;
    task.calls = 1;
    print_result(measure(r, &task, counts));
}

/* A check of what is built, in three orders. */
static void measure_checks(struct results *r, unsigned counts, const char *what)
{
    for (int i = 0; i < 3; i++) {
        store_built(orders[i].which);
        measure_as(r, CHECK, 0, counts, what, orders[i].name);
    }
}

static void measure_deep_orders(struct results *r)
{
    build_deep(DEEP, built);
    measure_checks(r, FOR_DEEP, "deep: check, ");
    for (int i = 0; i < 3; i++) {
        task.store[0] = 0;
        sheet_built(orders[i].which);
        measure_as(r, INSERT, 0, FOR_DEEP, "deep: insert into an empty store, ", orders[i].name);
    }
}

/* A chain of 1,023 rows in the store and one of 1,024 on another channel: more trees than a store has room for, which is known
 * after the sort. */
static void measure_deep_both(struct results *r)
{
    build_deep(DEEP - 1, built);
    for (int i = 0; i < 3; i++) {
        store_built(orders[i].which);
        draw_deep_beside(DEEP, &drawn);
        sheet_drawn(orders[i].which);
        measure_as(r, INSERT, NO_ROOM, FOR_DEEP, "deep: 1024 beside 1023 (no room), ", orders[i].name);
    }
}

/* The roots of a chain root first and of the same chain shuffled. */
static void measure_deep_roots(struct results *r)
{
    build_deep(DEEP, built);
    store_built(0);
    choose_order(2, DEEP);
    renumber(built, order, task.second);
    task.row[0] = 0;
    task.other[0] = order[0];
    measure_as(r, WRITE_KEY, 0, FOR_DEEP, "deep: key of the root", "");
    measure_as(r, COMPARE, 0, FOR_DEEP, "deep: compare of the roots", "");
}

/* What is built as a sheet, shuffled, into an empty store. */
static void measure_insert(struct results *r, const char *what)
{
    task.store[0] = 0;
    sheet_built(2);
    measure_as(r, INSERT, 0, FOR_DEEP, what, "");
}

static void measure_loop(struct results *r)
{
    build_loop(DEEP, 1, built);
    measure_checks(r, FOR_DEEP, "loop with one odd row: check, ");
    measure_insert(r, "loop with one odd row: insert");
}

/* A loop in the store and one in the sheet: the same, or another odd row, and then there is no room. */
static void measure_two_loops(struct results *r)
{
    build_loop(DEEP, 1, built);
    store_built(2);
    sheet_built(2);
    measure_as(r, INSERT, 0, FOR_DEEP, "two such loops: insert of the same", "");
    build_loop(DEEP, 2, built);
    sheet_built(2);
    measure_as(r, INSERT, NO_ROOM, FOR_DEEP, "two such loops: insert of another (no room)", "");
}

static void measure_above_loop(struct results *r)
{
    build_above_loop(DEEP, built);
    measure_checks(r, FOR_DEEP, "deep above a loop: check, ");
}

static void measure_stages(struct results *r)
{
    build_stages(STAGES, built);
    measure_checks(r, FOR_DEEP, "stages in series: check, ");
    measure_insert(r, "stages in series: insert");
}

/* Each row is its own input too: shown, with no goal. */
static void measure_ring(struct results *r)
{
    build_ring(DEEP, built);
    store_built(2);
    measure_as(r, CHECK, 0, 0, "ring with own inputs: check", "");
}

/* 1,024 in the store and as many others in the sheet: more trees than a store has room for, which is known after the sort. */
static void measure_channels(struct results *r)
{
    build_channels(STORE_ROWS, STORE_ROWS, built);
    sheet_built(0);
    build_channels(STORE_ROWS, 0, task.store);
    measure_as(r, INSERT, NO_ROOM, FOR_SORT, "2,048 different channels: insert (no room)", "");
}

/* As many tiny sheets as there is time for, by the slowest kind's time for one. */
static void choose_tiny(const struct pace *p)
{
    static struct lent lent;
    double slowest = 0;
    for (int kind = 0; kind < kinds; kind++) {
        lend(&task, &lent);
        double start = cpu_now();
        run_call(&task, &calls_of[kind], &lent, 0);
        double once = cpu_now() - start;
        slowest = once > slowest ? once : slowest;
    }
    double many = p->tiny / slowest;
    task.calls = many < LEAST_TINY ? LEAST_TINY : many < TINY ? (uint32_t)many : TINY;
}

static double measure_tiny(struct results *r)
{
    build_deep(DEEP_WITH_ROOM, built);
    store_built(1);
    task.sheets.sheets = 0;
    for (int i = 0; i < TINY; i++) {
        draw_tiny(&chance, &drawn);
        add_sheet(&task.sheets, &drawn, MOST_BUNDLE);
    }
    task.kind = INSERT;
    task.number = ANY;
    task.keeps = 1;
    choose_tiny(&r->pace);
    snprintf(task.name, sizeof task.name, "deep store, then %u of %u tiny sheets", task.calls, TINY);
    const struct result *result = measure(r, &task, 0);
    print_result(result);
    task.keeps = 0;
    return result->times[LIBRARY];
}

double measure_worst(struct results *r)
{
    print_head("Worst cases");
    measure_deep_orders(r);
    measure_deep_roots(r);
    measure_deep_both(r);
    measure_loop(r);
    measure_two_loops(r);
    measure_above_loop(r);
    measure_stages(r);
    measure_ring(r);
    measure_channels(r);
    return measure_tiny(r);
}
