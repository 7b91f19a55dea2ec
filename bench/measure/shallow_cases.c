/* Shallow chains, drawn anew and copied: stores of 100, 500 and 1,024 rows; a check, inserts of 5 to 60 rows, keys, compares.
 * Then the same inserts by the strict insert, beside the plain one. */
#include <stdio.h>
#include <string.h>

#include "../inputs/shallow.h"
#include "cases.h"

enum { INSERTS = 16, KEYS = 16, COMPARES = 8 };

/* A store's site: opened again, it draws the same chains. */
struct family {
    const char *name;
    uint64_t seed;
    int copies;
};

static struct task task;
static struct site site;
static struct chance chance = {5}; /* beside the site's own */

static void measure_as(struct results *r, const struct family *f, enum operation_kind kind, const char *what, uint32_t calls,
                       unsigned counts)
{
    snprintf(task.name, sizeof task.name, "%s: %s %u rows", f->name, what, task.store[0]);
    task.kind = kind;
    task.calls = calls;
    print_result(measure(r, &task, counts | (task.store[0] < 500 ? FOR_FEW : FOR_MANY)));
}

/* Sheets that the store takes: new chains, some of their inputs leading past a row. The full store can take no new ones, so its
 * site is opened again and draws the chains that it has, in another order. */
static void fill_sheets(const struct family *f)
{
    static struct drawn d;
    uint32_t stored = task.store[0];
    if (stored == STORE_ROWS)
        open_site(&site, f->seed, f->copies);
    task.sheets.sheets = 0;
    for (uint32_t i = 0; i < INSERTS; i++) {
        draw_chain(&site, SHEET_ROWS, &d);
        if (stored < STORE_ROWS)
            lead_past(&chance, &d);
        draw_again(&chance, &d);
        add_sheet(&task.sheets, &d, MOST_BUNDLE);
    }
}

static void choose_rows(void)
{
    for (uint32_t i = 0; i < KEYS; i++)
        task.row[i] = below(&chance, task.store[0]);
}

/* The next row with the same label and input count, round to the row itself. */
static uint32_t next_alike(uint32_t n)
{
    const uint32_t *like = row_words(task.store, n);
    do
        n = (n + 1) % task.store[0];
    while (memcmp(row_words(task.store, n), like, 2 * sizeof *like) != 0);
    return n;
}

/* Rows of the store and of the same store numbered otherwise: every second pair has the same tree, the others only look so. */
static void choose_pairs(void)
{
    uint16_t order[STORE_ROWS];
    shuffle(&chance, order, task.store[0]);
    renumber(task.store, order, task.second);
    for (uint32_t i = 0; i < COMPARES; i++)
        task.other[i] = order[i % 2 == 0 ? task.row[i] : next_alike(task.row[i])];
}

static void measure_store(struct results *r, const struct family *f, uint32_t rows)
{
    open_site(&site, f->seed, f->copies);
    build_shallow(&site, rows, task.store);
    measure_as(r, f, CHECK, "check of", 1, FOR_CHECK | FOR_SORT);
    fill_sheets(f);
    measure_as(r, f, INSERT, "insert of 5 to 60 rows into", INSERTS, FOR_INSERT);
    choose_rows();
    measure_as(r, f, WRITE_KEY, "key in", KEYS, FOR_CHECK);
    choose_pairs();
    measure_as(r, f, COMPARE, "compare in two stores of", COMPARES, 0);
}

static const uint32_t sizes[] = {100, 500, 1024};
static const struct family families[] = {{"anew", 7, 0}, {"copied", 8, 1}};

void measure_shallow(struct results *r)
{
    print_head("Shallow chains, drawn anew and copied");
    for (int i = 0; i < 2; i++)
        for (int k = 0; k < 3; k++)
            measure_store(r, &families[i], sizes[k]);
}

/* Sites draw catalogue operations, and their loops pass holds, so that the strict insert takes every sheet. */
static void measure_strict_store(const struct pace *pace, const struct family *f, uint32_t rows, struct worst_ratio *found)
{
    double times[BOTH];
    open_site(&site, f->seed, f->copies);
    build_shallow(&site, rows, task.store);
    fill_sheets(f);
    snprintf(task.name, sizeof task.name, "%s: insert of 5 to 60 rows into %u rows", f->name, rows);
    task.kind = INSERT;
    task.calls = INSERTS;
    compare_strict(&task);
    time_calls(&task, pace, inserts_of, BOTH, times);
    double over = times[STRICT] / times[PLAIN];
    printf("%-46s %5.0f %12.1f %12.1f %8.2f\n", task.name, rows_of(&task), 1e6 * times[STRICT], 1e6 * times[PLAIN], over);
    fflush(stdout);
    note_ratio(found, over, task.name);
}

struct worst_ratio measure_strict(const struct pace *pace)
{
    struct worst_ratio found = {0, ""};
    printf("\n%-46s %5s %12s %12s %8s\n", "Strict inserts of shallow chains", "rows", "strict", "plain", "strict/");
    printf("%-46s %5s %12s %12s %8s\n", "", "", "us a call", "us a call", "plain");
    for (int i = 0; i < 2; i++)
        for (int k = 0; k < 3; k++)
            measure_strict_store(pace, &families[i], sizes[k], &found);
    return found;
}
