/* Inserts of sheets with wires beside the same sheets without: shallow chains with a wire between any two boxes, and a hold of a
 * channel with 1,000 wires in a row between them. */
#include <stdio.h>
#include <stdlib.h>
#include <string.h>

#include "../inputs/shallow.h"
#include "../inputs/wires.h"
#include "cases.h"

enum { INSERTS = 16, IN_A_ROW = 1000 };

static struct task plain, wired;
static struct site site;
static struct chance chance = {6}; /* beside the site's own */

static void clear_sheets(void)
{
    plain.sheets.sheets = 0;
    wired.sheets.sheets = 0;
}

static void add_both(const struct drawn *without, const struct drawn *with)
{
    add_sheet(&plain.sheets, without, MOST_BUNDLE);
    add_sheet(&wired.sheets, with, MOST_BUNDLE);
}

/* The chains that the full store has, for it can take no new ones; else new chains. */
static void fill_sheets(uint64_t seed)
{
    static struct drawn without, with;
    if (plain.store[0] == STORE_ROWS)
        open_site(&site, seed, 0);
    clear_sheets();
    for (uint32_t i = 0; i < INSERTS; i++) {
        draw_chain(&site, SHEET_ROWS, &without);
        draw_again(&chance, &without);
        with = without;
        put_wires(&with);
        add_both(&without, &with);
    }
}

static void fill_long(void)
{
    static struct drawn without, with;
    clear_sheets();
    draw_wires(0, &without);
    draw_wires(IN_A_ROW, &with);
    add_both(&without, &with);
}

/* Boxes have the numbers that they have without wires, and the store gets the same rows. */
static void compare_wired(uint32_t i)
{
    static struct lent without, with;
    uint32_t boxes = two(plain.sheets.bytes + plain.sheets.place[i] + 5);
    lend(&plain, &without);
    lend(&wired, &with);
    run_call(&plain, &calls_of[LIBRARY], &without, i);
    run_call(&wired, &calls_of[LIBRARY], &with, i);
    if (without.number == 0 && with.number == 0 && without.value == with.value &&
        memcmp(without.store, with.store, sizeof with.store) == 0 &&
        memcmp(without.answers, with.answers, boxes * sizeof *with.answers) == 0)
        return;
    fprintf(stderr, "bench: results differ: %s, call %u: with wires %u (%zu), without %u (%zu)\n", wired.name, i + 1, with.number,
            with.value, without.number, without.value);
    exit(1);
}

static void measure_both(const struct pace *pace, const char *what, uint32_t calls)
{
    double with, without;
    snprintf(wired.name, sizeof wired.name, "%s into %u rows", what, wired.store[0]);
    plain.kind = wired.kind = INSERT;
    plain.calls = wired.calls = calls;
    for (uint32_t i = 0; i < calls; i++)
        compare_wired(i);
    time_calls(&wired, pace, &calls_of[LIBRARY], 1, &with);
    time_calls(&plain, pace, &calls_of[LIBRARY], 1, &without);
    printf("%-46s %5.0f %12.1f %12.1f %8.2f\n", wired.name, rows_of(&wired), 1e6 * with, 1e6 * without, with / without);
    fflush(stdout);
}

static void measure_store(const struct pace *pace, uint64_t seed, uint32_t rows)
{
    open_site(&site, seed, 0);
    build_shallow(&site, rows, plain.store);
    memcpy(wired.store, plain.store, sizeof wired.store);
    fill_sheets(seed);
    measure_both(pace, "insert of 5 to 60 boxes", INSERTS);
    if (rows == STORE_ROWS)
        return; /* it has no room for the hold */
    fill_long();
    measure_both(pace, "insert of 1,000 wires in a row", 1);
}

void measure_wires(const struct pace *pace)
{
    static const uint32_t sizes[] = {100, 500, STORE_ROWS};
    printf("\n%-46s %5s %12s %12s %8s\n", "Sheets with wires", "rows", "with", "without", "with/");
    printf("%-46s %5s %12s %12s %8s\n", "", "", "us a call", "us a call", "without");
    for (int k = 0; k < 3; k++)
        measure_store(pace, 7, sizes[k]);
}
