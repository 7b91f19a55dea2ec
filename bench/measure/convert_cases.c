/* Old sheets converted, beside the same in C: shallow chains that name rows of a store, one row above a chain of 1,023, 512 rows
 * that name 512, and 1,024 that name none, over a full store and an empty one. All that is given back is compared first, also for
 * the same sheets spoiled. */
#include <chain_register.h>
#include <stdio.h>
#include <stdlib.h>
#include <string.h>

#include "../baseline/operations.h"
#include "../inputs/shallow.h"
#include "../inputs/worst.h"
#include "cases.h"

enum { SHEETS = 16, NAMED = 512, SPOILED = 400 };

/* The library's converter, and the one in C. */
enum { BY_LIBRARY, IN_C, BOTH_CONVERTERS };

/* What a converter gives back. */
struct given {
    uint32_t number;
    size_t written, place;
    uint8_t out[SHEET_BYTES];
};

static uint32_t store[STORE_WORDS];
static struct bundle sheets;
static struct drawn drawn;
static struct site site;
static struct given given[BOTH_CONVERTERS];
static struct chance chance = {29};

static void convert_by(int kind, const uint8_t *sheet, size_t bytes, size_t room)
{
    struct given *g = &given[kind];
    if (kind == BY_LIBRARY)
        g->number = chain_convert(store, STORE_WORDS, sheet, bytes, g->out, room, &g->written, &g->place);
    else
        g->number = convert_sheet(sort_by_hopcroft, store, STORE_WORDS, sheet, bytes, g->out, room, &g->written, &g->place);
}

static const uint8_t *sheet_at(uint32_t i, size_t *bytes)
{
    *bytes = sheets.place[i + 1] - sheets.place[i];
    return sheets.bytes + sheets.place[i];
}

static void convert_all(int kind)
{
    size_t bytes;
    for (uint32_t i = 0; i < sheets.sheets; i++) {
        const uint8_t *sheet = sheet_at(i, &bytes);
        convert_by(kind, sheet, bytes, SHEET_BYTES);
    }
}

/* Both converters on one sheet; what is past the result, or in a buffer that must stay as it was, counts too. */
static void compare_both(const char *name, const uint8_t *sheet, size_t bytes, size_t room)
{
    memset(given, 0x5a, sizeof given);
    for (int kind = 0; kind < BOTH_CONVERTERS; kind++)
        convert_by(kind, sheet, bytes, room);
    const struct given *a = &given[BY_LIBRARY], *b = &given[IN_C];
    if (memcmp(a, b, sizeof *a) == 0)
        return;
    fprintf(stderr, "bench: results differ: %s: the library gave %u (%zu bytes, place %zu), C gave %u (%zu bytes, place %zu)\n",
            name, a->number, a->written, a->place, b->number, b->written, b->place);
    exit(1);
}

/* A sheet cut short, or a byte of it changed, but to none that could make a row a wire; or a short buffer. */
static void compare_spoiled(const char *name, const uint8_t *sheet, size_t bytes)
{
    static uint8_t spoiled[SHEET_BYTES];
    memcpy(spoiled, sheet, bytes);
    switch (below(&chance, 4)) {
    case 0:
        compare_both(name, spoiled, below(&chance, (uint32_t)bytes), SHEET_BYTES);
        break;
    case 1:
        bytes = SHEET_HEAD + below(&chance, (uint32_t)bytes - SHEET_HEAD);
        put_four(spoiled, (uint32_t)bytes - 4);
        compare_both(name, spoiled, bytes, SHEET_BYTES);
        break;
    case 2:
        spoiled[below(&chance, (uint32_t)bytes)] = (uint8_t)(below(&chance, 2) == 0 ? 255 : below(&chance, WIRE));
        compare_both(name, spoiled, bytes, SHEET_BYTES);
        break;
    default:
        compare_both(name, spoiled, bytes, below(&chance, SHEET_BYTES));
    }
}

/* Rows of the results together. */
static uint32_t compare_all(const char *name)
{
    uint32_t rows = 0;
    size_t bytes;
    for (uint32_t i = 0; i < SPOILED; i++) {
        const uint8_t *sheet = sheet_at(i % sheets.sheets, &bytes);
        compare_spoiled(name, sheet, bytes);
    }
    for (uint32_t i = 0; i < sheets.sheets; i++) {
        const uint8_t *sheet = sheet_at(i, &bytes);
        compare_both(name, sheet, bytes, SHEET_BYTES);
        if (given[IN_C].number != CHAIN_DONE) {
            fprintf(stderr, "bench: %s, call %u: the number is %u, and should be 0\n", name, i + 1, given[IN_C].number);
            exit(1);
        }
        rows += two(given[IN_C].out + 5);
    }
    return rows;
}

static void measure_convert(const struct pace *p, const char *name, struct worst_ratio *found)
{
    double times[BOTH_CONVERTERS];
    uint32_t rows = 0, results = compare_all(name), many = sheets.sheets;
    for (uint32_t i = 0; i < many; i++)
        rows += two(sheets.bytes + sheets.place[i] + 5);
    time_works(p, convert_all, BOTH_CONVERTERS, times);
    double over = times[BY_LIBRARY] / times[IN_C];
    printf("%-46s %5u %6u %6u %12.1f %12.1f %8.2f\n", name, store[0], rows / many, results / many,
           1e6 * times[BY_LIBRARY] / many, 1e6 * times[IN_C] / many, over);
    fflush(stdout);
    note_ratio(found, over, name);
}

/* What is drawn becomes the only sheet. */
static void one_sheet(void)
{
    sheets.sheets = 0;
    add_sheet(&sheets, &drawn, MOST_BUNDLE);
}

static void measure_shallow_sheets(const struct pace *p, const char *what, int copies, uint32_t rows, struct worst_ratio *found)
{
    char name[64];
    open_site(&site, 31, copies);
    build_shallow(&site, rows, store);
    sheets.sheets = 0;
    for (uint32_t i = 0; i < SHEETS; i++) {
        draw_chain(&site, SHEET_ROWS, &drawn);
        draw_again(&chance, &drawn);
        lead_into_store(&chance, rows, &drawn);
        add_sheet(&sheets, &drawn, MOST_BUNDLE);
    }
    snprintf(name, sizeof name, "%s: 5 to 60 rows over %u", what, rows);
    measure_convert(p, name, found);
}

static void shuffled_order(uint16_t *order, uint32_t rows)
{
    shuffle(&chance, order, rows);
}

/* A chain of so many rows in some order, and a sheet with a hold of its root. */
static void draw_above(uint32_t rows, void (*put)(uint16_t *order, uint32_t rows))
{
    static uint32_t built[STORE_WORDS];
    static uint16_t order[STORE_ROWS];
    build_deep(rows, built);
    put(order, rows);
    renumber(built, order, store);
    drawn.count = 1;
    drawn.rows[0] = row(HOLD, 0, 1, STORE_NUMBERS + order[0], 0);
    one_sheet();
}

/* The result has 1,024 rows. With a chain of one more it would have too many, which is compared alone. */
static void measure_above(const struct pace *p, const char *name, void (*put)(uint16_t *order, uint32_t rows),
                          struct worst_ratio *found)
{
    draw_above(STORE_ROWS, put);
    compare_both(name, sheets.bytes, sheets.place[1], SHEET_BYTES);
    draw_above(STORE_ROWS - 1, put);
    measure_convert(p, name, found);
}

/* Each row of the sheet is a hold of another row of the store, in some order. */
static void measure_named(const struct pace *p, struct worst_ratio *found)
{
    static uint16_t order[STORE_ROWS];
    open_site(&site, 31, 0);
    build_shallow(&site, NAMED, store);
    shuffle(&chance, order, NAMED);
    drawn.count = NAMED;
    for (uint32_t i = 0; i < NAMED; i++)
        drawn.rows[i] = row(HOLD, 0, 1, STORE_NUMBERS + order[i], 0);
    one_sheet();
    measure_convert(p, "512 rows, each a hold of another row", found);
}

/* The rows of a full store as a sheet, over another full store, and over an empty one: there no check is shared, so that only the
 * converters themselves are measured. That is shown, with no goal. */
static void measure_unnamed(const struct pace *p, struct worst_ratio *found)
{
    struct worst_ratio shown = {0, ""};
    open_site(&site, 31, 0);
    build_shallow(&site, STORE_ROWS, store);
    draw_store(store, &drawn);
    one_sheet();
    open_site(&site, 37, 0);
    build_shallow(&site, STORE_ROWS, store);
    measure_convert(p, "1,024 rows that name none, a full store", found);
    store[0] = 0;
    measure_convert(p, "1,024 rows that name none, an empty store", &shown);
}

struct worst_ratio measure_converts(const struct pace *pace)
{
    struct worst_ratio found = {0, ""};
    printf("\n%-46s %5s %6s %6s %12s %12s %8s\n", "Old sheets converted", "store", "sheet", "result", "library", "in C",
           "library/");
    printf("%-46s %5s %6s %6s %12s %12s %8s\n", "", "rows", "rows", "rows", "us a call", "us a call", "in C");
    measure_shallow_sheets(pace, "anew", 0, 100, &found);
    measure_shallow_sheets(pace, "anew", 0, 500, &found);
    measure_shallow_sheets(pace, "copied", 1, 100, &found);
    measure_shallow_sheets(pace, "copied", 1, 500, &found);
    measure_above(pace, "a row above a chain of 1,023, root first", same_order, &found);
    measure_above(pace, "a row above a chain of 1,023, leaf first", turned_order, &found);
    measure_above(pace, "a row above a chain of 1,023, shuffled", shuffled_order, &found);
    measure_named(pace, &found);
    measure_unnamed(pace, &found);
    return found;
}
