/* Each operation of the library on a shallow store of 1,024 rows, and inserts that end early, late and with the most rows. Deep
 * rows are sorted by more of the library than shallow ones, so a check and an insert meet them too. */
#include <chain_register.h>
#include <stdio.h>
#include <string.h>

#include "../inputs/shallow.h"
#include "../inputs/worst.h"
#include "stack.h"

static uint32_t store[STORE_WORDS], answers[SHEET_ROWS], word, counts[4];
static struct bundle sheets;
static uint8_t key[SHEET_BYTES];
static size_t bytes, place;

static void check(void)
{
    chain_check(store, STORE_WORDS);
}

static void insert(void)
{
    chain_insert(store, STORE_WORDS, sheets.bytes, sheets.place[1], answers, SHEET_ROWS, &word, &place);
}

static void insert_refused(void)
{
    chain_insert(store, STORE_WORDS, sheets.bytes, sheets.place[1] - 1, answers, SHEET_ROWS, &word, &place);
}

static void insert_strict(void)
{
    chain_insert_strict(store, STORE_WORDS, sheets.bytes, sheets.place[1], answers, SHEET_ROWS, &word, &place);
}

static void read_sheet(void)
{
    chain_read_sheet(sheets.bytes, sheets.place[1], &place);
}

static void write_key(void)
{
    chain_write_key(store, STORE_WORDS, 0, key, sizeof key, &bytes);
}

static void is_key(void)
{
    chain_is_key(key, bytes);
}

static void compare(void)
{
    chain_compare(store, STORE_WORDS, 0, store, STORE_WORDS, 0, &word);
}

static void part_of(void)
{
    chain_part_of(store, STORE_WORDS, 0, 1, &word);
}

static void convert(void)
{
    chain_convert(store, STORE_WORDS, sheets.bytes, sheets.place[1], key, sizeof key, &bytes, &place);
}

static void mend(void)
{
    chain_mend(store, STORE_WORDS, answers, SHEET_ROWS, &counts[0], &counts[1], &counts[2], &counts[3]);
}

/* Row 0 of a store that reads no channel: the shallow ones have more channels than a trace. */
static void run(void)
{
    static const int32_t values[8];
    static int32_t output[8];
    chain_run(store, STORE_WORDS, 0, 1, values, 8, output, 8);
}

static void next_sheet(void)
{
    chain_next_sheet(sheets.bytes, sheets.place[1]);
}

/* The store's own rows again as a sheet. */
static void draw_all(void)
{
    static struct drawn d;
    draw_store(store, &d);
    sheets.sheets = 0;
    add_sheet(&sheets, &d, MOST_BUNDLE);
}

static size_t print_stack(const char *name, void (*work)(void))
{
    size_t used = stack_of(work);
    printf("%-46s %6zu%s\n", name, used, used < CHAIN_STACK_BYTES ? "" : "  NOT below CHAIN_STACK_BYTES");
    return used;
}

static size_t most(size_t a, size_t b)
{
    return a > b ? a : b;
}

/* The inserts: done with rows that the store has, refused for the sheet, and refused for room after all rows were sorted. */
static size_t measure_inserts(void)
{
    size_t used = print_stack("insert of 1,024 rows beside 1,024", insert);
    used = most(used, print_stack("insert, the sheet refused", insert_refused));
    build_channels(STORE_ROWS, 0, store);
    used = most(used, print_stack("insert, no room", insert));
    store[0] = 0;
    return most(used, print_stack("insert into an empty store", insert));
}

/* A deep chain above a loop, and the same again. */
static size_t measure_deep(void)
{
    build_above_loop(STORE_ROWS, store);
    draw_all();
    print_stack("check, deep", check);
    print_stack("mend, deep", mend);
    print_stack("convert, deep", convert);
    print_stack("run, deep", run);
    print_stack("strict insert of 1,024 beside 1,024, deep", insert_strict);
    return print_stack("insert of 1,024 rows beside 1,024, deep", insert);
}

size_t measure_stack(void)
{
    static struct site site;
    open_site(&site, 21, 0);
    build_shallow(&site, STORE_ROWS, store);
    draw_all();
    printf("\n%-46s %6s  (CHAIN_STACK_BYTES: %d)\n", "Stack of the library's calls", "bytes", CHAIN_STACK_BYTES);
    print_stack("check", check);
    print_stack("read a sheet", read_sheet);
    print_stack("key", write_key);
    print_stack("is a key", is_key);
    print_stack("compare", compare);
    print_stack("part of", part_of);
    print_stack("next sheet", next_sheet);
    print_stack("mend", mend);
    print_stack("convert", convert);
    print_stack("strict insert of 1,024 rows beside 1,024", insert_strict);
    size_t used = measure_inserts();
    return most(used, measure_deep());
}
