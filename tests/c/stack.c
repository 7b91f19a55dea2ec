/*
 * How much of the stack each call takes: it runs on a stack of its own, painted first, and the paint left at the far end is
 * counted. Each call has a figure of its own, so that a new array on its way shows; docs/MEMORY.md has what is measured.
 * Status 1 if a call ends otherwise than it should, or takes more than its figure, or as much as the header says that none does.
 */
#define _XOPEN_SOURCE 600
#include "chain_register.h"
#include <stdio.h>
#include <string.h>
#include <ucontext.h>

enum { SPACE = 1 << 17, PAINT = 0xA5 };

static union {
    unsigned char bytes[SPACE];
    long double aligned;
} stack;

static ucontext_t here, there;
static uint32_t number;

/* Channel 1, constant 40, their difference and room for a row more; a hold in two turns; the difference as a sheet, a key. */
static uint32_t store[25] = {3, 65537, 0, 0, 0, 0, 0, 131112, 0, 0, 0, 0, 0, 196608, 2, 0, 1, 0, 0};
static const uint8_t hold[] = {0, 0, 0, 17, 1, 0, 2, 0, 6, 0, 0, 1, 0, 1, 0, 6, 0, 0, 1, 0, 0};
static const uint8_t difference[] = {0, 0, 0, 22, 1, 0, 3, 0, 3, 0, 0, 2, 0, 1, 0, 2, 0, 1, 0, 1, 0, 0, 2, 0, 40, 0};

/* A row of operation 13; a sum of itself and itself. */
static const uint8_t free_row[] = {0, 0, 0, 8, 1, 0, 1, 0, 13, 0, 0, 0};
static const uint8_t loop[] = {0, 0, 0, 12, 1, 0, 1, 0, 4, 0, 0, 2, 0, 0, 0, 0};

/* A hold of a wire that leads back to it; a wire without an input; a wire to itself. */
static const uint8_t wire[] = {0, 0, 0, 17, 1, 0, 2, 0, 6, 0, 0, 1, 0, 1, 0, 7, 0, 0, 1, 0, 0};
static const uint8_t short_wire[] = {0, 0, 0, 8, 1, 0, 1, 0, 7, 0, 0, 0};
static const uint8_t wire_loop[] = {0, 0, 0, 10, 1, 0, 1, 0, 7, 0, 0, 1, 0, 0};

/* A difference of store rows 0 and 1; store rows 0 and 1 negated. */
static const uint8_t known[] = {0, 0, 0, 12, 1, 0, 1, 0, 3, 0, 0, 2, 128, 0, 128, 1};
static const uint8_t negate_0[] = {0, 0, 0, 10, 1, 0, 1, 0, 12, 0, 0, 1, 128, 0};
static const uint8_t negate_1[] = {0, 0, 0, 10, 1, 0, 1, 0, 12, 0, 0, 1, 128, 1};

/* 1,024 rows one on another, the last a channel: what the calls do for deep rows alone counts too. */
static uint32_t deep[CHAIN_MOST_WORDS];
static uint8_t deep_key[CHAIN_MOST_KEY_BYTES];
static size_t deep_bytes;

static void fill_deep(void)
{
    deep[0] = CHAIN_MOST_ROWS;
    for (uint32_t n = 0; n < CHAIN_MOST_ROWS; n++) {
        int last = n + 1 == CHAIN_MOST_ROWS;
        deep[1 + 6 * n] = last ? 65537 : 393216;
        deep[2 + 6 * n] = last ? 0 : 1;
        deep[3 + 6 * n] = last ? 0 : n + 1;
    }
}

static uint32_t answers[CHAIN_MOST_ROWS], added, yes, counts[4];
static size_t place, written;
static uint8_t result[CHAIN_MOST_KEY_BYTES];

/* Ticks of two channels. In the second store operation 13, in the third a sum of itself twice. */
static int32_t values[2 * CHAIN_MOST_ROWS], output[CHAIN_MOST_ROWS];
static const uint32_t free_store[] = {1, 851968, 0, 0, 0, 0, 0};
static const uint32_t loop_store[] = {1, 262144, 2, 0, 0, 0, 0};

static void run_check(void)
{
    number = chain_check(store, 25);
}

static void run_check_deep(void)
{
    number = chain_check(deep, CHAIN_MOST_WORDS);
}

static void run_read_sheet(void)
{
    number = chain_read_sheet(deep_key, deep_bytes, &place);
}

static void run_insert(void)
{
    number = chain_insert(store, 25, hold, sizeof hold, answers, 2, &added, &place);
}

static void run_insert_deep(void)
{
    number = chain_insert(deep, CHAIN_MOST_WORDS, deep_key, deep_bytes, answers, CHAIN_MOST_ROWS, &added, &place);
}

static void run_insert_cut(void)
{
    number = chain_insert(deep, CHAIN_MOST_WORDS, deep_key, deep_bytes - 1, answers, CHAIN_MOST_ROWS, &added, &place);
}

static void run_insert_full(void)
{
    number = chain_insert(deep, CHAIN_MOST_WORDS, hold, sizeof hold, answers, CHAIN_MOST_ROWS, &added, &place);
}

static void run_insert_wire(void)
{
    number = chain_insert(store, 25, wire, sizeof wire, answers, 2, &added, &place);
}

static void run_insert_short_wire(void)
{
    number = chain_insert(deep, CHAIN_MOST_WORDS, short_wire, sizeof short_wire, answers, CHAIN_MOST_ROWS, &added, &place);
}

static void run_insert_wire_loop(void)
{
    number = chain_insert(deep, CHAIN_MOST_WORDS, wire_loop, sizeof wire_loop, answers, CHAIN_MOST_ROWS, &added, &place);
}

static void run_strict(void)
{
    number = chain_insert_strict(store, 25, hold, sizeof hold, answers, 2, &added, &place);
}

static void run_strict_deep(void)
{
    number = chain_insert_strict(deep, CHAIN_MOST_WORDS, deep_key, deep_bytes, answers, CHAIN_MOST_ROWS, &added, &place);
}

static void run_strict_cut(void)
{
    number = chain_insert_strict(deep, CHAIN_MOST_WORDS, deep_key, deep_bytes - 1, answers, CHAIN_MOST_ROWS, &added, &place);
}

static void run_strict_free(void)
{
    number = chain_insert_strict(deep, CHAIN_MOST_WORDS, free_row, sizeof free_row, answers, CHAIN_MOST_ROWS, &added, &place);
}

static void run_strict_loop(void)
{
    number = chain_insert_strict(deep, CHAIN_MOST_WORDS, loop, sizeof loop, answers, CHAIN_MOST_ROWS, &added, &place);
}

static void run_strict_short_wire(void)
{
    number = chain_insert_strict(deep, CHAIN_MOST_WORDS, short_wire, sizeof short_wire, answers, CHAIN_MOST_ROWS, &added, &place);
}

static void run_strict_wire_loop(void)
{
    number = chain_insert_strict(deep, CHAIN_MOST_WORDS, wire_loop, sizeof wire_loop, answers, CHAIN_MOST_ROWS, &added, &place);
}

static void run_strict_full(void)
{
    number = chain_insert_strict(deep, CHAIN_MOST_WORDS, hold, sizeof hold, answers, CHAIN_MOST_ROWS, &added, &place);
}

static void run_mend(void)
{
    number = chain_mend(store, 25, answers, CHAIN_MOST_ROWS, &counts[0], &counts[1], &counts[2], &counts[3]);
}

static void run_mend_deep(void)
{
    number = chain_mend(deep, CHAIN_MOST_WORDS, answers, CHAIN_MOST_ROWS, &counts[0], &counts[1], &counts[2], &counts[3]);
}

static void run_mend_refused(void)
{
    number = chain_mend(deep, CHAIN_MOST_WORDS, answers, CHAIN_MOST_ROWS - 1, &counts[0], &counts[1], &counts[2], &counts[3]);
}

/* The same rows above a spoiled one. It is the last call, for it leaves no rows. */
static void run_mend_spoiled(void)
{
    deep[2 + 6 * (CHAIN_MOST_ROWS - 1)] = 5;
    run_mend_deep();
}

static void run_write_key(void)
{
    uint8_t key[26];
    number = chain_write_key(store, 25, 2, key, sizeof key, &written);
}

static void run_write_key_deep(void)
{
    number = chain_write_key(deep, CHAIN_MOST_WORDS, 0, deep_key, sizeof deep_key, &deep_bytes);
}

static void run_is_key(void)
{
    number = chain_is_key(difference, sizeof difference) ? CHAIN_DONE : CHAIN_WRONG_ROWS;
}

static void run_is_key_deep(void)
{
    number = chain_is_key(deep_key, deep_bytes) ? CHAIN_DONE : CHAIN_WRONG_ROWS;
}

static void run_compare(void)
{
    number = chain_compare(store, 25, 2, store, 25, 2, &yes);
}

static void run_compare_deep(void)
{
    number = chain_compare(deep, CHAIN_MOST_WORDS, 0, deep, CHAIN_MOST_WORDS, 0, &yes);
}

static void run_part_of(void)
{
    number = chain_part_of(deep, CHAIN_MOST_WORDS, 1023, 0, &yes);
}

static void run_next_sheet(void)
{
    number = chain_next_sheet(hold, sizeof hold) == sizeof hold ? CHAIN_DONE : CHAIN_WRONG_LENGTH;
}

static void run_run(void)
{
    number = chain_run(store, 25, 2, 2, values, 2 * CHAIN_MOST_ROWS, output, CHAIN_MOST_ROWS);
}

static void run_run_deep(void)
{
    number = chain_run(deep, CHAIN_MOST_WORDS, 0, 2, values, 2 * CHAIN_MOST_ROWS, output, CHAIN_MOST_ROWS);
}

static void run_run_free(void)
{
    number = chain_run(free_store, 7, 0, 2, values, 2 * CHAIN_MOST_ROWS, output, CHAIN_MOST_ROWS);
}

static void run_run_loop(void)
{
    number = chain_run(loop_store, 7, 0, 2, values, 2 * CHAIN_MOST_ROWS, output, CHAIN_MOST_ROWS);
}

static void run_run_no_trace(void)
{
    number = chain_run(deep, CHAIN_MOST_WORDS, 0, 1, values, 2 * CHAIN_MOST_ROWS, output, CHAIN_MOST_ROWS);
}

static void run_run_short(void)
{
    number = chain_run(deep, CHAIN_MOST_WORDS, 0, 2, values, 2 * CHAIN_MOST_ROWS, output, CHAIN_MOST_ROWS - 1);
}

static void run_convert(void)
{
    number = chain_convert(store, 25, known, sizeof known, result, sizeof result, &written, &place);
}

static void run_convert_deep(void)
{
    number = chain_convert(deep, CHAIN_MOST_WORDS, negate_1, sizeof negate_1, result, sizeof result, &written, &place);
}

static void run_convert_itself(void)
{
    number = chain_convert(deep, CHAIN_MOST_WORDS, deep_key, deep_bytes, result, sizeof result, &written, &place);
}

static void run_convert_cut(void)
{
    number = chain_convert(deep, CHAIN_MOST_WORDS, deep_key, deep_bytes - 1, result, sizeof result, &written, &place);
}

static void run_convert_short_wire(void)
{
    number = chain_convert(deep, CHAIN_MOST_WORDS, short_wire, sizeof short_wire, result, sizeof result, &written, &place);
}

static void run_convert_wire_loop(void)
{
    number = chain_convert(deep, CHAIN_MOST_WORDS, wire_loop, sizeof wire_loop, result, sizeof result, &written, &place);
}

static void run_convert_long(void)
{
    number = chain_convert(deep, CHAIN_MOST_WORDS, negate_0, sizeof negate_0, result, sizeof result, &written, &place);
}

static void run_convert_short(void)
{
    number = chain_convert(deep, CHAIN_MOST_WORDS, negate_1, sizeof negate_1, result, 26, &written, &place);
}

/* In this order: the key of the deep rows is written before it is read, and they are spoiled last. */
static const struct {
    const char *name;
    void (*call)(void);
    uint32_t number;
    size_t most;
} calls[] = {
    {"check", run_check, CHAIN_DONE, 17408},
    {"check, 1,024 rows", run_check_deep, CHAIN_DONE, 17408},
    {"key", run_write_key, CHAIN_DONE, 21504},
    {"key, 1,024 rows", run_write_key_deep, CHAIN_DONE, 21504},
    {"read a sheet, 1,024 rows", run_read_sheet, CHAIN_DONE, 256},
    {"insert", run_insert, CHAIN_DONE, 23808},
    {"insert, 1,024 rows beside 1,024", run_insert_deep, CHAIN_DONE, 23808},
    {"insert, refused for the sheet", run_insert_cut, CHAIN_WRONG_LENGTH, 23808},
    {"insert, no room", run_insert_full, CHAIN_NO_ROOM, 23808},
    {"insert, a wire", run_insert_wire, CHAIN_DONE, 23808},
    {"insert, a short wire", run_insert_short_wire, CHAIN_SHORT_WIRE, 23808},
    {"insert, a loop of wires", run_insert_wire_loop, CHAIN_WIRE_LOOP, 23808},
    {"strict insert", run_strict, CHAIN_DONE, 24832},
    {"strict insert, 1,024 beside 1,024", run_strict_deep, CHAIN_DONE, 24832},
    {"strict insert, refused for the sheet", run_strict_cut, CHAIN_WRONG_LENGTH, 24832},
    {"strict insert, a free operation", run_strict_free, CHAIN_NOT_LISTED, 24832},
    {"strict insert, a loop without a hold", run_strict_loop, CHAIN_NOT_HELD, 24832},
    {"strict insert, a short wire", run_strict_short_wire, CHAIN_SHORT_WIRE, 24832},
    {"strict insert, a loop of wires", run_strict_wire_loop, CHAIN_WIRE_LOOP, 24832},
    {"strict insert, no room", run_strict_full, CHAIN_NO_ROOM, 24832},
    {"is a key", run_is_key, CHAIN_DONE, 19456},
    {"is a key, 1,024 rows", run_is_key_deep, CHAIN_DONE, 19456},
    {"compare", run_compare, CHAIN_DONE, 25600},
    {"compare, 1,024 rows and 1,024", run_compare_deep, CHAIN_DONE, 25600},
    {"part of, 1,024 rows", run_part_of, CHAIN_DONE, 21504},
    {"next sheet", run_next_sheet, CHAIN_DONE, 256},
    {"run", run_run, CHAIN_DONE, 28928},
    {"run, 1,024 rows", run_run_deep, CHAIN_DONE, 28928},
    {"run, a free operation", run_run_free, CHAIN_NOT_LISTED, 28928},
    {"run, a loop without a hold", run_run_loop, CHAIN_NOT_HELD, 28928},
    {"run, no trace", run_run_no_trace, CHAIN_NO_TRACE, 28928},
    {"run, a short output", run_run_short, CHAIN_SHORT_OUTPUT, 28928},
    {"convert", run_convert, CHAIN_DONE, 29696},
    {"convert, 1,023 rows behind one", run_convert_deep, CHAIN_DONE, 29696},
    {"convert, 1,024 rows as they are", run_convert_itself, CHAIN_DONE, 29696},
    {"convert, refused for the sheet", run_convert_cut, CHAIN_WRONG_LENGTH, 29696},
    {"convert, a short wire", run_convert_short_wire, CHAIN_SHORT_WIRE, 29696},
    {"convert, a loop of wires", run_convert_wire_loop, CHAIN_WIRE_LOOP, 29696},
    {"convert, a row too many", run_convert_long, CHAIN_LONG_RESULT, 29696},
    {"convert, a short buffer", run_convert_short, CHAIN_SHORT_BUFFER, 29696},
    {"mend", run_mend, CHAIN_DONE, 17408},
    {"mend, 1,024 rows", run_mend_deep, CHAIN_DONE, 17408},
    {"mend, refused for the list", run_mend_refused, CHAIN_SHORT_LIST, 17408},
    {"mend, 1,023 rows above a spoiled one", run_mend_spoiled, CHAIN_DONE, 17408},
};

/* The bytes of the stack that a call reaches down to. */
static size_t depth(void (*call)(void))
{
    size_t left = 0;

    memset(stack.bytes, PAINT, SPACE);
    number = UINT32_MAX;
    getcontext(&there);
    there.uc_stack.ss_sp = stack.bytes;
    there.uc_stack.ss_size = SPACE;
    there.uc_link = &here;
    makecontext(&there, call, 0);
    swapcontext(&here, &there);
    while (left < SPACE && stack.bytes[left] == PAINT)
        left++;
    return SPACE - left;
}

int main(void)
{
    size_t deepest = 0;
    int status = 0;

    fill_deep();
    for (size_t i = 0; i < sizeof calls / sizeof calls[0]; i++) {
        size_t bytes = depth(calls[i].call);
        printf("stack: %-36s %5zu bytes of at most %5zu\n", calls[i].name, bytes, calls[i].most);
        if (number != calls[i].number || bytes > calls[i].most) {
            printf("stack: that is too much, or the call gave %u instead of %u\n", number, calls[i].number);
            status = 1;
        }
        if (bytes > deepest)
            deepest = bytes;
    }
    printf("stack: the deepest call takes %zu bytes; the header says under %d\n", deepest, CHAIN_STACK_BYTES);
    return status == 0 && deepest < CHAIN_STACK_BYTES ? 0 : 1;
}
