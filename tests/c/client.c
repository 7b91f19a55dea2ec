/*
 * A C client of the register: every call on the rules' examples, on empty runs, and on one bad input of every kind, a sheet's
 * faults in its first row, in the middle and in the last; wires, right and wrong; stores mended, spoiled in each way there is;
 * counts run through chains, each operation at the ends of 32 bits; and old sheets converted.
 * Lent memory has a margin on both sides, and all of it is held to what the rules say of it, so that a byte written too much shows.
 * It prints a line for each check that fails, and status 1 if any does.
 */
#include "chain_register.h"
#include <stdio.h>
#include <string.h>

#define COUNT(list) (sizeof(list) / sizeof(list)[0])
#define BYTES(list) (list), sizeof(list)
#define WORDS(list) (list), COUNT(list)
#define NOTHING NULL, 0

enum { EDGE = 4, STALE = 0xA5, WIRE = 7 };

static unsigned checks, failures;

static void same(const char *name, const char *what, uint64_t got, uint64_t wanted)
{
    checks++;
    if (got == wanted)
        return;
    failures++;
    printf("client: %s: %s is %llu, not %llu\n", name, what, (unsigned long long)got, (unsigned long long)wanted);
}

static void same_memory(const char *name, const char *what, const void *got, const void *wanted, size_t bytes)
{
    same(name, what, (uint64_t)(memcmp(got, wanted, bytes) == 0), 1);
}

/* ---- sheets and stores of the rules */

/* A hold in one turn, and in two. */
static const uint8_t sheet_a[] = {0, 0, 0, 10, 1, 0, 1, 0, 6, 0, 0, 1, 0, 0};
static const uint8_t sheet_b[] = {0, 0, 0, 17, 1, 0, 2, 0, 6, 0, 0, 1, 0, 1, 0, 6, 0, 0, 1, 0, 0};
/* Channel 1 less constant 40, the difference first; and with the constant before the channel. */
static const uint8_t sheet_d[] = {0, 0, 0, 22, 1, 0, 3, 0, 3, 0, 0, 2, 0, 1, 0, 2, 0, 1, 0, 1, 0, 0, 2, 0, 40, 0};
static const uint8_t turned_d[] = {0, 0, 0, 22, 1, 0, 3, 0, 3, 0, 0, 2, 0, 2, 0, 1, 0, 2, 0, 40, 0, 0, 1, 0, 1, 0};
static const uint8_t no_rows[] = {0, 0, 0, 3, 1, 0, 0};
static const uint8_t channel[] = {0, 0, 0, 8, 1, 0, 1, 0, 1, 0, 1, 0};
/* Channel 1 and constant 40 behind their difference turned. */
static const uint8_t known_turned[] = {0, 0, 0, 22, 1, 0, 3, 0, 3, 0, 0, 2, 0, 2, 0, 1, 0, 1, 0, 1, 0, 0, 2, 0, 40, 0};
/* Old sheets: a difference of store rows 0 and 1, of 1 and 0, and of 0 and 3. */
static const uint8_t known[] = {0, 0, 0, 12, 1, 0, 1, 0, 3, 0, 0, 2, 128, 0, 128, 1};
static const uint8_t turned[] = {0, 0, 0, 12, 1, 0, 1, 0, 3, 0, 0, 2, 128, 1, 128, 0};
static const uint8_t store_astray[] = {0, 0, 0, 12, 1, 0, 1, 0, 3, 0, 0, 2, 128, 0, 128, 3};

/* Sheets that cannot be read, and one with an input that points nowhere. */
static const uint8_t six_bytes[] = {0, 0, 0, 2, 1, 0};
static const uint8_t miscounted[] = {0, 0, 0, 4, 1, 0, 0};
static const uint8_t two_faults[] = {0, 0, 0, 4, 2, 0, 0};
static const uint8_t version_2[] = {0, 0, 0, 3, 2, 0, 0};
static const uint8_t rows_1025[] = {0, 0, 0, 3, 1, 4, 1};
static const uint8_t row_past_end[] = {0, 0, 0, 3, 1, 0, 1};
static const uint8_t left_over[] = {0, 0, 0, 4, 1, 0, 0, 9};
static const uint8_t five_inputs[] = {0, 0, 0, 18, 1, 0, 1, 0, 4, 0, 0, 5, 0, 0, 0, 0, 0, 0, 0, 0, 0, 0};
static const uint8_t sheet_astray[] = {0, 0, 0, 10, 1, 0, 1, 0, 6, 0, 0, 1, 0, 1};

/* Sheets of one row: of the free operations 13 and 33, a hold without its input, and 13 with an input that points nowhere. */
static const uint8_t free_13[] = {0, 0, 0, 8, 1, 0, 1, 0, 13, 0, 0, 0};
static const uint8_t free_33[] = {0, 0, 0, 8, 1, 0, 1, 0, 33, 0, 1, 0};
static const uint8_t hold_of_none[] = {0, 0, 0, 8, 1, 0, 1, 0, 6, 0, 0, 0};
static const uint8_t free_astray[] = {0, 0, 0, 10, 1, 0, 1, 0, 13, 0, 0, 1, 0, 1};
/* A scale of itself, alone and beside a free operation; a sum of itself and a channel. */
static const uint8_t own_scale[] = {0, 0, 0, 10, 1, 0, 1, 0, 5, 0, 0, 1, 0, 0};
static const uint8_t own_scale_and_free[] = {0, 0, 0, 15, 1, 0, 2, 0, 5, 0, 0, 1, 0, 0, 0, 13, 0, 0, 0};
static const uint8_t own_sum[] = {0, 0, 0, 17, 1, 0, 2, 0, 4, 0, 0, 2, 0, 0, 0, 1, 0, 1, 0, 1, 0};
/* A sum of a channel and of its own value held; and of its own value held and its own value scaled. */
static const uint8_t held_sum[] = {0, 0, 0, 24, 1, 0, 3, 0, 4, 0, 0, 2, 0, 1, 0, 2, 0, 1, 0, 1, 0, 0, 6, 0, 0, 1, 0, 0};
static const uint8_t half_held[] = {0, 0, 0, 26, 1, 0, 3, 0, 4, 0, 0, 2, 0, 1, 0, 2, 0, 6, 0, 0, 1, 0, 0, 0, 5, 0, 0, 1, 0, 0};
/* Store rows 0, 1 and 2 negated. */
static const uint8_t negate_0[] = {0, 0, 0, 10, 1, 0, 1, 0, 12, 0, 0, 1, 128, 0};
static const uint8_t negate_1[] = {0, 0, 0, 10, 1, 0, 1, 0, 12, 0, 0, 1, 128, 1};
static const uint8_t negate_2[] = {0, 0, 0, 10, 1, 0, 1, 0, 12, 0, 0, 1, 128, 2};

/* A wire to channel 1, a hold of the wire, the channel; a hold, two wires one on another, and channel 1. */
static const uint8_t wire_first[] = {0, 0, 0, 22, 1, 0, 3, 0, 7, 0, 0, 1, 0, 2, 0, 6, 0, 0, 1, 0, 0, 0, 1, 0, 1, 0};
static const uint8_t two_wires[] = {0, 0, 0, 29, 1, 0, 4, 0, 6, 0, 0, 1, 0, 1, 0, 7, 0, 9, 1, 0, 2, 0, 7, 255, 255, 1, 0, 3, 0, 1,
    0, 1, 0};
/* The hold of the channel without wires. */
static const uint8_t no_wires[] = {0, 0, 0, 15, 1, 0, 2, 0, 6, 0, 0, 1, 0, 1, 0, 1, 0, 1, 0};
/* A hold of a wire to itself, which is a hold in one turn; a wire to store row 2; a difference of wires to store rows 0 and 1. */
static const uint8_t wired_hold[] = {0, 0, 0, 17, 1, 0, 2, 0, 6, 0, 0, 1, 0, 1, 0, 7, 0, 0, 1, 0, 0};
static const uint8_t wire_to_2[] = {0, 0, 0, 10, 1, 0, 1, 0, 7, 0, 0, 1, 128, 2};
static const uint8_t wired_known[] = {0, 0, 0, 26, 1, 0, 3, 0, 3, 0, 0, 2, 0, 1, 0, 2, 0, 7, 0, 0, 1, 128, 0, 0, 7, 0, 0, 1, 128,
    1};
/* A wire of no input, or a wire to itself, beside an input that names store row 0. */
static const uint8_t short_wire_and_name[] = {0, 0, 0, 15, 1, 0, 2, 0, 12, 0, 0, 1, 128, 0, 0, 7, 0, 0, 0};
static const uint8_t own_wire_and_name[] = {0, 0, 0, 17, 1, 0, 2, 0, 12, 0, 0, 1, 128, 0, 0, 7, 0, 0, 1, 0, 1};
/* An input of 32,767, which names no row of a store; the last input of 16 bits, which names none that there is. */
static const uint8_t last_of_sheets[] = {0, 0, 0, 10, 1, 0, 1, 0, 12, 0, 0, 1, 127, 255};
static const uint8_t last_of_stores[] = {0, 0, 0, 10, 1, 0, 1, 0, 12, 0, 0, 1, 255, 255};
/* A store number and a byte left over; an input astray before a store number; a free row, and a scale of itself, that names one too. */
static const uint8_t name_and_left_over[] = {0, 0, 0, 11, 1, 0, 1, 0, 12, 0, 0, 1, 128, 0, 0};
static const uint8_t astray_and_name[] = {0, 0, 0, 12, 1, 0, 1, 0, 3, 0, 0, 2, 0, 1, 128, 0};
static const uint8_t free_and_name[] = {0, 0, 0, 10, 1, 0, 1, 0, 13, 0, 0, 1, 128, 0};
static const uint8_t loop_and_name[] = {0, 0, 0, 12, 1, 0, 1, 0, 4, 0, 0, 2, 0, 0, 128, 0};
/* Channel 1 negated; a difference of wires to channel 1 and constant 40, which stand behind them. */
static const uint8_t negated_channel[] = {0, 0, 0, 15, 1, 0, 2, 0, 12, 0, 0, 1, 0, 1, 0, 1, 0, 1, 0};
static const uint8_t wired_d[] = {0, 0, 0, 36, 1, 0, 5, 0, 3, 0, 0, 2, 0, 1, 0, 2, 0, 7, 0, 0, 1, 0, 3, 0, 7, 0, 0, 1, 0, 4, 0, 1, 0, 1,
    0, 0, 2, 0, 40, 0};
/* Operation 0 with setting 7, which is no wire, on itself. */
static const uint8_t setting_7[] = {0, 0, 0, 10, 1, 0, 1, 0, 0, 0, 7, 1, 0, 0};
/* Wires of no input and of two, the second behind a channel; a wire to itself, two to each other, and a hold of one to itself. */
static const uint8_t wire_of_none[] = {0, 0, 0, 8, 1, 0, 1, 0, 7, 0, 0, 0};
static const uint8_t wire_of_two[] = {0, 0, 0, 17, 1, 0, 2, 0, 1, 0, 1, 0, 0, 7, 0, 3, 2, 0, 0, 0, 0};
static const uint8_t own_wire[] = {0, 0, 0, 10, 1, 0, 1, 0, 7, 0, 0, 1, 0, 0};
static const uint8_t wires_round[] = {0, 0, 0, 17, 1, 0, 2, 0, 7, 0, 0, 1, 0, 1, 0, 7, 0, 0, 1, 0, 0};
static const uint8_t into_own_wire[] = {0, 0, 0, 17, 1, 0, 2, 0, 6, 0, 0, 1, 0, 1, 0, 7, 0, 0, 1, 0, 1};
/* A wire to itself before one of no input; a wire of no input before an input that points nowhere. */
static const uint8_t loop_then_short[] = {0, 0, 0, 15, 1, 0, 2, 0, 7, 0, 0, 1, 0, 0, 0, 7, 0, 0, 0};
static const uint8_t short_then_astray[] = {0, 0, 0, 15, 1, 0, 2, 0, 7, 0, 0, 0, 0, 6, 0, 0, 1, 0, 2};
/* A wire to itself or of no input beside a free operation and a scale of itself; a scale of itself along two wires. */
static const uint8_t own_wire_and_free[] = {0, 0, 0, 22, 1, 0, 3, 0, 7, 0, 0, 1, 0, 0, 0, 13, 0, 0, 0, 0, 5, 0, 0, 1, 0, 2};
static const uint8_t short_wire_and_free[] = {0, 0, 0, 20, 1, 0, 3, 0, 7, 0, 0, 0, 0, 13, 0, 0, 0, 0, 5, 0, 0, 1, 0, 2};
static const uint8_t wired_scale[] = {0, 0, 0, 24, 1, 0, 3, 0, 5, 0, 0, 1, 0, 1, 0, 7, 0, 0, 1, 0, 2, 0, 7, 0, 0, 1, 0, 0};
static const uint8_t wired_free[] = {0, 0, 0, 15, 1, 0, 2, 0, 7, 0, 0, 1, 0, 1, 0, 13, 0, 0, 0};
/* A wire on a channel, in the order of a key. */
static const uint8_t wire_on_channel[] = {0, 0, 0, 15, 1, 0, 2, 0, 7, 0, 0, 1, 0, 1, 0, 1, 0, 1, 0};

/* Channel 1, constant 40, their difference; with room for one row more, and its words hold anything. */
static const uint32_t three[] = {3, 65537, 0, 0, 0, 0, 0, 131112, 0, 0, 0, 0, 0, 196608, 2, 0, 1, 0, 0, 8, 8, 8, 8, 8, 8};
static const uint32_t three_more[] = {4, 65537, 0, 0, 0, 0, 0, 131112, 0, 0, 0, 0, 0, 196608, 2, 0, 1, 0, 0, 196608, 2, 1, 0, 0, 0};
/* No rows; the hold; D in its own order. */
static const uint32_t empty[] = {0, 8, 8, 8, 8, 8, 8, 8, 8, 8, 8, 8, 8, 8, 8, 8, 8, 8, 8};
static const uint32_t with_hold[] = {1, 393216, 1, 0, 0, 0, 0, 8, 8, 8, 8, 8, 8, 8, 8, 8, 8, 8, 8};
static const uint32_t with_d[] = {3, 196608, 2, 1, 2, 0, 0, 65537, 0, 0, 0, 0, 0, 131112, 0, 0, 0, 0, 0};
static const uint32_t hold_only[] = {1, 393216, 1, 0, 0, 0, 0};
static const uint32_t one_word[] = {0};
static const uint32_t six_words[] = {0, 8, 8, 8, 8, 8};

/* Stores that are not sound: one tree twice, a count over the capacity, an input not below the count, an unused word set. */
static const uint32_t two_holds[] = {2, 393216, 1, 0, 0, 0, 0, 393216, 1, 1, 0, 0, 0};
static const uint32_t over_capacity[] = {2, 393216, 1, 0, 0, 0, 0};
static const uint32_t input_astray[] = {1, 393216, 1, 1, 0, 0, 0};
static const uint32_t unused_set[] = {1, 393216, 1, 0, 0, 0, 1};

/* Rows that a strict insert refuses in a sheet, and does not look at in a store: operation 13 and a hold on it, with room for a row; a
 * scale of itself. Before them is a channel, which is negated afterwards. And the sum with its own value held. */
static const uint32_t with_free[] = {3, 65537, 0, 0, 0, 0, 0, 851968, 0, 0, 0, 0, 0, 393216, 1, 1, 0, 0, 0, 8, 8, 8, 8, 8, 8};
static const uint32_t free_more[] = {4, 65537, 0, 0, 0, 0, 0, 851968, 0, 0, 0, 0, 0, 393216, 1, 1, 0, 0, 0, 786432, 1, 0, 0, 0, 0};
static const uint32_t with_loop[] = {2, 65537, 0, 0, 0, 0, 0, 327680, 1, 1, 0, 0, 0, 8, 8, 8, 8, 8, 8};
static const uint32_t loop_more[] = {3, 65537, 0, 0, 0, 0, 0, 327680, 1, 1, 0, 0, 0, 786432, 1, 0, 0, 0, 0};
static const uint32_t with_held_sum[] = {3, 262144, 2, 1, 2, 0, 0, 65537, 0, 0, 0, 0, 0, 393216, 1, 0, 0, 0, 0};

/* A channel and a wire to it, of one input or of none; a wire before its channel. And a wire past the rows in use: sound. */
static const uint32_t with_wire[] = {2, 65537, 0, 0, 0, 0, 0, 458752, 1, 0, 0, 0, 0};
static const uint32_t with_short_wire[] = {2, 65537, 0, 0, 0, 0, 0, 458761, 0, 0, 0, 0, 0};
static const uint32_t wire_row_0[] = {2, 458752, 1, 1, 0, 0, 0, 65537, 0, 0, 0, 0, 0};
static const uint32_t wire_past_rows[] = {1, 65537, 0, 0, 0, 0, 0, 458752, 1, 0, 0, 0, 0};
/* What the sheets with wires leave: a channel and its hold, and the other way round. */
static const uint32_t channel_held[] = {2, 65537, 0, 0, 0, 0, 0, 393216, 1, 0, 0, 0, 0, 8, 8, 8, 8, 8, 8};
static const uint32_t held_channel[] = {2, 393216, 1, 1, 0, 0, 0, 65537, 0, 0, 0, 0, 0, 8, 8, 8, 8, 8, 8};
static const uint32_t with_setting_7[] = {1, 7, 1, 0, 0, 0, 0, 8, 8, 8, 8, 8, 8, 8, 8, 8, 8, 8, 8};

/* Stores to mend, and what they become. A wire to constant 40, channel 1, the constant. */
static const uint32_t wire_to_last[] = {3, 458752, 1, 2, 0, 0, 0, 65537, 0, 0, 0, 0, 0, 131112, 0, 0, 0, 0, 0};
static const uint32_t constant_first[] = {2, 131112, 0, 0, 0, 0, 0, 65537, 0, 0, 0, 0, 0, 0, 0, 0, 0, 0, 0};
/* A hold in one turn, and one in two turns along a wire. */
static const uint32_t hold_turns[] = {4, 393216, 1, 0, 0, 0, 0, 393216, 1, 2, 0, 0, 0, 393216, 1, 3, 0, 0, 0, 458752, 1, 1, 0, 0,
    0};
static const uint32_t hold_alone[] = {1, 393216, 1, 0, 0, 0, 0, 0, 0, 0, 0, 0, 0, 0, 0, 0, 0, 0, 0, 0, 0, 0, 0, 0, 0};
/* Channel 1 behind a row that is spoiled: five inputs, an input at the count, wires of no input and of two, a wire to itself. */
static const uint32_t mend_crowded[] = {2, 393216, 5, 1, 1, 1, 1, 65537, 0, 0, 0, 0, 0};
static const uint32_t mend_astray[] = {2, 262144, 2, 1, 2, 0, 0, 65537, 0, 0, 0, 0, 0};
static const uint32_t mend_no_input[] = {2, 458752, 0, 7, 7, 7, 7, 65537, 0, 0, 0, 0, 0};
static const uint32_t mend_two_inputs[] = {2, 458752, 2, 1, 1, 0, 0, 65537, 0, 0, 0, 0, 0};
static const uint32_t mend_own_wire[] = {2, 458752, 1, 0, 0, 0, 0, 65537, 0, 0, 0, 0, 0};
static const uint32_t channel_left[] = {1, 65537, 0, 0, 0, 0, 0, 0, 0, 0, 0, 0, 0};
/* A hold on a sum of the channel and a hold that leads nowhere: all of it goes but the channel. */
static const uint32_t mend_reaching[] = {4, 393216, 1, 1, 0, 0, 0, 262144, 2, 3, 2, 0, 0, 393216, 1, 4, 0, 0, 0, 65537, 0, 0, 0, 0,
    0};
static const uint32_t channel_of_four[] = {1, 65537, 0, 0, 0, 0, 0, 0, 0, 0, 0, 0, 0, 0, 0, 0, 0, 0, 0, 0, 0, 0, 0, 0, 0};
/* Two wires to each other, and a hold of one of them: nothing is left. */
static const uint32_t mend_wires_round[] = {3, 458752, 1, 1, 0, 0, 0, 458752, 1, 0, 0, 0, 0, 393216, 1, 0, 0, 0, 0};
static const uint32_t nothing_left[] = {0, 0, 0, 0, 0, 0, 0, 0, 0, 0, 0, 0, 0, 0, 0, 0, 0, 0, 0};
/* Channel 1 twice and a wire to it, with unused words set: four of the first, one of the wire, two of the other. */
static const uint32_t mend_unused[] = {3, 65537, 0, 1, 2, 3, 4, 458752, 1, 0, 0, 9, 0, 65537, 0, 0, 8, 8, 0};
static const uint32_t channel_of_three[] = {1, 65537, 0, 0, 0, 0, 0, 0, 0, 0, 0, 0, 0, 0, 0, 0, 0, 0, 0};
/* A count over the capacity, with a word past it; a hold whose input is past the count, and another row past it. */
static const uint32_t mend_over[] = {4294967295, 65537, 0, 0, 0, 0, 0, 65537, 0, 0, 0, 0, 0, 8};
static const uint32_t mended_over[] = {1, 65537, 0, 0, 0, 0, 0, 0, 0, 0, 0, 0, 0, 8};
static const uint32_t mend_past[] = {1, 393216, 1, 1, 0, 0, 0, 65537, 9, 9, 9, 9, 9};
static const uint32_t mended_past[] = {0, 0, 0, 0, 0, 0, 0, 65537, 9, 9, 9, 9, 9};
static const uint32_t hold_of_two[] = {1, 393216, 1, 0, 0, 0, 0, 0, 0, 0, 0, 0, 0};
static const uint32_t six_and_a_count[] = {7, 8, 8, 8, 8, 8};
/* The list after each. */
static const uint32_t second_first[] = {0, 1, 0};
static const uint32_t all_0[] = {0, 0, 0, 0};
static const uint32_t dropped_then_0[] = {CHAIN_DROPPED, 0};
static const uint32_t only_the_last[] = {CHAIN_DROPPED, CHAIN_DROPPED, CHAIN_DROPPED, 0};
static const uint32_t none_left[] = {CHAIN_DROPPED, CHAIN_DROPPED, CHAIN_DROPPED};

static const uint32_t zeros[] = {0, 0};
static const uint32_t wire_first_numbers[] = {0, 1, 0};
static const uint32_t two_wires_numbers[] = {0, 1, 1, 1};
static const uint32_t turned_numbers[] = {1, 0};
static const uint32_t known_numbers[] = {2, 0, 1};
static const uint32_t new_numbers[] = {3, 0, 1};
static const uint32_t wired_numbers[] = {2, 0, 1, 0, 1};
static const uint32_t second_numbers[] = {2, 0};
static const uint32_t third_numbers[] = {3, 0};
static const uint32_t in_order[] = {0, 1, 2};

/* ---- checking a store */

struct check_case {
    const char *name;
    const uint32_t *store;
    size_t words;
    uint32_t number;
};

static const struct check_case check_cases[] = {
    {"check no words", NOTHING, CHAIN_NO_WORDS},
    {"check one word", WORDS(one_word), CHAIN_DONE},
    {"check six words", WORDS(six_words), CHAIN_DONE},
    {"check three rows", WORDS(three), CHAIN_DONE},
    {"check one hold", WORDS(hold_only), CHAIN_DONE},
    {"check two holds", WORDS(two_holds), CHAIN_NOT_SOUND},
    {"check a count over the capacity", WORDS(over_capacity), CHAIN_NOT_SOUND},
    {"check an input astray", WORDS(input_astray), CHAIN_NOT_SOUND},
    {"check an unused word set", WORDS(unused_set), CHAIN_NOT_SOUND},
    {"check a wire", WORDS(with_wire), CHAIN_NOT_SOUND},
    {"check a wire of no inputs", WORDS(with_short_wire), CHAIN_NOT_SOUND},
    {"check a wire before its channel", WORDS(wire_row_0), CHAIN_NOT_SOUND},
    {"check a wire past the rows in use", WORDS(wire_past_rows), CHAIN_DONE},
};

static void check_stores(void)
{
    for (size_t i = 0; i < COUNT(check_cases); i++) {
        const struct check_case *c = &check_cases[i];
        same(c->name, "the number", chain_check(c->store, c->words), c->number);
    }
}

/* ---- inserting */

/* The store after it, and what the answer list then starts with; a refusal leaves both as they were. */
struct insert_case {
    const char *name;
    const uint32_t *store;
    size_t words;
    const uint8_t *sheet;
    size_t bytes;
    size_t entries;
    uint32_t number;
    uint32_t added;
    size_t place;
    const uint32_t *after;
    const uint32_t *numbers;
    size_t rows;
};

static const struct insert_case insert_cases[] = {
    {"insert A", WORDS(empty), BYTES(sheet_a), 1, CHAIN_DONE, 1, 0, with_hold, zeros, 1},
    {"insert B", WORDS(empty), BYTES(sheet_b), 3, CHAIN_DONE, 1, 0, with_hold, zeros, 2},
    {"insert D", WORDS(empty), BYTES(sheet_d), 3, CHAIN_DONE, 3, 0, with_d, in_order, 3},
    {"insert a known difference", WORDS(three), BYTES(sheet_d), 3, CHAIN_DONE, 0, 0, three, known_numbers, 3},
    {"insert it turned", WORDS(three), BYTES(known_turned), 3, CHAIN_DONE, 1, 0, three_more, new_numbers, 3},
    {"insert no rows", WORDS(one_word), BYTES(no_rows), 0, CHAIN_DONE, 0, 0, one_word, NOTHING},
    {"insert no rows into six words", WORDS(six_words), BYTES(no_rows), 1, CHAIN_DONE, 0, 0, six_words, NOTHING},
    {"insert B into seven words", WORDS(hold_only), BYTES(sheet_b), 2, CHAIN_DONE, 0, 0, hold_only, zeros, 2},
    {"insert into no words", NOTHING, BYTES(sheet_a), 1, CHAIN_NO_WORDS, 0, 0, NULL, NOTHING},
    {"insert nothing into nothing", NOTHING, NOTHING, 0, CHAIN_NO_WORDS, 0, 0, NULL, NOTHING},
    {"insert into two holds", WORDS(two_holds), BYTES(sheet_a), 1, CHAIN_NOT_SOUND, 0, 0, two_holds, NOTHING},
    {"insert a bad sheet into two holds", WORDS(two_holds), NOTHING, 1, CHAIN_NOT_SOUND, 0, 0, two_holds, NOTHING},
    {"insert an input astray into no words", NOTHING, BYTES(sheet_astray), 1, CHAIN_NO_WORDS, 0, 0, NULL, NOTHING},
    {"insert an input astray into two holds", WORDS(two_holds), BYTES(sheet_astray), 1, CHAIN_NOT_SOUND, 0, 0, two_holds, NOTHING},
    {"insert no bytes", WORDS(three), NOTHING, 1, CHAIN_WRONG_LENGTH, 0, 0, three, NOTHING},
    {"insert six bytes", WORDS(three), BYTES(six_bytes), 1, CHAIN_WRONG_LENGTH, 0, 0, three, NOTHING},
    {"insert a wrong length field", WORDS(three), BYTES(miscounted), 1, CHAIN_WRONG_LENGTH, 0, 0, three, NOTHING},
    {"insert version 2, wrong length", WORDS(three), BYTES(two_faults), 1, CHAIN_WRONG_LENGTH, 0, 0, three, NOTHING},
    {"insert version 2", WORDS(three), BYTES(version_2), 1, CHAIN_WRONG_VERSION, 0, 4, three, NOTHING},
    {"insert 1,025 rows", WORDS(three), BYTES(rows_1025), 4, CHAIN_WRONG_ROWS, 0, 5, three, NOTHING},
    {"insert a row past the end", WORDS(three), BYTES(row_past_end), 1, CHAIN_WRONG_ROWS, 0, 7, three, NOTHING},
    {"insert a byte left over", WORDS(three), BYTES(left_over), 1, CHAIN_WRONG_ROWS, 0, 7, three, NOTHING},
    {"insert five inputs", WORDS(three), BYTES(five_inputs), 1, CHAIN_WRONG_ROWS, 0, 7, three, NOTHING},
    {"insert an input astray", WORDS(three), BYTES(sheet_astray), 1, CHAIN_POINTS_NOWHERE, 0, 12, three, NOTHING},
    {"insert 32,767", WORDS(three), BYTES(last_of_sheets), 1, CHAIN_POINTS_NOWHERE, 0, 12, three, NOTHING},
    {"insert store numbers", WORDS(three), BYTES(known), 1, CHAIN_NAMES_STORE, 0, 0, three, NOTHING},
    {"insert store numbers into no rows", WORDS(empty), BYTES(known), 1, CHAIN_NAMES_STORE, 0, 0, empty, NOTHING},
    {"insert a store number astray", WORDS(three), BYTES(store_astray), 1, CHAIN_NAMES_STORE, 0, 0, three, NOTHING},
    {"insert 65,535", WORDS(three), BYTES(last_of_stores), 1, CHAIN_NAMES_STORE, 0, 0, three, NOTHING},
    {"insert 1 before 19", NOTHING, BYTES(known), 1, CHAIN_NO_WORDS, 0, 0, NULL, NOTHING},
    {"insert 2 before 19", WORDS(two_holds), BYTES(known), 1, CHAIN_NOT_SOUND, 0, 0, two_holds, NOTHING},
    {"insert 5 before 19", WORDS(three), BYTES(name_and_left_over), 1, CHAIN_WRONG_ROWS, 0, 14, three, NOTHING},
    {"insert 19 before 6", WORDS(three), BYTES(astray_and_name), 1, CHAIN_NAMES_STORE, 0, 0, three, NOTHING},
    {"insert 19 before 14", WORDS(three), BYTES(short_wire_and_name), 2, CHAIN_NAMES_STORE, 0, 0, three, NOTHING},
    {"insert 19 before 15", WORDS(three), BYTES(own_wire_and_name), 2, CHAIN_NAMES_STORE, 0, 0, three, NOTHING},
    {"insert 19 before 7", WORDS(three), BYTES(known), 0, CHAIN_NAMES_STORE, 0, 0, three, NOTHING},
    {"insert with a short list", WORDS(three), BYTES(sheet_b), 1, CHAIN_FEW_ANSWERS, 0, 0, three, NOTHING},
    {"insert with no list", WORDS(three), BYTES(sheet_a), 0, CHAIN_FEW_ANSWERS, 0, 0, three, NOTHING},
    {"insert into a full store", WORDS(hold_only), BYTES(channel), 1, CHAIN_NO_ROOM, 0, 0, hold_only, NOTHING},
    {"insert a wire first", WORDS(empty), BYTES(wire_first), 3, CHAIN_DONE, 2, 0, channel_held, wire_first_numbers, 3},
    {"insert two wires in a row", WORDS(empty), BYTES(two_wires), 4, CHAIN_DONE, 2, 0, held_channel, two_wires_numbers, 4},
    {"insert it without wires", WORDS(channel_held), BYTES(no_wires), 2, CHAIN_DONE, 0, 0, channel_held, turned_numbers, 2},
    {"insert it with wires again", WORDS(held_channel), BYTES(two_wires), 4, CHAIN_DONE, 0, 0, held_channel, two_wires_numbers, 4},
    {"insert a hold along a wire", WORDS(hold_only), BYTES(wired_hold), 2, CHAIN_DONE, 0, 0, hold_only, zeros, 2},
    {"insert a wire to the store", WORDS(three), BYTES(wire_to_2), 1, CHAIN_NAMES_STORE, 0, 0, three, NOTHING},
    {"insert wires to the store", WORDS(three), BYTES(wired_known), 3, CHAIN_NAMES_STORE, 0, 0, three, NOTHING},
    {"insert a known difference of wires", WORDS(three), BYTES(wired_d), 5, CHAIN_DONE, 0, 0, three, wired_numbers, 5},
    {"insert wires with a short list", WORDS(empty), BYTES(two_wires), 3, CHAIN_FEW_ANSWERS, 0, 0, empty, NOTHING},
    {"insert wires into a full store", WORDS(hold_only), BYTES(wire_first), 3, CHAIN_NO_ROOM, 0, 0, hold_only, NOTHING},
    {"insert a wire of no inputs", WORDS(three), BYTES(wire_of_none), 1, CHAIN_SHORT_WIRE, 0, 0, three, NOTHING},
    {"insert a wire of two inputs", WORDS(three), BYTES(wire_of_two), 2, CHAIN_SHORT_WIRE, 0, 0, three, NOTHING},
    {"insert a wire to itself", WORDS(three), BYTES(own_wire), 1, CHAIN_WIRE_LOOP, 0, 0, three, NOTHING},
    {"insert two wires to each other", WORDS(three), BYTES(wires_round), 2, CHAIN_WIRE_LOOP, 0, 0, three, NOTHING},
    {"insert a hold of a wire to itself", WORDS(three), BYTES(into_own_wire), 2, CHAIN_WIRE_LOOP, 0, 0, three, NOTHING},
    {"insert 14 before 15", WORDS(three), BYTES(loop_then_short), 2, CHAIN_SHORT_WIRE, 0, 0, three, NOTHING},
    {"insert 6 before 14", WORDS(three), BYTES(short_then_astray), 2, CHAIN_POINTS_NOWHERE, 0, 17, three, NOTHING},
    {"insert 2 before 14", WORDS(two_holds), BYTES(wire_of_none), 1, CHAIN_NOT_SOUND, 0, 0, two_holds, NOTHING},
    {"insert 2 before 15", WORDS(two_holds), BYTES(own_wire), 1, CHAIN_NOT_SOUND, 0, 0, two_holds, NOTHING},
    {"insert 14 before 7", WORDS(three), BYTES(wire_of_two), 1, CHAIN_SHORT_WIRE, 0, 0, three, NOTHING},
    {"insert 15 before 7", WORDS(three), BYTES(own_wire), 0, CHAIN_WIRE_LOOP, 0, 0, three, NOTHING},
    {"insert 14 before 8", WORDS(hold_only), BYTES(wire_of_two), 2, CHAIN_SHORT_WIRE, 0, 0, hold_only, NOTHING},
    {"insert 15 before 8", WORDS(hold_only), BYTES(into_own_wire), 2, CHAIN_WIRE_LOOP, 0, 0, hold_only, NOTHING},
    {"insert 14 before 12 and 13", WORDS(three), BYTES(short_wire_and_free), 1, CHAIN_SHORT_WIRE, 0, 0, three, NOTHING},
    {"insert 15 before 12 and 13", WORDS(three), BYTES(own_wire_and_free), 1, CHAIN_WIRE_LOOP, 0, 0, three, NOTHING},
    {"insert into a store with a wire", WORDS(with_wire), BYTES(no_rows), 1, CHAIN_NOT_SOUND, 0, 0, with_wire, NOTHING},
    {"insert into one of no inputs", WORDS(with_short_wire), BYTES(no_rows), 1, CHAIN_NOT_SOUND, 0, 0, with_short_wire, NOTHING},
    {"insert beside a wire past the rows", WORDS(wire_past_rows), BYTES(channel), 1, CHAIN_DONE, 0, 0, wire_past_rows, zeros, 1},
};

/* What only a plain insert takes. */
static const struct insert_case plain_cases[] = {
    {"insert a setting of 7", WORDS(empty), BYTES(setting_7), 1, CHAIN_DONE, 1, 0, with_setting_7, zeros, 1},
};

/* What only a strict insert refuses, what is refused before and after it, and what it takes all the same. */
static const struct insert_case strict_cases[] = {
    {"strictly a sum held", WORDS(empty), BYTES(held_sum), 3, CHAIN_DONE, 3, 0, with_held_sum, in_order, 3},
    {"strictly a sum half held", WORDS(empty), BYTES(half_held), 3, CHAIN_NOT_HELD, 0, 0, empty, NOTHING},
    {"strictly a sum of itself", WORDS(empty), BYTES(own_sum), 2, CHAIN_NOT_HELD, 0, 0, empty, NOTHING},
    {"strictly a scale of itself", WORDS(empty), BYTES(own_scale), 1, CHAIN_NOT_HELD, 0, 0, empty, NOTHING},
    {"strictly a free operation", WORDS(empty), BYTES(free_13), 1, CHAIN_NOT_LISTED, 0, 0, empty, NOTHING},
    {"strictly operation 33", WORDS(empty), BYTES(free_33), 1, CHAIN_NOT_LISTED, 0, 0, empty, NOTHING},
    {"strictly a hold of nothing", WORDS(empty), BYTES(hold_of_none), 1, CHAIN_NOT_LISTED, 0, 0, empty, NOTHING},
    {"strictly 12 before 13", WORDS(empty), BYTES(own_scale_and_free), 2, CHAIN_NOT_LISTED, 0, 0, empty, NOTHING},
    {"strictly 12 before 7", WORDS(empty), BYTES(own_scale_and_free), 1, CHAIN_NOT_LISTED, 0, 0, empty, NOTHING},
    {"strictly 12 before 7, no list", WORDS(empty), BYTES(free_13), 0, CHAIN_NOT_LISTED, 0, 0, empty, NOTHING},
    {"strictly 13 before 7", WORDS(empty), BYTES(own_scale), 0, CHAIN_NOT_HELD, 0, 0, empty, NOTHING},
    {"strictly 12 before 8", WORDS(hold_only), BYTES(free_13), 1, CHAIN_NOT_LISTED, 0, 0, hold_only, NOTHING},
    {"strictly 13 before 8", WORDS(hold_only), BYTES(own_scale), 1, CHAIN_NOT_HELD, 0, 0, hold_only, NOTHING},
    {"strictly 6 before 12", WORDS(empty), BYTES(free_astray), 1, CHAIN_POINTS_NOWHERE, 0, 12, empty, NOTHING},
    {"strictly 2 before 12", WORDS(two_holds), BYTES(free_13), 1, CHAIN_NOT_SOUND, 0, 0, two_holds, NOTHING},
    {"strictly 2 before 13", WORDS(two_holds), BYTES(own_scale), 1, CHAIN_NOT_SOUND, 0, 0, two_holds, NOTHING},
    {"strictly 1 before 12", NOTHING, BYTES(free_13), 1, CHAIN_NO_WORDS, 0, 0, NULL, NOTHING},
    {"strictly beside a free row", WORDS(with_free), BYTES(negated_channel), 2, CHAIN_DONE, 1, 0, free_more, third_numbers, 2},
    {"strictly a free row that is known", WORDS(with_free), BYTES(free_13), 1, CHAIN_NOT_LISTED, 0, 0, with_free, NOTHING},
    {"strictly beside a loop", WORDS(with_loop), BYTES(negated_channel), 2, CHAIN_DONE, 1, 0, loop_more, second_numbers, 2},
    {"strictly a loop that is known", WORDS(with_loop), BYTES(own_scale), 1, CHAIN_NOT_HELD, 0, 0, with_loop, NOTHING},
    {"strictly 19 before 12", WORDS(with_free), BYTES(free_and_name), 1, CHAIN_NAMES_STORE, 0, 0, with_free, NOTHING},
    {"strictly 19 before 13", WORDS(with_loop), BYTES(loop_and_name), 1, CHAIN_NAMES_STORE, 0, 0, with_loop, NOTHING},
    {"strictly no rows beside a free row", WORDS(with_free), BYTES(no_rows), 0, CHAIN_DONE, 0, 0, with_free, NOTHING},
    {"strictly a scale along wires", WORDS(empty), BYTES(wired_scale), 3, CHAIN_NOT_HELD, 0, 0, empty, NOTHING},
    {"strictly a wire to a free operation", WORDS(empty), BYTES(wired_free), 2, CHAIN_NOT_LISTED, 0, 0, empty, NOTHING},
    {"strictly a wire to the store", WORDS(with_free), BYTES(wire_to_2), 1, CHAIN_NAMES_STORE, 0, 0, with_free, NOTHING},
    {"strictly a setting of 7", WORDS(empty), BYTES(setting_7), 1, CHAIN_NOT_LISTED, 0, 0, empty, NOTHING},
};

struct lent_words {
    uint32_t store[EDGE + COUNT(three) + EDGE];
    uint32_t answers[EDGE + 5 + EDGE];
};

static void lay_words(struct lent_words *lent, const uint32_t *store, size_t words, const uint32_t *numbers, size_t rows)
{
    memset(lent, STALE, sizeof *lent);
    if (words > 0)
        memcpy(lent->store + EDGE, store, words * sizeof *store);
    if (rows > 0)
        memcpy(lent->answers + EDGE, numbers, rows * sizeof *numbers);
}

/* chain_insert or chain_insert_strict. */
typedef uint32_t insert_call(uint32_t *, size_t, const uint8_t *, size_t, uint32_t *, size_t, uint32_t *, size_t *);

static void insert_one(const struct insert_case *c, insert_call *call)
{
    struct lent_words lent, wanted;
    uint32_t added = STALE;
    size_t place = STALE;

    lay_words(&lent, c->store, c->words, NOTHING);
    lay_words(&wanted, c->after, c->words, c->numbers, c->rows);
    uint32_t *store = c->words > 0 ? lent.store + EDGE : NULL;
    uint32_t *answers = c->entries > 0 ? lent.answers + EDGE : NULL;
    uint32_t number = call(store, c->words, c->sheet, c->bytes, answers, c->entries, &added, &place);
    same(c->name, "the number", number, c->number);
    same(c->name, "rows added", added, c->added);
    same(c->name, "the place", place, c->place);
    same_memory(c->name, "the memory left as it should be", &lent, &wanted, sizeof lent);
}

/* A strict insert does the same with these cases: their rows are of the catalogue and their loops pass holds, or they are refused
 * before that is looked at. */
static void insert_sheets(void)
{
    for (size_t i = 0; i < COUNT(insert_cases); i++) {
        insert_one(&insert_cases[i], chain_insert);
        insert_one(&insert_cases[i], chain_insert_strict);
    }
}

static void insert_plainly(void)
{
    for (size_t i = 0; i < COUNT(plain_cases); i++)
        insert_one(&plain_cases[i], chain_insert);
}

static void insert_strictly(void)
{
    for (size_t i = 0; i < COUNT(strict_cases); i++)
        insert_one(&strict_cases[i], chain_insert_strict);
}

/* ---- mending */

/* Dropped, wires, merged and cleared, the store after it, and what the list then starts with; a refusal leaves both as they are. */
struct mend_case {
    const char *name;
    const uint32_t *store;
    size_t words;
    size_t entries;
    uint32_t number;
    uint32_t counts[4];
    const uint32_t *after;
    const uint32_t *numbers;
    size_t rows;
};

static const struct mend_case mend_cases[] = {
    {"mend a wire first", WORDS(wire_to_last), 3, CHAIN_DONE, {0, 1, 0, 0}, constant_first, WORDS(second_first)},
    {"mend a hold in turns", WORDS(hold_turns), 4, CHAIN_DONE, {0, 1, 2, 0}, hold_alone, WORDS(all_0)},
    {"mend over 4 inputs", WORDS(mend_crowded), 2, CHAIN_DONE, {1, 0, 0, 0}, channel_left, WORDS(dropped_then_0)},
    {"mend an input astray", WORDS(mend_astray), 3, CHAIN_DONE, {1, 0, 0, 0}, channel_left, WORDS(dropped_then_0)},
    {"mend a wire of no input", WORDS(mend_no_input), 2, CHAIN_DONE, {1, 0, 0, 0}, channel_left, WORDS(dropped_then_0)},
    {"mend a wire of two inputs", WORDS(mend_two_inputs), 2, CHAIN_DONE, {1, 0, 0, 0}, channel_left, WORDS(dropped_then_0)},
    {"mend a wire to itself", WORDS(mend_own_wire), 2, CHAIN_DONE, {1, 0, 0, 0}, channel_left, WORDS(dropped_then_0)},
    {"mend rows that reach one", WORDS(mend_reaching), 4, CHAIN_DONE, {3, 0, 0, 0}, channel_of_four, WORDS(only_the_last)},
    {"mend wires round", WORDS(mend_wires_round), 3, CHAIN_DONE, {3, 0, 0, 0}, nothing_left, WORDS(none_left)},
    {"mend unused words", WORDS(mend_unused), 4, CHAIN_DONE, {0, 1, 1, 7}, channel_of_three, all_0, 3},
    {"mend a count over the capacity", WORDS(mend_over), 2, CHAIN_DONE, {0, 0, 1, 0}, mended_over, zeros, 2},
    {"mend a row past the count", WORDS(mend_past), 4, CHAIN_DONE, {1, 0, 0, 0}, mended_past, none_left, 1},
    {"mend six words", WORDS(six_and_a_count), 0, CHAIN_DONE, {0, 0, 0, 0}, six_words, NOTHING},
    {"mend six words with a list", WORDS(six_and_a_count), 4, CHAIN_DONE, {0, 0, 0, 0}, six_words, NOTHING},
    {"mend one word", WORDS(one_word), 0, CHAIN_DONE, {0, 0, 0, 0}, one_word, NOTHING},
    {"mend no rows", WORDS(empty), 0, CHAIN_DONE, {0, 0, 0, 0}, empty, NOTHING},
    {"mend a sound store", WORDS(three), 3, CHAIN_DONE, {0, 0, 0, 0}, three, WORDS(in_order)},
    {"mend a sound store, a longer list", WORDS(three), 4, CHAIN_DONE, {0, 0, 0, 0}, three, WORDS(in_order)},
    {"mend two holds", WORDS(two_holds), 2, CHAIN_DONE, {0, 0, 1, 0}, hold_of_two, zeros, 2},
    {"mend no words", NOTHING, 4, CHAIN_NO_WORDS, {0, 0, 0, 0}, NULL, NOTHING},
    {"mend nothing", NOTHING, 0, CHAIN_NO_WORDS, {0, 0, 0, 0}, NULL, NOTHING},
    {"mend with a short list", WORDS(hold_turns), 3, CHAIN_SHORT_LIST, {0, 0, 0, 0}, hold_turns, NOTHING},
    {"mend with no list", WORDS(mend_crowded), 0, CHAIN_SHORT_LIST, {0, 0, 0, 0}, mend_crowded, NOTHING},
    {"mend a sound store, a short list", WORDS(three), 2, CHAIN_SHORT_LIST, {0, 0, 0, 0}, three, NOTHING},
    {"mend over the capacity, a short list", WORDS(mend_over), 1, CHAIN_SHORT_LIST, {0, 0, 0, 0}, mend_over, NOTHING},
};

/* A mended store is sound, and is left as it is when it is mended again. */
static void mend_again(const struct mend_case *c, uint32_t *store)
{
    struct lent_words wanted;
    uint32_t list[4], counts[4];

    lay_words(&wanted, store, c->words, NOTHING);
    same(c->name, "the number of a check", chain_check(store, c->words), CHAIN_DONE);
    uint32_t number = chain_mend(store, c->words, WORDS(list), &counts[0], &counts[1], &counts[2], &counts[3]);
    same(c->name, "the number again", number, CHAIN_DONE);
    for (size_t i = 0; i < COUNT(counts); i++)
        same(c->name, "a count again", counts[i], 0);
    for (uint32_t row = 0; row < store[0]; row++)
        same(c->name, "a number again", list[row], row);
    same_memory(c->name, "the store as it was", store, wanted.store + EDGE, c->words * sizeof *store);
}

static void mend_one(const struct mend_case *c)
{
    struct lent_words lent, wanted;
    uint32_t counts[4] = {STALE, STALE, STALE, STALE};

    lay_words(&lent, c->store, c->words, NOTHING);
    lay_words(&wanted, c->after, c->words, c->numbers, c->rows);
    uint32_t *store = c->words > 0 ? lent.store + EDGE : NULL;
    uint32_t *list = c->entries > 0 ? lent.answers + EDGE : NULL;
    uint32_t number = chain_mend(store, c->words, list, c->entries, &counts[0], &counts[1], &counts[2], &counts[3]);
    same(c->name, "the number", number, c->number);
    same(c->name, "rows dropped", counts[0], c->counts[0]);
    same(c->name, "wires", counts[1], c->counts[1]);
    same(c->name, "rows merged", counts[2], c->counts[2]);
    same(c->name, "words cleared", counts[3], c->counts[3]);
    same_memory(c->name, "the memory left as it should be", &lent, &wanted, sizeof lent);
    if (number == CHAIN_DONE)
        mend_again(c, store);
}

static void mend_stores(void)
{
    for (size_t i = 0; i < COUNT(mend_cases); i++)
        mend_one(&mend_cases[i]);
}

/* 1,024 rows, one on another, and the last on the row given: holds or wires, and what is kept of them. */
static void mend_long(const char *name, uint32_t label, uint32_t last, uint32_t number, const uint32_t *counts, uint32_t kept)
{
    static uint32_t store[CHAIN_MOST_WORDS], list[CHAIN_MOST_ROWS];
    uint32_t given[4];

    memset(store, 0, sizeof store);
    store[0] = CHAIN_MOST_ROWS;
    for (uint32_t n = 0; n < CHAIN_MOST_ROWS; n++) {
        store[1 + 6 * n] = label;
        store[2 + 6 * n] = 1;
        store[3 + 6 * n] = n + 1 == CHAIN_MOST_ROWS ? last : n + 1;
    }
    same(name, "the number", chain_mend(WORDS(store), WORDS(list), &given[0], &given[1], &given[2], &given[3]), CHAIN_DONE);
    same_memory(name, "the counts as they should be", given, counts, sizeof given);
    same(name, "rows kept", store[0], kept);
    same(name, "the number of the first row", list[0], number);
    same(name, "the number of a check", chain_check(WORDS(store)), CHAIN_DONE);
}

static void mend_longest(void)
{
    static const uint32_t all_dropped[] = {CHAIN_MOST_ROWS, 0, 0, 0}, all_merged[] = {0, 0, CHAIN_MOST_ROWS - 1, 0};

    mend_long("mend a long chain that leads nowhere", 393216, CHAIN_MOST_ROWS, CHAIN_DROPPED, all_dropped, 0);
    mend_long("mend a long loop of wires", 458752, 0, CHAIN_DROPPED, all_dropped, 0);
    mend_long("mend a long loop of holds", 393216, 0, 0, all_merged, 1);
}

/* ---- the catalogue */

/* The input counts of operations 1 to 12. */
static const size_t catalogue[] = {0, 0, 2, 2, 1, 1, 1, 2, 2, 3, 4, 1};

/* A row of the operation with so many inputs, all of them a channel that is the second row. */
static void try_row(uint32_t operation, size_t count)
{
    uint32_t store[1 + 2 * 6] = {0}, answers[2], added = STALE;
    uint8_t sheet[25] = {0, 0, 0, (uint8_t)(13 + 2 * count), 1, 0, 2, (uint8_t)(operation >> 8), (uint8_t)(operation & 255), 9, 9,
        (uint8_t)count, 0, 1, 0, 1, 0, 1, 0, 1};
    uint8_t *last = sheet + 12 + 2 * count;
    bool listed = operation >= 1 && operation <= COUNT(catalogue) && catalogue[operation - 1] == count;
    /* A wire is the channel, so that one row is added; of another count no insert takes it. */
    bool short_wire = operation == WIRE && count != 1;
    uint32_t rows = !listed ? 0 : operation == WIRE ? 1 : 2;
    size_t place = STALE;
    char name[64];

    memset(last, 0, 5);
    last[1] = 1;
    snprintf(name, sizeof name, "operation %u of %zu inputs", operation, count);
    uint32_t number = chain_insert_strict(WORDS(store), sheet, 17 + 2 * count, WORDS(answers), &added, &place);
    same(name, "the number", number, listed ? CHAIN_DONE : short_wire ? CHAIN_SHORT_WIRE : CHAIN_NOT_LISTED);
    same(name, "rows added", added, rows);
    same(name, "the place", place, 0);
    same(name, "the store's count", store[0], rows);
    number = chain_insert(WORDS(store), sheet, 17 + 2 * count, WORDS(answers), &added, &place);
    same(name, "the number of a plain insert", number, short_wire ? CHAIN_SHORT_WIRE : CHAIN_DONE);
}

/* Operations 0 to 64, and the last; five input counts each. */
static void try_catalogue(void)
{
    for (uint32_t i = 0; i < 66 * 5; i++)
        try_row(i / 5 < 65 ? i / 5 : 65535, i % 5);
}

/* ---- where a sheet is wrong */

/* Three rows, at bytes 7, 14 and 23: a hold of row 1, a sum of rows 0 and 2, a hold of row 0. */
static const uint8_t three_rows[] = {0, 0, 0, 26, 1, 0, 3, 0, 6, 0, 0, 1, 0, 1, 0, 4, 0, 0, 2, 0, 0, 0, 2, 0, 6, 0, 1, 1, 0, 0};

/* So many bytes of that sheet, first with a right length field, then with one byte set; the insert's number, and the place. */
struct fault_case {
    const char *name;
    size_t bytes;
    size_t at;
    uint8_t value;
    uint32_t number;
    size_t place;
};

static const struct fault_case fault_cases[] = {
    {"no fault", 30, 4, 1, CHAIN_DONE, 0},
    {"six bytes", 6, 4, 1, CHAIN_WRONG_LENGTH, 0},
    {"a length one too large", 30, 3, 27, CHAIN_WRONG_LENGTH, 0},
    {"version 2", 30, 4, 2, CHAIN_WRONG_VERSION, 4},
    {"1,027 rows", 30, 5, 4, CHAIN_WRONG_ROWS, 5},
    {"1,027 rows, the first cut", 9, 5, 4, CHAIN_WRONG_ROWS, 5},
    {"five inputs in the first row", 30, 11, 5, CHAIN_WRONG_ROWS, 7},
    {"five inputs in the middle", 30, 18, 5, CHAIN_WRONG_ROWS, 14},
    {"five inputs in the last row", 30, 27, 5, CHAIN_WRONG_ROWS, 23},
    {"an end in the first row", 13, 4, 1, CHAIN_WRONG_ROWS, 7},
    {"an end in the middle", 22, 4, 1, CHAIN_WRONG_ROWS, 14},
    {"an end in the last row", 29, 4, 1, CHAIN_WRONG_ROWS, 23},
    {"an end before the first row", 7, 4, 1, CHAIN_WRONG_ROWS, 7},
    {"an end before the middle", 14, 4, 1, CHAIN_WRONG_ROWS, 14},
    {"an end before the last row", 23, 4, 1, CHAIN_WRONG_ROWS, 23},
    {"a row more than there are", 30, 6, 4, CHAIN_WRONG_ROWS, 30},
    {"a row left over", 30, 6, 2, CHAIN_WRONG_ROWS, 23},
    {"all rows left over", 30, 6, 0, CHAIN_WRONG_ROWS, 7},
    {"a byte left over", 31, 4, 1, CHAIN_WRONG_ROWS, 30},
    {"an input astray in the first row", 30, 13, 3, CHAIN_POINTS_NOWHERE, 12},
    {"an input astray in the middle, left", 30, 20, 3, CHAIN_POINTS_NOWHERE, 19},
    {"an input astray in the middle, right", 30, 22, 3, CHAIN_POINTS_NOWHERE, 21},
    {"an input astray in the last row", 30, 29, 3, CHAIN_POINTS_NOWHERE, 28},
    {"a store number", 30, 21, 128, CHAIN_NAMES_STORE, 0},
};

/* Into a store of no rows. What a lone reading gives is the same, but for 6 and 19. */
static void find_fault(const struct fault_case *c, const uint8_t *sheet)
{
    uint32_t store[1 + 3 * 6] = {0}, answers[3], added = STALE, number;
    size_t place = STALE;
    bool readable = c->number == CHAIN_DONE || c->number == CHAIN_POINTS_NOWHERE || c->number == CHAIN_NAMES_STORE;

    number = chain_insert(WORDS(store), sheet, c->bytes, WORDS(answers), &added, &place);
    same(c->name, "the number", number, c->number);
    same(c->name, "rows added", added, c->number == CHAIN_DONE ? 3 : 0);
    same(c->name, "the place", place, c->place);
    place = STALE;
    number = chain_read_sheet(sheet, c->bytes, &place);
    same(c->name, "the number read", number, readable ? CHAIN_DONE : c->number);
    same(c->name, "the place read", place, readable ? 0 : c->place);
}

static void find_faults(void)
{
    size_t place = STALE;

    same("no bytes", "the number read", chain_read_sheet(NOTHING, &place), CHAIN_WRONG_LENGTH);
    same("no bytes", "the place read", place, 0);
    for (size_t i = 0; i < COUNT(fault_cases); i++) {
        const struct fault_case *c = &fault_cases[i];
        uint8_t sheet[sizeof three_rows + 1] = {0};

        memcpy(sheet, three_rows, sizeof three_rows);
        sheet[3] = (uint8_t)(c->bytes - 4);
        sheet[c->at] = c->value;
        find_fault(c, sheet);
    }
}

/* Every number that is given has a text of its own, and no other number has one of these. */
static void tell_messages(void)
{
    const char *unknown = chain_message(UINT32_MAX);

    for (uint32_t number = CHAIN_DONE; number <= CHAIN_LONG_RESULT; number++) {
        same("messages", "a known text", strcmp(chain_message(number), unknown) != 0, number != 11);
        for (uint32_t other = CHAIN_DONE; other < number; other++)
            same("messages", "a text of its own", strcmp(chain_message(number), chain_message(other)) != 0, 1);
    }
}

/* ---- running counts */

enum { OUTPUTS = 8 };

/* One tick: an operation, its setting, the counts of its inputs, and what it gives. */
struct operation_case {
    uint32_t operation, setting, inputs;
    int32_t counts[4];
    int32_t gives;
};

static const struct operation_case operation_cases[] = {
    {2, 0, 0, {0}, 0}, {2, 1, 0, {0}, 1}, {2, 32767, 0, {0}, 32767}, {2, 32768, 0, {0}, -32768}, {2, 65535, 0, {0}, -1},
    {3, 0, 2, {5, 3}, 2}, {3, 0, 2, {3, 5}, -2}, {3, 7, 2, {0, INT32_MIN}, INT32_MAX}, {3, 0, 2, {-1, INT32_MIN}, INT32_MAX},
    {3, 0, 2, {INT32_MIN, 1}, INT32_MIN}, {3, 0, 2, {INT32_MAX, -1}, INT32_MAX}, {3, 0, 2, {INT32_MIN, INT32_MIN}, 0},
    {3, 0, 2, {INT32_MIN, INT32_MAX}, INT32_MIN}, {3, 0, 2, {INT32_MAX, INT32_MIN}, INT32_MAX},
    {4, 0, 2, {INT32_MAX, 1}, INT32_MAX}, {4, 0, 2, {INT32_MAX, 0}, INT32_MAX}, {4, 0, 2, {INT32_MIN, -1}, INT32_MIN},
    {4, 0, 2, {INT32_MIN, INT32_MAX}, -1}, {4, 0, 2, {INT32_MIN, INT32_MIN}, INT32_MIN}, {4, 9, 2, {-1, 1}, 0},
    {5, 0, 1, {INT32_MIN}, 0}, {5, 1, 1, {-1}, 0}, {5, 1, 1, {-256}, -1}, {5, 1, 1, {-511}, -1}, {5, 1, 1, {511}, 1},
    {5, 256, 1, {INT32_MIN}, INT32_MIN}, {5, 257, 1, {INT32_MIN}, INT32_MIN}, {5, 257, 1, {INT32_MAX}, INT32_MAX},
    {5, 65535, 1, {8388735}, 2147483391}, {5, 65535, 1, {8388736}, INT32_MAX}, {5, 65535, 1, {8388737}, INT32_MAX},
    {5, 65535, 1, {-8388736}, -INT32_MAX}, {5, 65535, 1, {-8388737}, INT32_MIN}, {5, 65535, 1, {1}, 255}, {5, 65535, 1, {-1}, -255},
    {8, 0, 2, {INT32_MIN, INT32_MAX}, INT32_MAX}, {8, 0, 2, {-1, 0}, 0}, {8, 0, 2, {1, 0}, 1}, {8, 0, 2, {-2, -3}, -2},
    {9, 0, 2, {INT32_MIN, INT32_MAX}, INT32_MIN}, {9, 0, 2, {-1, 0}, -1}, {9, 0, 2, {1, 0}, 0}, {9, 0, 2, {-2, -3}, -3},
    {10, 0, 3, {1, 2, 3}, 2}, {10, 0, 3, {0, 2, 3}, 3}, {10, 0, 3, {-1, 2, 3}, 3}, {10, 0, 3, {INT32_MIN, 2, 3}, 3},
    {10, 0, 3, {INT32_MAX, 2, 3}, 2},
    {11, 0, 4, {INT32_MAX, INT32_MAX, INT32_MAX, INT32_MAX}, INT32_MAX},
    {11, 0, 4, {INT32_MIN, INT32_MIN, INT32_MIN, INT32_MIN}, INT32_MIN},
    {11, 0, 4, {INT32_MIN, INT32_MIN, INT32_MAX, INT32_MAX}, 0},
    {11, 0, 4, {-1, -1, -1, 0}, 0}, {11, 0, 4, {-2, -2, -2, -1}, -1}, {11, 0, 4, {1, 1, 1, 0}, 0}, {11, 0, 4, {1, 2, 3, 4}, 2},
    {12, 0, 1, {INT32_MIN}, INT32_MAX}, {12, 0, 1, {INT32_MAX}, -INT32_MAX}, {12, 0, 1, {0}, 0}, {12, 0, 1, {-1}, 1},
    {1, 0, 0, {INT32_MIN}, INT32_MIN}, {6, 0, 1, {INT32_MAX}, 0},
};

/* The operation's row behind a channel for each of its inputs, and one tick of those channels. */
static void run_operations(void)
{
    for (size_t i = 0; i < COUNT(operation_cases); i++) {
        const struct operation_case *c = &operation_cases[i];
        uint32_t store[1 + 5 * 6] = {c->inputs + 1}, *row = store + 1 + 6 * c->inputs, channels = c->inputs > 0 ? c->inputs : 1;
        int32_t output[] = {STALE, STALE, -STALE};
        char name[64];

        row[0] = c->operation << 16 | c->setting;
        row[1] = c->inputs;
        for (uint32_t n = 0; n < c->inputs; n++) {
            store[1 + 6 * n] = 65536 + n;
            row[2 + n] = n;
        }
        snprintf(name, sizeof name, "run operation %u, setting %u, case %zu", c->operation, c->setting, i);
        same(name, "the number", chain_run(WORDS(store), c->inputs, channels, c->counts, channels, output, 2), CHAIN_DONE);
        same(name, "the output", (uint32_t)output[0], (uint32_t)c->gives);
        same(name, "the entry past the ticks", (uint32_t)output[1], STALE);
        same(name, "what stands past the output", (uint32_t)output[2], (uint32_t)-STALE);
    }
}

/* Channel 0 and a hold of it; a sum of channel 0 and its own value held; and the smoothing loop, a sum of its own value held and of
 * a quarter of the way from there to channel 1 less 40. */
static const uint32_t channel_0_held[] = {2, 65536, 0, 0, 0, 0, 0, 393216, 1, 0, 0, 0, 0};
static const uint32_t counted_up[] = {3, 262144, 2, 1, 2, 0, 0, 65536, 0, 0, 0, 0, 0, 393216, 1, 0, 0, 0, 0};
static const uint32_t smoothed[] = {7, 262144, 2, 1, 2, 0, 0, 393216, 1, 0, 0, 0, 0, 327744, 1, 3, 0, 0, 0, 196608, 2, 4, 1, 0, 0,
    196608, 2, 5, 6, 0, 0, 65537, 0, 0, 0, 0, 0, 131112, 0, 0, 0, 0, 0};
/* The last of eight channels. */
static const uint32_t channel_7[] = {1, 65543, 0, 0, 0, 0, 0};
/* A channel with setting 8, and a constant. That channel, a sum of it and of itself, operation 13, and a sum of those two. */
static const uint32_t channel_8[] = {2, 65544, 0, 0, 0, 0, 0, 131112, 0, 0, 0, 0, 0};
static const uint32_t all_wrong[] = {4, 65544, 0, 0, 0, 0, 0, 262144, 2, 0, 1, 0, 0, 851968, 0, 0, 0, 0, 0, 262144, 2, 1, 2, 0, 0};

/* Traces, and what comes out of them. */
static const int32_t one_to_8[] = {1, 2, 3, 4, 5, 6, 7, 8}, one_before[] = {0, 1, 2, 3, 4, 5, 6, 7}, even[] = {2, 4, 6, 8};
static const int32_t less_40[] = {-38, -36, -34, -32}, added_up[] = {1, 3, 6, 10, 15, 21, 28, 36}, only_8[] = {8};
static const int32_t hundreds[] = {-9, 140, -9, 140, -9, 140, -9, 140}, quarters[] = {25, 43, 57, 67}, forties[] = {40, 40};
static const int32_t ends[] = {INT32_MIN, -1, 0, 1, INT32_MAX}, ends_held[] = {0, INT32_MIN, -1, 0, 1};
static const int32_t too_much[] = {INT32_MAX, 1, -1, INT32_MIN}, clamped_up[] = {INT32_MAX, INT32_MAX, INT32_MAX - 1, -2};

/* What is written: the outputs of the ticks. A refusal writes nothing. */
struct run_case {
    const char *name;
    const uint32_t *store;
    size_t words;
    uint32_t row;
    uint32_t channels;
    const int32_t *values;
    size_t count;
    size_t room;
    uint32_t number;
    const int32_t *outputs;
    size_t ticks;
};

static const struct run_case run_cases[] = {
    {"run the difference", WORDS(three), 2, 2, WORDS(one_to_8), 4, CHAIN_DONE, WORDS(less_40)},
    {"run the difference of another store", WORDS(with_d), 0, 2, WORDS(one_to_8), 4, CHAIN_DONE, WORDS(less_40)},
    {"run it with a longer output", WORDS(three), 2, 2, WORDS(one_to_8), OUTPUTS, CHAIN_DONE, WORDS(less_40)},
    {"run a channel held", WORDS(channel_0_held), 1, 1, WORDS(one_to_8), 8, CHAIN_DONE, WORDS(one_before)},
    {"run the channel itself", WORDS(channel_0_held), 0, 1, WORDS(one_to_8), 8, CHAIN_DONE, WORDS(one_to_8)},
    {"run a sum held", WORDS(counted_up), 0, 1, WORDS(one_to_8), 8, CHAIN_DONE, WORDS(added_up)},
    {"run a sum held, clamped", WORDS(counted_up), 0, 1, WORDS(too_much), 5, CHAIN_DONE, WORDS(clamped_up)},
    {"run the smoothing loop", WORDS(smoothed), 0, 2, WORDS(hundreds), 4, CHAIN_DONE, WORDS(quarters)},
    {"run a hold in one turn", WORDS(hold_only), 0, 8, WORDS(one_to_8), 2, CHAIN_DONE, one_before, 1},
    {"run eight channels", WORDS(channel_7), 0, 8, WORDS(one_to_8), 1, CHAIN_DONE, WORDS(only_8)},
    {"run the ends of 32 bits, held", WORDS(channel_0_held), 1, 1, WORDS(ends), 6, CHAIN_DONE, WORDS(ends_held)},
    {"run no values", WORDS(three), 2, 2, NOTHING, OUTPUTS, CHAIN_DONE, NOTHING},
    {"run no values, no output", WORDS(three), 2, 8, NOTHING, 0, CHAIN_DONE, NOTHING},
    {"run a constant beside channel 8", WORDS(channel_8), 1, 4, WORDS(one_to_8), 2, CHAIN_DONE, WORDS(forties)},
    {"run a channel beside a free row", WORDS(with_free), 0, 2, WORDS(one_to_8), 4, CHAIN_DONE, WORDS(even)},
    {"run a channel beside a loop", WORDS(with_loop), 0, 2, WORDS(one_to_8), 4, CHAIN_DONE, WORDS(even)},
    {"run no words", NOTHING, 0, 0, WORDS(one_to_8), 0, CHAIN_NO_WORDS, NOTHING},
    {"run nothing", NOTHING, 0, 0, NOTHING, 0, CHAIN_NO_WORDS, NOTHING},
    {"run two holds", WORDS(two_holds), 2, 0, WORDS(one_to_8), 0, CHAIN_NOT_SOUND, NOTHING},
    {"run a store with a wire", WORDS(with_wire), 0, 2, WORDS(one_to_8), OUTPUTS, CHAIN_NOT_SOUND, NOTHING},
    {"run a row not in use", WORDS(three), 3, 0, WORDS(one_to_8), 0, CHAIN_NOT_IN_USE, NOTHING},
    {"run the highest row", WORDS(three), UINT32_MAX, 2, WORDS(one_to_8), OUTPUTS, CHAIN_NOT_IN_USE, NOTHING},
    {"run a row of no rows", WORDS(one_word), 0, 2, WORDS(one_to_8), OUTPUTS, CHAIN_NOT_IN_USE, NOTHING},
    {"run 12 before 13, 17 and 18", WORDS(all_wrong), 3, 0, one_to_8, 3, 0, CHAIN_NOT_LISTED, NOTHING},
    {"run a free operation, held", WORDS(with_free), 2, 2, WORDS(one_to_8), OUTPUTS, CHAIN_NOT_LISTED, NOTHING},
    {"run 13 before 17 and 18", WORDS(all_wrong), 1, 9, one_to_8, 3, 0, CHAIN_NOT_HELD, NOTHING},
    {"run a scale of itself", WORDS(with_loop), 1, 1, WORDS(one_to_8), OUTPUTS, CHAIN_NOT_HELD, NOTHING},
    {"run 17 before 18", WORDS(all_wrong), 0, 8, WORDS(one_to_8), 0, CHAIN_NO_TRACE, NOTHING},
    {"run no channels", WORDS(channel_8), 1, 0, WORDS(one_to_8), OUTPUTS, CHAIN_NO_TRACE, NOTHING},
    {"run no channels, no values", WORDS(channel_8), 1, 0, NOTHING, 0, CHAIN_NO_TRACE, NOTHING},
    {"run nine channels", WORDS(channel_8), 0, 9, NOTHING, 0, CHAIN_NO_TRACE, NOTHING},
    {"run the most channels of 32 bits", WORDS(channel_8), 1, UINT32_MAX, WORDS(one_to_8), OUTPUTS, CHAIN_NO_TRACE, NOTHING},
    {"run a cut tick", WORDS(three), 2, 3, WORDS(one_to_8), OUTPUTS, CHAIN_NO_TRACE, NOTHING},
    {"run a tick of too few", WORDS(three), 2, 2, one_to_8, 1, OUTPUTS, CHAIN_NO_TRACE, NOTHING},
    {"run a channel that is not there", WORDS(three), 2, 1, WORDS(one_to_8), OUTPUTS, CHAIN_NO_TRACE, NOTHING},
    {"run it without values", WORDS(three), 2, 1, NOTHING, 0, CHAIN_NO_TRACE, NOTHING},
    {"run a short output", WORDS(three), 2, 2, WORDS(one_to_8), 3, CHAIN_SHORT_OUTPUT, NOTHING},
    {"run no output", WORDS(three), 2, 8, WORDS(one_to_8), 0, CHAIN_SHORT_OUTPUT, NOTHING},
};

static void run_one(const struct run_case *c)
{
    int32_t lent[EDGE + OUTPUTS + EDGE], wanted[COUNT(lent)];

    memset(lent, STALE, sizeof lent);
    memset(wanted, STALE, sizeof wanted);
    if (c->ticks > 0)
        memcpy(wanted + EDGE, c->outputs, c->ticks * sizeof *c->outputs);
    int32_t *output = c->room > 0 ? lent + EDGE : NULL;
    uint32_t number = chain_run(c->store, c->words, c->row, c->channels, c->values, c->count, output, c->room);
    same(c->name, "the number", number, c->number);
    same_memory(c->name, "the memory left as it should be", lent, wanted, sizeof lent);
}

static void run_chains(void)
{
    for (size_t i = 0; i < COUNT(run_cases); i++)
        run_one(&run_cases[i]);
}

/* 1,024 rows, one on another, over channel 0; the last row is the one given instead, of no inputs or on row 0. */
static void draw_long(uint32_t *store, uint32_t label, uint32_t last, uint32_t inputs)
{
    memset(store, 0, CHAIN_MOST_WORDS * sizeof *store);
    store[0] = CHAIN_MOST_ROWS;
    for (uint32_t n = 0; n < CHAIN_MOST_ROWS; n++) {
        bool end = n + 1 == CHAIN_MOST_ROWS;
        store[1 + 6 * n] = end ? last : label;
        store[2 + 6 * n] = end ? inputs : 1;
        store[3 + 6 * n] = end ? 0 : n + 1;
    }
}

/* Negated 1,023 times; held as often, so that the first count comes out at tick 1,023; and loops with a hold and without. */
static void run_longest(void)
{
    static uint32_t store[CHAIN_MOST_WORDS];
    static int32_t values[CHAIN_MOST_ROWS], output[CHAIN_MOST_ROWS];

    for (int32_t t = 0; t < CHAIN_MOST_ROWS; t++)
        values[t] = INT32_MIN + t;
    draw_long(store, 12 << 16, 65536, 0);
    same("run negates", "the number", chain_run(WORDS(store), 0, 1, WORDS(values), WORDS(output)), CHAIN_DONE);
    same("run negates", "the first output", (uint32_t)output[0], INT32_MAX);
    same("run negates", "the last output", (uint32_t)output[1023], INT32_MAX - 1022);
    draw_long(store, 6 << 16, 65536, 0);
    same("run holds", "the number", chain_run(WORDS(store), 0, 1, WORDS(values), WORDS(output)), CHAIN_DONE);
    same("run holds", "the output before the last", (uint32_t)output[1022], 0);
    same("run holds", "the last output", (uint32_t)output[1023], (uint32_t)INT32_MIN);
    draw_long(store, 12 << 16, 6 << 16, 1);
    same("run a long loop", "the number", chain_run(WORDS(store), 0, 1, WORDS(values), WORDS(output)), CHAIN_DONE);
    same("run a long loop", "the last output", (uint32_t)output[1023], 0);
    draw_long(store, 12 << 16, 5 << 16 | 1, 1);
    same("run a loop without a hold", "the number", chain_run(WORDS(store), 0, 1, WORDS(values), WORDS(output)), CHAIN_NOT_HELD);
    same("run a loop without a hold", "the output as it was", (uint32_t)output[1023], 0);
}

/* ---- converting old sheets */

enum { RESULT = 48 };

/* What is written where rows of the store are named: a negated difference and a wire to it, a difference of wires, a negated hold in one turn, and a row of the sheet itself beside one of the store. */
static const uint8_t negated[] = {0, 0, 0, 29, 1, 0, 4, 0, 12, 0, 0, 1, 0, 3, 0, 1, 0, 1, 0, 0, 2, 0, 40, 0, 0, 3, 0, 0, 2, 0, 1, 0,
    2};
static const uint8_t wired[] = {0, 0, 0, 29, 1, 0, 4, 0, 7, 0, 0, 1, 0, 3, 0, 1, 0, 1, 0, 0, 2, 0, 40, 0, 0, 3, 0, 0, 2, 0, 1, 0, 2};
static const uint8_t negated_hold[] = {0, 0, 0, 17, 1, 0, 2, 0, 12, 0, 0, 1, 0, 1, 0, 6, 0, 0, 1, 0, 1};
static const uint8_t own_channel[] = {0, 0, 0, 17, 1, 0, 2, 0, 4, 0, 0, 2, 0, 1, 128, 0, 0, 1, 0, 1, 0};
static const uint8_t two_channels[] = {0, 0, 0, 22, 1, 0, 3, 0, 4, 0, 0, 2, 0, 1, 0, 2, 0, 1, 0, 1, 0, 0, 1, 0, 1, 0};
/* The result at the front of the buffer; a refusal writes nothing. */
struct convert_case {
    const char *name;
    const uint32_t *store;
    size_t words;
    const uint8_t *sheet;
    size_t bytes;
    size_t room;
    uint32_t number;
    size_t place;
    const uint8_t *result;
    size_t written;
};

static const struct convert_case convert_cases[] = {
    {"convert a difference of two", WORDS(three), BYTES(known), 26, CHAIN_DONE, 0, BYTES(sheet_d)},
    {"convert it in a longer buffer", WORDS(three), BYTES(known), RESULT, CHAIN_DONE, 0, BYTES(sheet_d)},
    {"convert it turned", WORDS(three), BYTES(turned), RESULT, CHAIN_DONE, 0, BYTES(known_turned)},
    {"convert a negated difference", WORDS(three), BYTES(negate_2), 33, CHAIN_DONE, 0, BYTES(negated)},
    {"convert a wire to it", WORDS(three), BYTES(wire_to_2), 33, CHAIN_DONE, 0, BYTES(wired)},
    {"convert a difference of wires", WORDS(three), BYTES(wired_known), 40, CHAIN_DONE, 0, BYTES(wired_d)},
    {"convert a negated hold", WORDS(hold_only), BYTES(negate_0), 21, CHAIN_DONE, 0, BYTES(negated_hold)},
    {"convert a channel beside its like", WORDS(three), BYTES(own_channel), RESULT, CHAIN_DONE, 0, BYTES(two_channels)},
    {"convert D", WORDS(three), BYTES(sheet_d), 26, CHAIN_DONE, 0, BYTES(sheet_d)},
    {"convert D beside no rows", WORDS(one_word), BYTES(sheet_d), RESULT, CHAIN_DONE, 0, BYTES(sheet_d)},
    {"convert no rows", WORDS(three), BYTES(no_rows), 7, CHAIN_DONE, 0, BYTES(no_rows)},
    {"convert two wires", WORDS(three), BYTES(two_wires), RESULT, CHAIN_DONE, 0, BYTES(two_wires)},
    {"convert a free operation", WORDS(three), BYTES(free_33), 12, CHAIN_DONE, 0, BYTES(free_33)},
    {"convert a scale of itself", WORDS(three), BYTES(own_scale), 14, CHAIN_DONE, 0, BYTES(own_scale)},
    {"convert no words", NOTHING, BYTES(six_bytes), 0, CHAIN_NO_WORDS, 0, NOTHING},
    {"convert nothing", NOTHING, NOTHING, 0, CHAIN_NO_WORDS, 0, NOTHING},
    {"convert beside two holds", WORDS(two_holds), BYTES(six_bytes), 0, CHAIN_NOT_SOUND, 0, NOTHING},
    {"convert beside a wire", WORDS(with_wire), BYTES(known), RESULT, CHAIN_NOT_SOUND, 0, NOTHING},
    {"convert no bytes", WORDS(three), NOTHING, RESULT, CHAIN_WRONG_LENGTH, 0, NOTHING},
    {"convert six bytes", WORDS(three), BYTES(six_bytes), 0, CHAIN_WRONG_LENGTH, 0, NOTHING},
    {"convert 3 before 4", WORDS(three), BYTES(two_faults), RESULT, CHAIN_WRONG_LENGTH, 0, NOTHING},
    {"convert version 2", WORDS(three), BYTES(version_2), RESULT, CHAIN_WRONG_VERSION, 4, NOTHING},
    {"convert 1,025 rows", WORDS(three), BYTES(rows_1025), RESULT, CHAIN_WRONG_ROWS, 5, NOTHING},
    {"convert a row past the end", WORDS(three), BYTES(row_past_end), RESULT, CHAIN_WRONG_ROWS, 7, NOTHING},
    {"convert a byte left over", WORDS(three), BYTES(left_over), RESULT, CHAIN_WRONG_ROWS, 7, NOTHING},
    {"convert five inputs", WORDS(three), BYTES(five_inputs), RESULT, CHAIN_WRONG_ROWS, 7, NOTHING},
    {"convert a sheet row astray", WORDS(three), BYTES(sheet_astray), 0, CHAIN_POINTS_NOWHERE, 12, NOTHING},
    {"convert a store row astray", WORDS(three), BYTES(store_astray), RESULT, CHAIN_POINTS_NOWHERE, 14, NOTHING},
    {"convert beside no rows of the store", WORDS(one_word), BYTES(known), RESULT, CHAIN_POINTS_NOWHERE, 12, NOTHING},
    {"convert the input 32,767", WORDS(three), BYTES(last_of_sheets), RESULT, CHAIN_POINTS_NOWHERE, 12, NOTHING},
    {"convert the input 65,535", WORDS(three), BYTES(last_of_stores), RESULT, CHAIN_POINTS_NOWHERE, 12, NOTHING},
    {"convert 6 before 14", WORDS(three), BYTES(short_then_astray), RESULT, CHAIN_POINTS_NOWHERE, 17, NOTHING},
    {"convert a wire of none", WORDS(three), BYTES(wire_of_none), 0, CHAIN_SHORT_WIRE, 0, NOTHING},
    {"convert a wire of two", WORDS(three), BYTES(wire_of_two), RESULT, CHAIN_SHORT_WIRE, 0, NOTHING},
    {"convert 14 before 15", WORDS(three), BYTES(loop_then_short), RESULT, CHAIN_SHORT_WIRE, 0, NOTHING},
    {"convert a short wire beside a name", WORDS(three), BYTES(short_wire_and_name), RESULT, CHAIN_SHORT_WIRE, 0, NOTHING},
    {"convert a wire to itself", WORDS(three), BYTES(own_wire), 0, CHAIN_WIRE_LOOP, 0, NOTHING},
    {"convert wires in a loop", WORDS(three), BYTES(wires_round), RESULT, CHAIN_WIRE_LOOP, 0, NOTHING},
    {"convert a loop beside a name", WORDS(three), BYTES(own_wire_and_name), RESULT, CHAIN_WIRE_LOOP, 0, NOTHING},
    {"convert in 25 bytes", WORDS(three), BYTES(known), 25, CHAIN_SHORT_BUFFER, 0, NOTHING},
    {"convert in the sheet's bytes", WORDS(three), BYTES(known), 16, CHAIN_SHORT_BUFFER, 0, NOTHING},
    {"convert in no buffer", WORDS(three), BYTES(known), 0, CHAIN_SHORT_BUFFER, 0, NOTHING},
    {"convert D in 25 bytes", WORDS(three), BYTES(sheet_d), 25, CHAIN_SHORT_BUFFER, 0, NOTHING},
};

static void convert_one(const struct convert_case *c)
{
    uint8_t lent[EDGE + RESULT + EDGE], wanted[sizeof lent];
    size_t written = STALE, place = STALE;

    memset(lent, STALE, sizeof lent);
    memset(wanted, STALE, sizeof wanted);
    if (c->written > 0)
        memcpy(wanted + EDGE, c->result, c->written);
    uint8_t *out = c->room > 0 ? lent + EDGE : NULL;
    uint32_t number = chain_convert(c->store, c->words, c->sheet, c->bytes, out, c->room, &written, &place);
    same(c->name, "the number", number, c->number);
    same(c->name, "bytes written", written, c->written);
    same(c->name, "the place", place, c->place);
    same_memory(c->name, "the memory left as it should be", lent, wanted, sizeof lent);
}

static void convert_sheets(void)
{
    for (size_t i = 0; i < COUNT(convert_cases); i++)
        convert_one(&convert_cases[i]);
}

/* What was converted goes back into its store: the difference has the number it had there, and no row is added. */
static void convert_and_insert(void)
{
    static const uint32_t numbers[] = {2, 0, 1};
    uint8_t result[RESULT];
    uint32_t store[COUNT(three)], answers[3], added;
    size_t written, place;

    memcpy(store, three, sizeof three);
    same("convert and insert", "converted", chain_convert(WORDS(store), BYTES(known), BYTES(result), &written, &place), CHAIN_DONE);
    same("convert and insert", "inserted", chain_insert(WORDS(store), result, written, WORDS(answers), &added, &place), CHAIN_DONE);
    same("convert and insert", "rows added", added, 0);
    same_memory("convert and insert", "the numbers", answers, numbers, sizeof answers);
    same_memory("convert and insert", "the store as it was", store, three, sizeof store);
}

/* 1,024 rows one on another: with row 0 negated they are a row too many, with row 1 negated as many as a sheet has. */
static void convert_longest(void)
{
    enum { BYTES_OF_ALL = 7 + 7 + 1022 * 7 + 5 };
    static uint32_t store[CHAIN_MOST_WORDS];
    static uint8_t out[BYTES_OF_ALL + 1], as_it_was[sizeof out];
    size_t written = STALE, place = STALE;

    draw_long(store, 6 << 16, 65536, 0);
    memset(out, STALE, sizeof out);
    memset(as_it_was, STALE, sizeof as_it_was);
    same("convert 1,025", "the number",
        chain_convert(WORDS(store), BYTES(negate_0), BYTES(out), &written, &place), CHAIN_LONG_RESULT);
    same("convert 1,025", "20 before 10",
        chain_convert(WORDS(store), BYTES(negate_0), NOTHING, &written, &place), CHAIN_LONG_RESULT);
    same("convert 1,025", "15 before 20",
        chain_convert(WORDS(store), BYTES(own_wire_and_name), BYTES(out), &written, &place), CHAIN_WIRE_LOOP);
    same("convert 1,025", "bytes written", written, 0);
    same("convert 1,025", "the place", place, 0);
    same("convert 1,024", "a byte less",
        chain_convert(WORDS(store), BYTES(negate_1), out, BYTES_OF_ALL - 1, &written, &place), CHAIN_SHORT_BUFFER);
    same_memory("convert 1,024", "the buffer as it was", out, as_it_was, sizeof out);
    same("convert 1,024", "the number", chain_convert(WORDS(store), BYTES(negate_1), BYTES(out), &written, &place), CHAIN_DONE);
    same("convert 1,024", "bytes written", written, BYTES_OF_ALL);
    same("convert 1,024", "the row count", (uint64_t)out[5] << 8 | out[6], CHAIN_MOST_ROWS);
    same("convert 1,024", "the input of row 0", (uint64_t)out[12] << 8 | out[13], 1);
    same("convert 1,024", "the byte past the result", out[BYTES_OF_ALL], STALE);
    same("convert 1,024", "the result read", chain_read_sheet(out, written, &place), CHAIN_DONE);
}

/* ---- writing keys, and telling them */

struct key_case {
    const char *name;
    const uint32_t *store;
    size_t words;
    uint32_t row;
    size_t room;
    uint32_t number;
    const uint8_t *key;
    size_t bytes;
};

static const struct key_case key_cases[] = {
    {"key of the difference", WORDS(three), 2, 26, CHAIN_DONE, BYTES(sheet_d)},
    {"key in a longer buffer", WORDS(three), 2, 30, CHAIN_DONE, BYTES(sheet_d)},
    {"key of the channel", WORDS(three), 0, 12, CHAIN_DONE, BYTES(channel)},
    {"key of the hold", WORDS(hold_only), 0, 30, CHAIN_DONE, BYTES(sheet_a)},
    {"key in 25 bytes", WORDS(three), 2, 25, CHAIN_SHORT_BUFFER, NOTHING},
    {"key in no buffer", WORDS(three), 2, 0, CHAIN_SHORT_BUFFER, NOTHING},
    {"key of a number not in use", WORDS(three), 3, 0, CHAIN_NOT_IN_USE, NOTHING},
    {"key of the highest number", WORDS(three), UINT32_MAX, 30, CHAIN_NOT_IN_USE, NOTHING},
    {"key from no words", NOTHING, 0, 30, CHAIN_NO_WORDS, NOTHING},
    {"key from two holds", WORDS(two_holds), 2, 0, CHAIN_NOT_SOUND, NOTHING},
    {"key from a store with a wire", WORDS(with_wire), 0, 30, CHAIN_NOT_SOUND, NOTHING},
    {"key of a wire", WORDS(wire_row_0), 0, 30, CHAIN_NOT_SOUND, NOTHING},
    {"key beside a wire past the rows", WORDS(wire_past_rows), 0, 12, CHAIN_DONE, BYTES(channel)},
};

static void write_keys(void)
{
    for (size_t i = 0; i < COUNT(key_cases); i++) {
        const struct key_case *c = &key_cases[i];
        uint8_t lent[EDGE + 30 + EDGE], wanted[sizeof lent];
        size_t written = STALE;

        memset(lent, STALE, sizeof lent);
        memset(wanted, STALE, sizeof wanted);
        if (c->bytes > 0)
            memcpy(wanted + EDGE, c->key, c->bytes);
        uint8_t *key = c->room > 0 ? lent + EDGE : NULL;
        same(c->name, "the number", chain_write_key(c->store, c->words, c->row, key, c->room, &written), c->number);
        same(c->name, "bytes written", written, c->bytes);
        same_memory(c->name, "the memory left as it should be", lent, wanted, sizeof lent);
    }
}

struct told_case {
    const char *name;
    const uint8_t *bytes;
    size_t length;
    bool yes;
};

static const struct told_case told_cases[] = {
    {"A is a key", BYTES(sheet_a), true},
    {"D is a key", BYTES(sheet_d), true},
    {"a channel is a key", BYTES(channel), true},
    {"B is no key", BYTES(sheet_b), false},
    {"D turned is no key", BYTES(turned_d), false},
    {"no rows are no key", BYTES(no_rows), false},
    {"store numbers are no key", BYTES(known), false},
    {"an input astray is no key", BYTES(sheet_astray), false},
    {"A cut by a byte is no key", sheet_a, sizeof sheet_a - 1, false},
    {"no bytes are no key", NOTHING, false},
    {"a setting of 7 is a key", BYTES(setting_7), true},
    {"a wire on a channel is no key", BYTES(wire_on_channel), false},
    {"a wire in between is no key", BYTES(two_wires), false},
    {"a wire of no inputs is no key", BYTES(wire_of_none), false},
    {"a wire to itself is no key", BYTES(own_wire), false},
};

static void tell_keys(void)
{
    for (size_t i = 0; i < COUNT(told_cases); i++) {
        const struct told_case *c = &told_cases[i];
        same(c->name, "yes", chain_is_key(c->bytes, c->length), c->yes);
    }
}

/* ---- comparing, and parts */

struct compare_case {
    const char *name;
    const uint32_t *first;
    size_t first_words;
    uint32_t row;
    const uint32_t *second;
    size_t second_words;
    uint32_t other;
    uint32_t number;
    uint32_t yes;
};

static const struct compare_case compare_cases[] = {
    {"compare the differences", WORDS(three), 2, WORDS(with_d), 0, CHAIN_DONE, 1},
    {"compare the channels", WORDS(three), 0, WORDS(with_d), 1, CHAIN_DONE, 1},
    {"compare channel and constant", WORDS(three), 0, WORDS(with_d), 2, CHAIN_DONE, 0},
    {"compare with the turned difference", WORDS(with_d), 0, WORDS(three_more), 3, CHAIN_DONE, 0},
    {"compare a row with itself", WORDS(three), 2, WORDS(three), 2, CHAIN_DONE, 1},
    {"compare two rows of one store", WORDS(three), 0, WORDS(three), 1, CHAIN_DONE, 0},
    {"compare nothing with nothing", NOTHING, 0, NOTHING, 0, CHAIN_NO_WORDS, 0},
    {"compare two holds with nothing", WORDS(two_holds), 0, NOTHING, 0, CHAIN_NOT_SOUND, 0},
    {"compare with nothing", WORDS(three), 3, NOTHING, 0, CHAIN_NO_WORDS, 0},
    {"compare with two holds", WORDS(three), 3, WORDS(two_holds), 0, CHAIN_NOT_SOUND, 0},
    {"compare with a store with a wire", WORDS(three), 0, WORDS(with_wire), 0, CHAIN_NOT_SOUND, 0},
    {"compare a store with a wire", WORDS(with_short_wire), 0, WORDS(three), 0, CHAIN_NOT_SOUND, 0},
    {"compare a row not in use", WORDS(three), 3, WORDS(three), 0, CHAIN_NOT_IN_USE, 0},
    {"compare with a row not in use", WORDS(hold_only), 0, WORDS(three), 3, CHAIN_NOT_IN_USE, 0},
};

static void compare_rows(void)
{
    for (size_t i = 0; i < COUNT(compare_cases); i++) {
        const struct compare_case *c = &compare_cases[i];
        uint32_t yes = STALE;
        uint32_t number = chain_compare(c->first, c->first_words, c->row, c->second, c->second_words, c->other, &yes);
        same(c->name, "the number", number, c->number);
        same(c->name, "yes", yes, c->yes);
    }
}

struct part_case {
    const char *name;
    const uint32_t *store;
    size_t words;
    uint32_t part;
    uint32_t whole;
    uint32_t number;
    uint32_t yes;
};

static const struct part_case part_cases[] = {
    {"the channel in the difference", WORDS(three), 0, 2, CHAIN_DONE, 1},
    {"the constant in the difference", WORDS(three), 1, 2, CHAIN_DONE, 1},
    {"the difference in the channel", WORDS(three), 2, 0, CHAIN_DONE, 0},
    {"the channel in the constant", WORDS(three), 0, 1, CHAIN_DONE, 0},
    {"the difference in itself", WORDS(three), 2, 2, CHAIN_DONE, 1},
    {"a part of no words", NOTHING, 0, 0, CHAIN_NO_WORDS, 0},
    {"a part of two holds", WORDS(two_holds), 0, 2, CHAIN_NOT_SOUND, 0},
    {"a part of a store with a wire", WORDS(with_wire), 0, 1, CHAIN_NOT_SOUND, 0},
    {"a part of a wire", WORDS(wire_row_0), 1, 0, CHAIN_NOT_SOUND, 0},
    {"a part not in use", WORDS(three), 3, 2, CHAIN_NOT_IN_USE, 0},
    {"a whole not in use", WORDS(three), 0, 3, CHAIN_NOT_IN_USE, 0},
};

static void tell_parts(void)
{
    for (size_t i = 0; i < COUNT(part_cases); i++) {
        const struct part_case *c = &part_cases[i];
        uint32_t yes = STALE;
        same(c->name, "the number", chain_part_of(c->store, c->words, c->part, c->whole, &yes), c->number);
        same(c->name, "yes", yes, c->yes);
    }
}

/* ---- a bundle */

struct next_case {
    const char *name;
    const uint8_t *bundle;
    size_t bytes;
    size_t length;
};

static const uint8_t all_ones[] = {255, 255, 255, 255, 1, 0, 0};
static const uint8_t field_only[] = {0, 0, 0, 0};

static const struct next_case next_cases[] = {
    {"the next sheet of nothing", NOTHING, 0},
    {"the next sheet of three bytes", sheet_a, 3, 0},
    {"the next sheet of A", BYTES(sheet_a), 14},
    {"the next sheet of A cut by a byte", sheet_a, 13, 0},
    {"the next sheet of a length field", BYTES(field_only), 4},
    {"the next sheet of a length of all ones", BYTES(all_ones), 0},
};

static void show_sheets(void)
{
    for (size_t i = 0; i < COUNT(next_cases); i++) {
        const struct next_case *c = &next_cases[i];
        same(c->name, "the length", chain_next_sheet(c->bundle, c->bytes), c->length);
    }
}

/* B, A and D, one after another, and three bytes of a fourth sheet. */
static void walk_bundle(void)
{
    static const uint32_t numbers[][3] = {{0, 0, STALE}, {0, STALE, STALE}, {1, 2, 3}};
    static const uint32_t added[] = {1, 0, 3};
    uint8_t bundle[sizeof sheet_b + sizeof sheet_a + sizeof sheet_d + 3];
    uint32_t store[1 + 4 * 6] = {0};
    size_t at = 0, length, sheets = 0;

    memcpy(bundle, sheet_b, sizeof sheet_b);
    memcpy(bundle + sizeof sheet_b, sheet_a, sizeof sheet_a);
    memcpy(bundle + sizeof sheet_b + sizeof sheet_a, sheet_d, sizeof sheet_d);
    memcpy(bundle + sizeof bundle - 3, no_rows, 3);
    while ((length = chain_next_sheet(bundle + at, sizeof bundle - at)) > 0 && sheets < COUNT(numbers)) {
        uint32_t answers[3] = {STALE, STALE, STALE}, rows = STALE;
        size_t place = STALE;
        uint32_t number = chain_insert(store, COUNT(store), bundle + at, length, answers, 3, &rows, &place);
        same("the bundle", "the number", number, CHAIN_DONE);
        same("the bundle", "rows added", rows, added[sheets]);
        same("the bundle", "the place", place, 0);
        same_memory("the bundle", "the answers as they should be", answers, numbers[sheets], sizeof answers);
        at += length;
        sheets++;
    }
    same("the bundle", "sheets", sheets, 3);
    same("the bundle", "the rest", sizeof bundle - at, 3);
}

/* ---- two stores of the same trees, and a store filled to the brim */

/* Keys are equal exactly where the trees are the same, and a key inserted where its tree is known adds nothing. */
static void match_keys(uint32_t *first, uint32_t *second, size_t words, uint32_t row)
{
    uint8_t key[30], other_key[30];
    size_t bytes, other_bytes, place;
    uint32_t partners = 0, answers[3], added, yes;

    same("keys", "the number", chain_write_key(first, words, row, key, sizeof key, &bytes), CHAIN_DONE);
    for (uint32_t other = 0; other < second[0]; other++) {
        same("keys", "the number", chain_write_key(second, words, other, other_key, sizeof other_key, &other_bytes), CHAIN_DONE);
        same("keys", "comparing", chain_compare(first, words, row, second, words, other, &yes), CHAIN_DONE);
        same("keys", "the answer", yes, bytes == other_bytes && memcmp(key, other_key, bytes) == 0);
        partners += yes;
    }
    same("keys", "rows with the tree", partners, 1);
    same("keys", "a key told", chain_is_key(key, bytes), true);
    same("keys", "a key inserted", chain_insert(first, words, key, bytes, answers, 3, &added, &place), CHAIN_DONE);
    same("keys", "its number", answers[0], row);
    same("keys", "rows added", added, 0);
}

static void match_stores(void)
{
    uint32_t first[1 + 4 * 6] = {0}, second[1 + 4 * 6] = {0}, answers[3], added;
    size_t place;

    same("two stores", "B", chain_insert(first, COUNT(first), BYTES(sheet_b), answers, 3, &added, &place), CHAIN_DONE);
    same("two stores", "D", chain_insert(first, COUNT(first), BYTES(sheet_d), answers, 3, &added, &place), CHAIN_DONE);
    same("two stores", "D turned", chain_insert(second, COUNT(second), BYTES(turned_d), answers, 3, &added, &place), CHAIN_DONE);
    same("two stores", "A", chain_insert(second, COUNT(second), BYTES(sheet_a), answers, 3, &added, &place), CHAIN_DONE);
    same("two stores", "rows of the first", first[0], 4);
    same("two stores", "rows of the second", second[0], 4);
    for (uint32_t row = 0; row < first[0]; row++)
        match_keys(first, second, COUNT(first), row);
}

/* Row i has the label i, row i + 1 for its first input (the last has row 0), and row 0 for the three others. */
static void draw_longest(uint8_t *sheet)
{
    uint8_t *at = sheet;
    const uint8_t head[] = {0, 0, (CHAIN_MOST_KEY_BYTES - 4) >> 8, (CHAIN_MOST_KEY_BYTES - 4) & 255, 1, CHAIN_MOST_ROWS >> 8, 0};

    memset(sheet, 0, CHAIN_MOST_KEY_BYTES);
    memcpy(sheet, head, sizeof head);
    at += sizeof head;
    for (unsigned i = 0; i < CHAIN_MOST_ROWS; i++, at += 13) {
        unsigned next = (i + 1) % CHAIN_MOST_ROWS;
        at[2] = (uint8_t)(i >> 8);
        at[3] = (uint8_t)(i & 255);
        at[4] = 4;
        at[5] = (uint8_t)(next >> 8);
        at[6] = (uint8_t)(next & 255);
    }
}

/* The version as text is the three numbers. */
static void tell_version(void)
{
    char text[32];

    snprintf(text, sizeof text, "%d.%d.%d", CHAIN_REGISTER_VERSION_MAJOR, CHAIN_REGISTER_VERSION_MINOR, CHAIN_REGISTER_VERSION_PATCH);
    same("version", "the text", (uint64_t)(strcmp(text, CHAIN_REGISTER_VERSION) == 0), 1);
}

/* The sizes of the header: that many rows fit, that many words are enough, and the longest key has that many bytes. */
static void fill_store(void)
{
    static uint8_t sheet[CHAIN_MOST_KEY_BYTES], key[CHAIN_MOST_KEY_BYTES];
    static uint32_t store[CHAIN_MOST_WORDS], before[CHAIN_MOST_WORDS], answers[CHAIN_MOST_ROWS];
    uint32_t added, yes;
    size_t written, place;

    draw_longest(sheet);
    uint32_t number = chain_insert(store, CHAIN_MOST_WORDS - 1, BYTES(sheet), WORDS(answers), &added, &place);
    same("full", "a word less", number, CHAIN_NO_ROOM);
    same("full", "the number", chain_insert(WORDS(store), BYTES(sheet), WORDS(answers), &added, &place), CHAIN_DONE);
    same("full", "rows added", added, CHAIN_MOST_ROWS);
    same("full", "the last answer", answers[CHAIN_MOST_ROWS - 1], CHAIN_MOST_ROWS - 1);
    memcpy(before, store, sizeof store);
    same("full", "a row more", chain_insert(WORDS(store), BYTES(channel), WORDS(answers), &added, &place), CHAIN_NO_ROOM);
    same_memory("full", "the store as it was", store, before, sizeof store);
    same("full", "a byte less", chain_write_key(WORDS(store), 0, key, sizeof key - 1, &written), CHAIN_SHORT_BUFFER);
    same("full", "the key", chain_write_key(WORDS(store), 0, BYTES(key), &written), CHAIN_DONE);
    same("full", "its bytes", written, CHAIN_MOST_KEY_BYTES);
    same_memory("full", "the key is the sheet", key, sheet, sizeof key);
    same("full", "the key told", chain_is_key(BYTES(key)), true);
    same("full", "parts", chain_part_of(WORDS(store), 0, CHAIN_MOST_ROWS - 1, &yes), CHAIN_DONE);
    same("full", "the answer", yes, 1);
}

int main(void)
{
    check_stores();
    insert_sheets();
    insert_plainly();
    insert_strictly();
    mend_stores();
    mend_longest();
    run_operations();
    run_chains();
    run_longest();
    convert_sheets();
    convert_and_insert();
    convert_longest();
    try_catalogue();
    find_faults();
    tell_messages();
    tell_version();
    write_keys();
    tell_keys();
    compare_rows();
    tell_parts();
    show_sheets();
    walk_bundle();
    match_stores();
    fill_store();
    if (failures > 0) {
        printf("client: %u of %u checks failed\n", failures, checks);
        return 1;
    }
    printf("client: %u checks passed\n", checks);
    return 0;
}
