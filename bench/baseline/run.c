/* Counts run through the chain of a row: the store is checked, the rows that the row leads to are put in order once, inputs before
 * users but for those of holds, and at each tick every one of them is evaluated once. */
#include <string.h>

#include "operations.h"

enum { CHANNEL = 1, CONSTANT, DIFFERENCE, SUM, SCALE, HOLD, GREATER = 8, LESSER, CHOOSE, MEAN_OF_FOUR, NEGATE, OPERATIONS };

/* The input counts of the operations, and one that no row has for those that are not in the catalogue. */
static const uint32_t catalogue[OPERATIONS] = {9, 0, 0, 2, 2, 1, 1, 1, 2, 2, 3, 4, 1};

/* A row as it is evaluated: its inputs as places in the order. */
struct step {
    uint32_t operation;
    int32_t setting;
    uint16_t inputs[ROOM];
};

/* A row is met, waits for its inputs, or has its place in the order. */
enum { MET = 1, WAITS, PLACED };

static struct step steps[STORE_ROWS];
static uint16_t places[STORE_ROWS], order[STORE_ROWS], way[STORE_ROWS];
static uint8_t state[STORE_ROWS], looked[STORE_ROWS];
static int32_t now[STORE_ROWS], before[STORE_ROWS];

static uint32_t operation_of(const uint32_t *words)
{
    return words[0] >> 16;
}

static uint32_t inputs_waited_for(const uint32_t *words)
{
    return operation_of(words) == HOLD ? 0 : words[1];
}

/* The rows that a row leads to, itself first: 12 where one is not in the catalogue. */
static uint32_t reach(const uint32_t *store, uint32_t row, uint32_t *reached)
{
    uint32_t filled = 1;
    memset(state, 0, store[0]);
    order[0] = (uint16_t)row;
    state[row] = MET;
    for (uint32_t k = 0; k < filled; k++) {
        const uint32_t *words = row_words(store, order[k]);
        if (operation_of(words) >= OPERATIONS || catalogue[operation_of(words)] != words[1])
            return 12;
        for (uint32_t j = 0; j < words[1]; j++)
            if (state[words[2 + j]] == 0) {
                state[words[2 + j]] = MET;
                order[filled++] = (uint16_t)words[2 + j];
            }
    }
    *reached = filled;
    return 0;
}

/* Gives a row its place behind all that it waits for: 13 where it waits for itself. */
static uint32_t place_row(const uint32_t *store, uint32_t row, uint32_t *placed)
{
    uint32_t deep = 0;
    way[deep++] = (uint16_t)row;
    state[row] = WAITS;
    looked[row] = 0;
    while (deep > 0) {
        uint32_t top = way[deep - 1];
        const uint32_t *words = row_words(store, top);
        if (looked[top] == inputs_waited_for(words)) {
            state[top] = PLACED;
            places[top] = (uint16_t)(*placed)++;
            deep--;
            continue;
        }
        uint32_t input = words[2 + looked[top]++];
        if (state[input] == WAITS)
            return 13;
        if (state[input] == MET) {
            state[input] = WAITS;
            looked[input] = 0;
            way[deep++] = (uint16_t)input;
        }
    }
    return 0;
}

static uint32_t place_rows(const uint32_t *store, uint32_t reached)
{
    uint32_t placed = 0, number = 0;
    for (uint32_t k = 0; k < reached && number == 0; k++)
        if (state[order[k]] == MET)
            number = place_row(store, order[k], &placed);
    return number;
}

/* The steps in their order: 17 where a channel is not there. */
static uint32_t take_steps(const uint32_t *store, uint32_t reached, uint32_t channels)
{
    for (uint32_t k = 0; k < reached; k++) {
        const uint32_t *words = row_words(store, order[k]);
        struct step *s = &steps[places[order[k]]];
        s->operation = operation_of(words);
        s->setting = (int32_t)(words[0] & 0xffff);
        if (s->operation == CHANNEL && (uint32_t)s->setting >= channels)
            return 17;
        for (uint32_t j = 0; j < words[1]; j++)
            s->inputs[j] = places[words[2 + j]];
    }
    return 0;
}

static int32_t clamp(int64_t exact)
{
    return exact < INT32_MIN ? INT32_MIN : exact > INT32_MAX ? INT32_MAX : (int32_t)exact;
}

static int32_t result(const struct step *s, const int32_t *channels)
{
    const int64_t a = now[s->inputs[0]], b = now[s->inputs[1]];
    switch (s->operation) {
    case CHANNEL: return channels[s->setting];
    case CONSTANT: return s->setting < 32768 ? s->setting : s->setting - 65536;
    case DIFFERENCE: return clamp(a - b);
    case SUM: return clamp(a + b);
    case SCALE: return clamp(a * s->setting / 256);
    case HOLD: return before[s->inputs[0]];
    case GREATER: return (int32_t)(a < b ? b : a);
    case LESSER: return (int32_t)(b < a ? b : a);
    case CHOOSE: return a > 0 ? (int32_t)b : now[s->inputs[2]];
    case MEAN_OF_FOUR: return (int32_t)((a + b + now[s->inputs[2]] + now[s->inputs[3]]) / 4);
    default: return clamp(-a);
    }
}

static void run_ticks(uint32_t rows, uint32_t asked, uint32_t channels, const int32_t *values, size_t ticks, int32_t *output)
{
    memset(before, 0, rows * sizeof *before);
    for (size_t t = 0; t < ticks; t++) {
        for (uint32_t k = 0; k < rows; k++)
            now[k] = result(&steps[k], values + t * channels);
        output[t] = now[asked];
        memcpy(before, now, rows * sizeof *before);
    }
}

uint32_t run_counts(sorter *sort, const uint32_t *store, size_t words, uint32_t row, uint32_t channels, const int32_t *values,
                    size_t count, int32_t *output, size_t room)
{
    uint32_t reached, number = check_store(sort, store, words);
    if (number != 0)
        return number;
    if (row >= store[0])
        return 9;
    number = reach(store, row, &reached);
    if (number == 0)
        number = place_rows(store, reached);
    if (number != 0)
        return number;
    if (channels < 1 || channels > 8 || count % channels != 0 || take_steps(store, reached, channels) != 0)
        return 17;
    if (room < count / channels)
        return 18;
    run_ticks(reached, places[row], channels, values, count / channels, output);
    return 0;
}
