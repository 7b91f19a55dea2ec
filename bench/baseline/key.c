/* The key of a row: the store is checked, a queue and marks walk it breadth-first, and the rows of the queue are written. */
#include "operations.h"

/* A row is met if its mark leads to it in the queue, so that neither needs clearing between walks. */
static uint16_t queue[STORE_ROWS], marks[STORE_ROWS];

static uint32_t meet(uint32_t filled, uint32_t x)
{
    if (marks[x] < filled && queue[marks[x]] == x)
        return filled;
    queue[filled] = (uint16_t)x;
    marks[x] = (uint16_t)filled;
    return filled + 1;
}

/* The rows met, and the bytes of their key. */
static uint32_t walk(const uint32_t *store, uint32_t row, size_t *need)
{
    uint32_t filled = meet(0, row);
    *need = SHEET_HEAD;
    for (uint32_t k = 0; k < filled; k++) {
        const uint32_t *words = row_words(store, queue[k]);
        for (uint32_t j = 0; j < words[1]; j++)
            filled = meet(filled, words[2 + j]);
        *need += ROW_HEAD + 2 * words[1];
    }
    return filled;
}

static uint8_t *put_key_row(uint8_t *at, const uint32_t *words)
{
    at = put_four(at, words[0]);
    *at++ = (uint8_t)words[1];
    for (uint32_t j = 0; j < words[1]; j++)
        at = put_two(at, marks[words[2 + j]]);
    return at;
}

static void put_key(const uint32_t *store, uint32_t filled, uint8_t *key, size_t need)
{
    uint8_t *at = put_four(key, (uint32_t)need - 4);
    *at++ = 1;
    at = put_two(at, filled);
    for (uint32_t k = 0; k < filled; k++)
        at = put_key_row(at, row_words(store, queue[k]));
}

uint32_t write_row_key(sorter *sort, const uint32_t *store, size_t words, uint32_t row,
                       uint8_t *key, size_t bytes, size_t *written)
{
    *written = 0;
    uint32_t number = check_store(sort, store, words);
    if (number != 0)
        return number;
    if (row >= store[0])
        return 9;
    size_t need;
    uint32_t filled = walk(store, row, &need);
    if (bytes < need)
        return 10;
    put_key(store, filled, key, need);
    *written = need;
    return 0;
}
