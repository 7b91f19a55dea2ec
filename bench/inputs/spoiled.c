#include "spoiled.h"

#include <string.h>

/* Rows of one operation, each with the next for its input, and the last with the first. */
static void put_ring(uint32_t rows, enum operation operation, uint32_t *store)
{
    memset(store, 0, (1 + rows * ROW_WORDS) * sizeof *store);
    store[0] = rows;
    for (uint32_t n = 0; n < rows; n++) {
        uint32_t *words = store + 1 + n * ROW_WORDS;
        words[0] = label(operation, 0);
        words[1] = 1;
        words[2] = (n + 1) % rows;
    }
}

/* The last row, without inputs that are rows. */
static void put_last(uint32_t rows, uint32_t last_label, uint32_t count, uint32_t *store)
{
    uint32_t *words = store + 1 + (rows - 1) * ROW_WORDS;
    words[0] = last_label;
    words[1] = count;
    words[2] = 0;
}

void build_above_spoiled(uint32_t rows, uint32_t *store)
{
    put_ring(rows, HOLD, store);
    put_last(rows, label(HOLD, 0), 5, store);
}

void build_one_tree(uint32_t rows, uint32_t *store)
{
    put_ring(rows, HOLD, store);
}

void build_wires(uint32_t rows, uint32_t *store)
{
    put_ring(rows, WIRE, store);
    put_last(rows, label(CHANNEL, 1), 0, store);
}

void build_wire_loop(uint32_t rows, uint32_t *store)
{
    put_ring(rows, WIRE, store);
}
