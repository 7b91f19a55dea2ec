#include "worst.h"

static void put_store_row(uint32_t *store, uint32_t n, struct row r)
{
    uint32_t *words = store + 1 + n * ROW_WORDS;
    words[0] = r.label;
    words[1] = r.count;
    for (uint32_t j = 0; j < ROOM; j++)
        words[2 + j] = r.inputs[j];
}

void build_deep(uint32_t rows, uint32_t *store)
{
    store[0] = rows;
    for (uint32_t n = 0; n + 1 < rows; n++)
        put_store_row(store, n, row(HOLD, 0, 1, n + 1, 0));
    put_store_row(store, rows - 1, row(CHANNEL, 1, 0, 0, 0));
}

/* A loop from row `first` on, to the last row and back. */
static void put_loop(uint32_t first, uint32_t rows, uint32_t setting, uint32_t *store)
{
    put_store_row(store, first, row(SCALE, setting, 1, first + 1 < rows ? first + 1 : first, 0));
    for (uint32_t n = first + 1; n < rows; n++)
        put_store_row(store, n, row(HOLD, 0, 1, n + 1 < rows ? n + 1 : first, 0));
}

void build_loop(uint32_t rows, uint32_t setting, uint32_t *store)
{
    store[0] = rows;
    put_loop(0, rows, setting, store);
}

void build_above_loop(uint32_t rows, uint32_t *store)
{
    store[0] = rows;
    uint32_t first = rows / 2;
    for (uint32_t n = 0; n + 1 < first; n++)
        put_store_row(store, n, row(HOLD, 0, 1, n + 1, 0));
    put_store_row(store, first - 1, row(HOLD, 0, 1, first + 1, 0));
    put_loop(first, rows, 1, store);
}

void build_stages(uint32_t stages, uint32_t *store)
{
    store[0] = 4 * stages + 1;
    for (uint32_t n = 0; n < 4 * stages; n += 4) {
        put_store_row(store, n, row(SUM, 0, 2, n + 1, n + 2));
        put_store_row(store, n + 1, row(SCALE, 1, 1, n + 4, 0));
        put_store_row(store, n + 2, row(SCALE, 2, 1, n + 3, 0));
        put_store_row(store, n + 3, row(HOLD, 0, 1, n, 0));
    }
    put_store_row(store, 4 * stages, row(CHANNEL, 1, 0, 0, 0));
}

void build_straight(uint32_t rows, uint32_t *store)
{
    store[0] = rows;
    for (uint32_t n = 0; n + 2 < rows; n++) {
        if (n % 3 == 0)
            put_store_row(store, n, row(NEGATE, 0, 1, n + 1, 0));
        else
            put_store_row(store, n, row(n % 3 == 1 ? SUM : DIFFERENCE, 0, 2, n + 1, rows - n % 3));
    }
    put_store_row(store, rows - 2, row(CHANNEL, 1, 0, 0, 0));
    put_store_row(store, rows - 1, row(CHANNEL, 0, 0, 0, 0));
}

void build_ring(uint32_t rows, uint32_t *store)
{
    store[0] = rows;
    for (uint32_t n = 0; n < rows; n++)
        put_store_row(store, n, row(n == 0 ? DIFFERENCE : SUM, 0, 2, (n + 1) % rows, n));
}

void build_channels(uint32_t rows, uint32_t from, uint32_t *store)
{
    store[0] = rows;
    for (uint32_t n = 0; n < rows; n++)
        put_store_row(store, n, row(CHANNEL, from + n, 0, 0, 0));
}

void draw_deep_beside(uint32_t rows, struct drawn *d)
{
    d->count = rows;
    for (uint32_t i = 0; i + 1 < rows; i++)
        d->rows[i] = row(HOLD, 0, 1, i + 1, 0);
    d->rows[rows - 1] = row(CHANNEL, 2, 0, 0, 0);
}

void draw_tiny(struct chance *c, struct drawn *d)
{
    d->count = 1;
    switch (below(c, 8)) {
    case 0: case 1:
        d->rows[0] = row(CHANNEL, 1, 0, 0, 0);
        break;
    case 2: case 3: case 4:
        d->count = 3;
        d->rows[0] = row(HOLD, 0, 1, 1, 0);
        d->rows[1] = row(HOLD, 0, 1, 2, 0);
        d->rows[2] = row(CHANNEL, 1, 0, 0, 0);
        break;
    case 5: case 6:
        d->count = 2;
        d->rows[0] = row(HOLD, 0, 1, 1, 0);
        d->rows[1] = row(CHANNEL, 1, 0, 0, 0);
        break;
    default:
        d->rows[0] = row(CONSTANT, below(c, 1000), 0, 0, 0);
    }
}

void same_order(uint16_t *order, uint32_t rows)
{
    for (uint32_t n = 0; n < rows; n++)
        order[n] = (uint16_t)n;
}

void turned_order(uint16_t *order, uint32_t rows)
{
    for (uint32_t n = 0; n < rows; n++)
        order[n] = (uint16_t)(rows - 1 - n);
}
