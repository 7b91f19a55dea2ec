#include "sheets.h"

#include <string.h>

struct row row(enum operation operation, uint32_t setting, uint32_t count, uint32_t first, uint32_t second)
{
    struct row made = {label(operation, setting), count, {first, second, 0, 0}};
    return made;
}

static uint32_t moved(const uint16_t *order, uint32_t input)
{
    return order[input];
}

void reorder(struct drawn *d, const uint16_t *order)
{
    static struct row old[SHEET_ROWS];
    memcpy(old, d->rows, d->count * sizeof *old);
    for (uint32_t i = 0; i < d->count; i++) {
        struct row *to = &d->rows[order[i]];
        *to = old[i];
        for (uint32_t j = 0; j < to->count; j++)
            to->inputs[j] = moved(order, old[i].inputs[j]);
    }
}

static uint32_t bytes_of(const struct drawn *d)
{
    uint32_t bytes = SHEET_HEAD;
    for (uint32_t i = 0; i < d->count; i++)
        bytes += ROW_HEAD + 2 * d->rows[i].count;
    return bytes;
}

static uint8_t *put_drawn_row(uint8_t *at, const struct row *r)
{
    at = put_four(at, r->label);
    *at++ = (uint8_t)r->count;
    for (uint32_t j = 0; j < r->count; j++)
        at = put_two(at, r->inputs[j]);
    return at;
}

int add_sheet(struct bundle *b, const struct drawn *d, uint32_t most)
{
    uint32_t start = b->place[b->sheets], bytes = bytes_of(d);
    if (b->sheets == MOST_SHEETS || start + bytes > most)
        return 0;
    uint8_t *at = put_four(b->bytes + start, bytes - 4);
    *at++ = 1;
    at = put_two(at, d->count);
    for (uint32_t i = 0; i < d->count; i++)
        at = put_drawn_row(at, &d->rows[i]);
    b->place[++b->sheets] = start + bytes;
    return 1;
}

void draw_store(const uint32_t *store, struct drawn *d)
{
    d->count = store[0];
    for (uint32_t n = 0; n < store[0]; n++)
        d->rows[n] = store_row(store, n);
}

void renumber(const uint32_t *store, const uint16_t *order, uint32_t *other)
{
    other[0] = store[0];
    for (uint32_t n = 0; n < store[0]; n++) {
        const uint32_t *from = row_words(store, n);
        uint32_t *to = other + 1 + order[n] * ROW_WORDS;
        memcpy(to, from, ROW_WORDS * sizeof *to);
        for (uint32_t j = 0; j < from[1]; j++)
            to[2 + j] = order[from[2 + j]];
    }
}
