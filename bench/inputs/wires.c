#include "wires.h"

/* A wire behind the other rows, and its place. */
static uint32_t add_wire(struct drawn *d, uint32_t to)
{
    d->rows[d->count] = row(WIRE, 0, 1, to, 0);
    return d->count++;
}

void put_wires(struct drawn *d)
{
    uint32_t boxes = d->count;
    for (uint32_t i = 0; i < boxes; i++)
        for (uint32_t j = 0; j < d->rows[i].count; j++)
            if (d->count < SHEET_ROWS)
                d->rows[i].inputs[j] = add_wire(d, d->rows[i].inputs[j]);
}

void draw_wires(uint32_t wires, struct drawn *d)
{
    uint32_t start = 1;
    d->count = 2;
    d->rows[1] = row(CHANNEL, 1, 0, 0, 0);
    for (uint32_t i = 0; i < wires; i++)
        start = add_wire(d, start);
    d->rows[0] = row(HOLD, 0, 1, start, 0);
}
