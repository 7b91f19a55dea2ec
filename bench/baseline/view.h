/* Row u of a store and a sheet together, by value: the store's rows first, then the sheet's. */
#ifndef VIEW_H
#define VIEW_H

#include "layout.h"

struct row {
    uint32_t label;
    uint32_t count;
    uint32_t inputs[ROOM]; /* those below the count are set */
};

struct view {
    const uint32_t *store;
    uint32_t stored;
    const uint8_t *sheet;
    const uint16_t *places; /* the byte at which each row of the sheet starts */
    uint32_t rows;          /* of store and sheet together */
};

static inline struct row store_row(const uint32_t *store, uint32_t n)
{
    const uint32_t *words = row_words(store, n);
    struct row row = {words[0], words[1], {words[2], words[3], words[4], words[5]}};
    return row;
}

static inline struct row sheet_row(const struct view *v, uint32_t i)
{
    const uint8_t *at = v->sheet + v->places[i];
    struct row row;
    row.label = four(at);
    row.count = at[4];
    for (uint32_t j = 0; j < row.count; j++)
        row.inputs[j] = v->stored + two(at + ROW_HEAD + 2 * j);
    return row;
}

static inline struct row read_row(const struct view *v, uint32_t u)
{
    return u < v->stored ? store_row(v->store, u) : sheet_row(v, u - v->stored);
}

#endif
