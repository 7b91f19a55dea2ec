/* Sheets as they are drawn, as bytes one after another, and the operations that sites draw with. */
#ifndef SHEETS_H
#define SHEETS_H

#include "../baseline/view.h"
#include "chance.h"

enum operation { CHANNEL = 1, CONSTANT, DIFFERENCE, SUM, SCALE, HOLD, WIRE, NEGATE = 12 };

enum { MOST_SHEETS = 2200, MOST_BUNDLE = 65536 };

/* Rows with their inputs as a sheet has them: places of rows of this sheet. In an old sheet they may be rows of a store too. */
struct drawn {
    uint32_t count;
    struct row rows[SHEET_ROWS];
};

struct bundle {
    uint32_t sheets;
    uint32_t place[MOST_SHEETS + 1]; /* where each sheet starts, and where the last ends */
    uint8_t bytes[MOST_BUNDLE];
};

static inline uint32_t label(enum operation operation, uint32_t setting)
{
    return (uint32_t)operation << 16 | setting;
}

/* A row of up to two inputs. */
struct row row(enum operation operation, uint32_t setting, uint32_t count, uint32_t first, uint32_t second);

/* The sheet's rows in another order. */
void reorder(struct drawn *d, const uint16_t *order);

/* 0 if the bundle has no room for it within so many bytes. */
int add_sheet(struct bundle *b, const struct drawn *d, uint32_t most);

/* A store's rows as a sheet. */
void draw_store(const uint32_t *store, struct drawn *d);

/* The store with row u at order[u]: the same trees under other numbers. */
void renumber(const uint32_t *store, const uint16_t *order, uint32_t *other);

#endif
