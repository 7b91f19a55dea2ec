#include "shallow.h"

#include "../baseline/operations.h"

enum { LEAST_ROWS = 5, MOST_ROWS = 60, LEAST_DEEP = 10, MOST_DEEP = 30, LOOP = 3 };

/* A sheet while it is drawn: a spine from the first row down, each row leading to the next, and rows beside it. */
struct drawing {
    struct chance *chance;
    struct drawn *to;
    uint32_t deep; /* rows of the spine */
    uint32_t side; /* the next row beside the spine that is not yet used */
};

static struct row leaf(struct chance *c)
{
    if (below(c, 2) == 0)
        return row(CHANNEL, 1 + below(c, 16), 0, 0, 0);
    return row(CONSTANT, 1 + below(c, 40), 0, 0, 0);
}

/* A place beside the spine that gets this row; the spine's last row, a channel or constant, when there is none left. */
static uint32_t beside(struct drawing *g, struct row r)
{
    if (g->side == g->to->count)
        return g->deep - 1;
    g->to->rows[g->side] = r;
    return g->side++;
}

/* A sum with its own value held, some rows up the spine: a small loop. */
static struct row smoothed(struct drawing *g, uint32_t i)
{
    uint32_t up = below(g->chance, LOOP);
    uint32_t held = beside(g, row(HOLD, 0, 1, up < i ? i - up : i, 0));
    return row(SUM, 0, 2, i + 1, held);
}

static struct row spine_row(struct drawing *g, uint32_t i)
{
    switch (below(g->chance, 10)) {
    case 0: case 1: case 2:
        return row(DIFFERENCE, 0, 2, i + 1, beside(g, leaf(g->chance)));
    case 3: case 4: case 5:
        return row(SUM, 0, 2, i + 1, beside(g, leaf(g->chance)));
    case 6: case 7:
        return row(SCALE, 1 + below(g->chance, 8), 1, i + 1, 0);
    case 8:
        return row(HOLD, 0, 1, i + 1, 0);
    default:
        return smoothed(g, i);
    }
}

/* Rows beside the spine that are left: further outputs, each a difference or a sum of two rows of the spine below its first,
 * so that no chain gets deeper. */
static void further_outputs(struct drawing *g)
{
    while (g->side < g->to->count) {
        uint32_t a = 1 + below(g->chance, g->deep - 1), b = 1 + below(g->chance, g->deep - 1);
        struct row r = row(below(g->chance, 2) == 0 ? DIFFERENCE : SUM, 0, 2, a, b);
        beside(g, r);
    }
}

static void draw_anew(struct chance *c, uint32_t most, struct drawn *d)
{
    uint32_t rows = LEAST_ROWS + below(c, most - LEAST_ROWS + 1);
    uint32_t deep = LEAST_DEEP + below(c, MOST_DEEP - LEAST_DEEP + 1);
    struct drawing g = {c, d, deep < rows ? deep : rows, 0};
    g.side = g.deep;
    d->count = rows;
    d->rows[g.deep - 1] = leaf(c);
    for (uint32_t i = 0; i + 1 < g.deep; i++)
        d->rows[i] = spine_row(&g, i);
    further_outputs(&g);
}

/* One channel or constant changed. The spine's last row is one, so there is one to be found. */
static void change_leaf(struct chance *c, struct drawn *d)
{
    uint32_t i = below(c, d->count);
    while (d->rows[i].count != 0)
        i = (i + 1) % d->count;
    d->rows[i] = leaf(c);
}

void open_site(struct site *s, uint64_t seed, int copies)
{
    s->chance.state = seed;
    s->copies = copies;
    s->last.count = 0;
}

void draw_chain(struct site *s, uint32_t most, struct drawn *d)
{
    if (most > MOST_ROWS)
        most = MOST_ROWS;
    if (!s->copies || s->last.count == 0 || s->last.count > most || below(&s->chance, 2) == 0)
        draw_anew(&s->chance, most, &s->last);
    else
        change_leaf(&s->chance, &s->last);
    *d = s->last;
}

void lead_past(struct chance *c, struct drawn *d)
{
    for (uint32_t i = 0; i < d->count; i++)
        for (uint32_t j = 0; j < d->rows[i].count; j++) {
            const struct row *next = &d->rows[d->rows[i].inputs[j]];
            if (below(c, 8) == 0 && next->count > 0 && next->label != label(HOLD, 0))
                d->rows[i].inputs[j] = next->inputs[0];
        }
}

void lead_into_store(struct chance *c, uint32_t stored, struct drawn *d)
{
    for (uint32_t i = 0; i < d->count; i++)
        for (uint32_t j = 0; j < d->rows[i].count; j++)
            if (below(c, 8) == 0)
                d->rows[i].inputs[j] = STORE_NUMBERS + below(c, stored);
}

void draw_again(struct chance *c, struct drawn *d)
{
    uint16_t order[SHEET_ROWS];
    shuffle(c, order, d->count);
    reorder(d, order);
}

void read_eight_channels(struct drawn *d)
{
    for (uint32_t i = 0; i < d->count; i++)
        if (d->rows[i].label >> 16 == CHANNEL)
            d->rows[i].label = label(CHANNEL, d->rows[i].label % 8);
}

/* A sheet of one channel that no drawn chain has: for the last rows of a store. */
static void draw_last(uint32_t stored, struct drawn *d)
{
    d->count = 1;
    d->rows[0] = row(CHANNEL, 100 + stored, 0, 0, 0);
}

void build_shallow(struct site *s, uint32_t rows, uint32_t *store)
{
    static struct bundle b;
    static struct drawn d;
    uint32_t answers[SHEET_ROWS], added;
    store[0] = 0;
    while (store[0] < rows) {
        if (rows - store[0] < LEAST_ROWS)
            draw_last(store[0], &d);
        else
            draw_chain(s, rows - store[0], &d);
        b.sheets = 0;
        add_sheet(&b, &d, MOST_BUNDLE);
        insert_sheet(sort_by_hopcroft, store, STORE_WORDS, b.bytes, b.place[1], answers, SHEET_ROWS, &added);
    }
}
