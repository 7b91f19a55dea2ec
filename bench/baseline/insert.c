/* An insert: shape, sheet, the rows of both sorted together, 2, 7, the trees numbered, 8, the write. */
#include "operations.h"
#include "shape.h"
#include "sheet.h"

/* What a sort gives: classes, and the number of the tree of each row that is the first of its class. */
struct sorted {
    struct view view;
    uint16_t classes[VIEW_ROWS];
    uint16_t numbers[VIEW_ROWS];
};

static uint32_t number_of(const struct sorted *s, uint32_t u)
{
    return s->numbers[s->classes[u]];
}

static int store_rows_differ(const struct sorted *s)
{
    uint32_t u = 0;
    while (u < s->view.stored && s->classes[u] == u)
        u++;
    return u == s->view.stored;
}

/* How many trees there are in all. */
static uint32_t number_trees(struct sorted *s)
{
    uint32_t trees = 0;
    for (uint32_t u = 0; u < s->view.rows; u++) {
        s->numbers[u] = (uint16_t)trees;
        trees += s->classes[u] == u;
    }
    return trees;
}

/* The row is put at its tree's number, each input as the number of its tree. */
static void put_row(const struct sorted *s, uint32_t *store, uint32_t u)
{
    struct row row = sheet_row(&s->view, u - s->view.stored);
    uint32_t *words = store + 1 + s->numbers[u] * ROW_WORDS;
    words[0] = row.label;
    words[1] = row.count;
    for (uint32_t j = 0; j < ROOM; j++)
        words[2 + j] = j < row.count ? number_of(s, row.inputs[j]) : 0;
}

static void write_all(const struct sorted *s, uint32_t *store, uint32_t *answers, uint32_t trees)
{
    for (uint32_t u = s->view.stored; u < s->view.rows; u++) {
        if (s->classes[u] == u)
            put_row(s, store, u);
        answers[u - s->view.stored] = number_of(s, u);
    }
    store[0] = trees;
}

/* The rows are sorted: 2, 7, 8 or the write. */
static uint32_t finish(struct sorted *s, uint32_t *store, size_t words, uint32_t *answers, size_t entries,
                       uint32_t *added)
{
    if (!store_rows_differ(s))
        return 2;
    if (entries < s->view.rows - s->view.stored)
        return 7;
    uint32_t trees = number_trees(s);
    if (trees > capacity_of(words))
        return 8;
    *added = trees - s->view.stored;
    write_all(s, store, answers, trees);
    return 0;
}

/* The sheet is read: its rows beside the store's. */
static uint32_t insert_rows(sorter *sort, uint32_t *store, size_t words, const uint8_t *sheet, const uint16_t *places,
                            uint32_t rows, uint32_t *answers, size_t entries, uint32_t *added)
{
    struct sorted s;
    s.view = (struct view){store, store[0], sheet, places, store[0] + rows};
    sort(&s.view, s.classes);
    return finish(&s, store, words, answers, entries, added);
}

uint32_t insert_sheet(sorter *sort, uint32_t *store, size_t words, const uint8_t *sheet, size_t bytes,
                      uint32_t *answers, size_t entries, uint32_t *added)
{
    *added = 0;
    uint32_t number = shape_of(store, words);
    if (number != 0)
        return number;
    uint16_t places[SHEET_ROWS];
    uint32_t rows;
    number = read_sheet(sheet, bytes, places, &rows);
    if (number != 0)
        return check_store(sort, store, words) != 0 ? 2 : number;
    return insert_rows(sort, store, words, sheet, places, rows, answers, entries, added);
}

uint32_t insert_into_sound(sorter *sort, uint32_t *store, size_t words, const uint8_t *sheet, size_t bytes,
                           uint32_t *answers, size_t entries, uint32_t *added)
{
    *added = 0;
    uint16_t places[SHEET_ROWS];
    uint32_t rows;
    uint32_t number = read_sheet(sheet, bytes, places, &rows);
    if (number != 0 || rows == 0)
        return number;
    return insert_rows(sort, store, words, sheet, places, rows, answers, entries, added);
}
