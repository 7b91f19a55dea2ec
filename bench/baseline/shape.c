#include "shape.h"

uint32_t capacity_of(size_t words)
{
    size_t rows = (words - 1) / ROW_WORDS;
    return rows < STORE_ROWS ? (uint32_t)rows : STORE_ROWS;
}

/* Used inputs are below the rows in use, unused ones are zero. */
static int row_shaped(const uint32_t *row, uint32_t rows)
{
    uint32_t count = row[1], j = 0;
    if (count > ROOM)
        return 0;
    while (j < count && row[2 + j] < rows)
        j++;
    if (j < count)
        return 0;
    while (j < ROOM && row[2 + j] == 0)
        j++;
    return j == ROOM;
}

uint32_t shape_of(const uint32_t *store, size_t words)
{
    if (words == 0)
        return 1;
    uint32_t rows = store[0];
    if (rows > capacity_of(words))
        return 2;
    for (uint32_t n = 0; n < rows; n++)
        if (!row_shaped(row_words(store, n), rows))
            return 2;
    return 0;
}
