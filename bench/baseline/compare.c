/* Two rows compared: both stores are checked, and both are walked in step. In a sound store each tree is one row, so rows that
 * are met together have the same tree only if neither is ever met with another. */
#include "operations.h"

static uint16_t queue[STORE_ROWS], partner[STORE_ROWS], marks[STORE_ROWS], others[STORE_ROWS];

static int met_first(uint32_t filled, uint32_t x)
{
    return marks[x] < filled && queue[marks[x]] == x;
}

static int met_second(uint32_t filled, uint32_t y)
{
    return others[y] < filled && partner[others[y]] == y;
}

/* Both rows go to the queue's end, or both are there together; otherwise 0. */
static int meet_both(uint32_t *filled, uint32_t x, uint32_t y)
{
    int first = met_first(*filled, x), second = met_second(*filled, y);
    if (first || second)
        return first && second && marks[x] == others[y];
    queue[*filled] = (uint16_t)x;
    partner[*filled] = (uint16_t)y;
    marks[x] = others[y] = (uint16_t)*filled;
    ++*filled;
    return 1;
}

/* Whether the rows have one label and count, and inputs that can be met together. */
static int visit_both(const uint32_t *a, const uint32_t *b, uint32_t *filled)
{
    if (a[0] != b[0] || a[1] != b[1])
        return 0;
    uint32_t j = 0;
    while (j < a[1] && meet_both(filled, a[2 + j], b[2 + j]))
        j++;
    return j == a[1];
}

static uint32_t same_tree(const uint32_t *first, uint32_t row, const uint32_t *second, uint32_t other)
{
    uint32_t filled = 0, k = 0;
    meet_both(&filled, row, other);
    while (k < filled && visit_both(row_words(first, queue[k]), row_words(second, partner[k]), &filled))
        k++;
    return k == filled;
}

uint32_t compare_rows(sorter *sort, const uint32_t *first, size_t words, uint32_t row,
                      const uint32_t *second, size_t more, uint32_t other, uint32_t *same)
{
    *same = 0;
    uint32_t number = check_store(sort, first, words);
    if (number == 0)
        number = check_store(sort, second, more);
    if (number != 0)
        return number;
    if (row >= first[0] || other >= second[0])
        return 9;
    *same = same_tree(first, row, second, other);
    return 0;
}
