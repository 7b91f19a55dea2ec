/* A store is checked by its shape and by sorting its rows: each must be alone in its class. */
#include "operations.h"
#include "shape.h"

uint32_t check_store(sorter *sort, const uint32_t *store, size_t words)
{
    uint16_t classes[STORE_ROWS];
    uint32_t number = shape_of(store, words);
    if (number != 0)
        return number;
    struct view v = {store, store[0], NULL, NULL, store[0]};
    sort(&v, classes);
    for (uint32_t u = 0; u < v.rows; u++)
        if (classes[u] != u)
            return 2;
    return 0;
}
