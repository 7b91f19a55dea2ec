/* The register's operations in C, with whichever sorting is handed in. Numbers and lent memory are as the rules say. */
#ifndef OPERATIONS_H
#define OPERATIONS_H

#include "sort.h"

uint32_t check_store(sorter *sort, const uint32_t *store, size_t words);

uint32_t insert_sheet(sorter *sort, uint32_t *store, size_t words, const uint8_t *sheet, size_t bytes,
                      uint32_t *answers, size_t entries, uint32_t *added);

/* The same for a store that is known to be sound: its shape is not looked at, and no rows are sorted for a sheet without any. */
uint32_t insert_into_sound(sorter *sort, uint32_t *store, size_t words, const uint8_t *sheet, size_t bytes,
                           uint32_t *answers, size_t entries, uint32_t *added);

uint32_t write_row_key(sorter *sort, const uint32_t *store, size_t words, uint32_t row,
                       uint8_t *key, size_t bytes, size_t *written);

uint32_t compare_rows(sorter *sort, const uint32_t *first, size_t words, uint32_t row,
                      const uint32_t *second, size_t more, uint32_t other, uint32_t *same);

/* No store and no sheet that these are given has a wire. */
uint32_t convert_sheet(sorter *sort, const uint32_t *store, size_t words, const uint8_t *sheet, size_t bytes, uint8_t *out,
                       size_t room, size_t *written, size_t *place);

uint32_t run_counts(sorter *sort, const uint32_t *store, size_t words, uint32_t row, uint32_t channels,
                    const int32_t *values, size_t count, int32_t *output, size_t room);

#endif
