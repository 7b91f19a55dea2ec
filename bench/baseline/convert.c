/* An old sheet converted: the store is checked, the sheet is read by the rule of its time, the store rows that it leads to are met
 * by a queue and get places by rising number, and the sheet is written with them behind it. */
#include <string.h>

#include "operations.h"

static uint16_t queue[STORE_ROWS], places[STORE_ROWS];
static uint8_t met[STORE_ROWS];

static uint32_t meet(uint32_t filled, uint32_t x)
{
    if (met[x])
        return filled;
    met[x] = 1;
    queue[filled] = (uint16_t)x;
    return filled + 1;
}

/* 5 where the rows cannot be read; the place is the row's, or what is left over. */
static uint32_t look_at_rows(const uint8_t *sheet, size_t bytes, size_t *place)
{
    size_t at = SHEET_HEAD;
    for (uint32_t i = two(sheet + 5); i > 0; i--) {
        *place = at;
        if (bytes - at < ROW_HEAD || sheet[at + 4] > ROOM)
            return 5;
        at += ROW_HEAD + 2u * sheet[at + 4];
        if (at > bytes)
            return 5;
    }
    *place = at;
    return at == bytes ? 0 : 5;
}

/* 3, 4 or 5, and its place. */
static uint32_t look_at_sheet(const uint8_t *sheet, size_t bytes, size_t *place)
{
    *place = 0;
    if (bytes < SHEET_HEAD || four(sheet) != bytes - 4)
        return 3;
    *place = 4;
    if (sheet[4] != 1)
        return 4;
    *place = 5;
    return two(sheet + 5) > SHEET_ROWS ? 5 : look_at_rows(sheet, bytes, place);
}

/* The store rows that the sheet names are met; 6, and its place, for an input that is a row of neither. */
static uint32_t meet_named(const uint8_t *sheet, size_t bytes, uint32_t stored, uint32_t *filled, size_t *place)
{
    uint32_t rows = two(sheet + 5);
    for (size_t at = SHEET_HEAD; at < bytes; at += ROW_HEAD + 2u * sheet[at + 4])
        for (uint32_t j = 0; j < sheet[at + 4]; j++) {
            *place = at + ROW_HEAD + 2 * j;
            uint32_t input = two(sheet + *place);
            if (input < STORE_NUMBERS ? input >= rows : input - STORE_NUMBERS >= stored)
                return 6;
            if (input >= STORE_NUMBERS)
                *filled = meet(*filled, input - STORE_NUMBERS);
        }
    return 0;
}

/* The rows that they lead to. */
static void walk(const uint32_t *store, uint32_t filled)
{
    for (uint32_t k = 0; k < filled; k++) {
        const uint32_t *words = row_words(store, queue[k]);
        for (uint32_t j = 0; j < words[1]; j++)
            filled = meet(filled, words[2 + j]);
    }
}

/* The rows met get places behind the sheet's. How many rows there are then; the result needs their bytes too. */
static uint32_t give_places(const uint32_t *store, uint32_t rows, size_t *need)
{
    for (uint32_t x = 0; x < store[0]; x++)
        if (met[x]) {
            places[x] = (uint16_t)rows++;
            *need += ROW_HEAD + 2 * row_words(store, x)[1];
        }
    return rows;
}

/* The sheet's rows as they are, but for the inputs that name store rows. */
static void put_sheet_rows(const uint8_t *sheet, size_t bytes, uint8_t *out)
{
    memcpy(out, sheet, bytes);
    for (size_t at = SHEET_HEAD; at < bytes; at += ROW_HEAD + 2u * sheet[at + 4])
        for (uint32_t j = 0; j < sheet[at + 4]; j++) {
            uint32_t input = two(sheet + at + ROW_HEAD + 2 * j);
            if (input >= STORE_NUMBERS)
                put_two(out + at + ROW_HEAD + 2 * j, places[input - STORE_NUMBERS]);
        }
}

static uint8_t *put_store_row(uint8_t *at, const uint32_t *words)
{
    at = put_four(at, words[0]);
    *at++ = (uint8_t)words[1];
    for (uint32_t j = 0; j < words[1]; j++)
        at = put_two(at, places[words[2 + j]]);
    return at;
}

static void put_result(const uint32_t *store, const uint8_t *sheet, size_t bytes, uint32_t rows, size_t need, uint8_t *out)
{
    uint8_t *at = out + bytes;
    put_sheet_rows(sheet, bytes, out);
    put_four(out, (uint32_t)need - 4);
    put_two(out + 5, rows);
    for (uint32_t x = 0; x < store[0]; x++)
        if (met[x])
            at = put_store_row(at, row_words(store, x));
}

uint32_t convert_sheet(sorter *sort, const uint32_t *store, size_t words, const uint8_t *sheet, size_t bytes, uint8_t *out,
                       size_t room, size_t *written, size_t *place)
{
    *written = 0;
    *place = 0;
    uint32_t filled = 0, number = check_store(sort, store, words);
    if (number != 0)
        return number;
    memset(met, 0, store[0]);
    number = look_at_sheet(sheet, bytes, place);
    if (number == 0)
        number = meet_named(sheet, bytes, store[0], &filled, place);
    if (number != 0)
        return number;
    *place = 0;
    walk(store, filled);
    size_t need = bytes;
    uint32_t rows = give_places(store, two(sheet + 5), &need);
    if (rows > SHEET_ROWS)
        return 20;
    if (room < need)
        return 10;
    put_result(store, sheet, bytes, rows, need, out);
    *written = need;
    return 0;
}
