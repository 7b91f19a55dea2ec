#include "sheet.h"

/* The place past the row at a place, or 0 if it cannot be read. */
static size_t past_row(const uint8_t *sheet, size_t bytes, size_t at)
{
    if (bytes - at < ROW_HEAD)
        return 0;
    uint32_t count = sheet[at + 4];
    size_t past = at + ROW_HEAD + 2 * count;
    return count <= ROOM && past <= bytes ? past : 0;
}

static uint32_t find_places(const uint8_t *sheet, size_t bytes, uint32_t rows, uint16_t *places)
{
    size_t at = SHEET_HEAD;
    for (uint32_t i = 0; i < rows; i++) {
        places[i] = (uint16_t)at;
        at = past_row(sheet, bytes, at);
        if (at == 0)
            return 5;
    }
    return at == bytes ? 0 : 5;
}

/* 19 for an input that names a row of a store, wherever it stands; else 6 for one that is no row of the sheet. */
static uint32_t look_at_inputs(const uint8_t *sheet, uint32_t rows, const uint16_t *places)
{
    uint32_t number = 0;
    for (uint32_t i = 0; i < rows; i++) {
        const uint8_t *row = sheet + places[i];
        for (uint32_t j = 0; j < row[4]; j++) {
            uint32_t input = two(row + ROW_HEAD + 2 * j);
            if (input >= STORE_NUMBERS)
                return 19;
            if (input >= rows)
                number = 6;
        }
    }
    return number;
}

uint32_t read_sheet(const uint8_t *sheet, size_t bytes, uint16_t *places, uint32_t *rows)
{
    if (bytes < SHEET_HEAD || four(sheet) != bytes - 4)
        return 3;
    if (sheet[4] != 1)
        return 4;
    *rows = two(sheet + 5);
    if (*rows > SHEET_ROWS)
        return 5;
    uint32_t number = find_places(sheet, bytes, *rows, places);
    return number != 0 ? number : look_at_inputs(sheet, *rows, places);
}

size_t next_sheet(const uint8_t *bundle, size_t bytes)
{
    if (bytes < 4)
        return 0;
    size_t whole = 4 + (size_t)four(bundle);
    return whole <= bytes ? whole : 0;
}
