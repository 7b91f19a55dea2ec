/* Limits and layout of stores and sheets, as the rules give them, and the numbers in their bytes. */
#ifndef LAYOUT_H
#define LAYOUT_H

#include <stddef.h>
#include <stdint.h>

enum {
    ROOM = 4,              /* inputs for which a row has room */
    ROW_WORDS = 2 + ROOM,  /* words of a store's row */
    STORE_ROWS = 1024,     /* rows a store may have */
    SHEET_ROWS = 1024,     /* rows a sheet may have */
    VIEW_ROWS = STORE_ROWS + SHEET_ROWS,
    STORE_WORDS = 1 + STORE_ROWS * ROW_WORDS,
    STORE_NUMBERS = 32768, /* inputs from here on name rows of a store: the converter alone takes them */
    SHEET_HEAD = 7,        /* bytes before a sheet's first row */
    ROW_HEAD = 5,          /* bytes of a sheet's row before its inputs */
    SHEET_BYTES = SHEET_HEAD + SHEET_ROWS * (ROW_HEAD + 2 * ROOM),
    BUNDLE_BYTES = 32768   /* bytes a bundle may have */
};

static inline uint32_t two(const uint8_t *b)
{
    return (uint32_t)b[0] << 8 | b[1];
}

static inline uint32_t four(const uint8_t *b)
{
    return two(b) << 16 | two(b + 2);
}

static inline uint8_t *put_two(uint8_t *b, uint32_t x)
{
    b[0] = (uint8_t)(x >> 8);
    b[1] = (uint8_t)x;
    return b + 2;
}

static inline uint8_t *put_four(uint8_t *b, uint32_t x)
{
    return put_two(put_two(b, x >> 16), x & 0xffff);
}

/* The words of row n of a store: label, input count, inputs. */
static inline const uint32_t *row_words(const uint32_t *store, uint32_t n)
{
    return store + 1 + n * ROW_WORDS;
}

#endif
