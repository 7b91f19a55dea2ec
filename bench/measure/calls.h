/* The operations that are measured, three times: the library's, rounds in C, Hopcroft's sorting in C. An older library can be
 * measured beside them. */
#ifndef CALLS_H
#define CALLS_H

#include <stddef.h>
#include <stdint.h>

struct calls {
    uint32_t (*check)(const uint32_t *store, size_t words);
    uint32_t (*insert)(uint32_t *store, size_t words, const uint8_t *sheet, size_t bytes, uint32_t *answers, size_t entries,
                       uint32_t *added);
    uint32_t (*write_key)(const uint32_t *store, size_t words, uint32_t row, uint8_t *key, size_t room, size_t *written);
    uint32_t (*compare)(const uint32_t *first, size_t words, uint32_t row, const uint32_t *second, size_t more, uint32_t other,
                        uint32_t *yes);
};

/* The library's inserts: the plain one, and the strict one in its place. */
enum { PLAIN, STRICT, BOTH };

extern const struct calls inserts_of[BOTH];

enum { LIBRARY, ROUNDS, HOPCROFT, BEFORE, MOST_KINDS };

extern const struct calls calls_of[MOST_KINDS];

/* How many kinds there are in this run: without an older library the last is left out. */
extern const int kinds;

#endif
