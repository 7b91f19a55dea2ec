#include "calls.h"

#include <chain_register.h>

#include "../baseline/operations.h"

static uint32_t check_rounds(const uint32_t *store, size_t words)
{
    return check_store(sort_by_rounds, store, words);
}

static uint32_t check_hopcroft(const uint32_t *store, size_t words)
{
    return check_store(sort_by_hopcroft, store, words);
}

/* No case looks at the place of a sheet's fault, and the baselines give none. */
static uint32_t insert_library(uint32_t *store, size_t words, const uint8_t *sheet, size_t bytes, uint32_t *answers,
                               size_t entries, uint32_t *added)
{
    size_t place;
    return chain_insert(store, words, sheet, bytes, answers, entries, added, &place);
}

static uint32_t insert_strictly(uint32_t *store, size_t words, const uint8_t *sheet, size_t bytes, uint32_t *answers,
                                size_t entries, uint32_t *added)
{
    size_t place;
    return chain_insert_strict(store, words, sheet, bytes, answers, entries, added, &place);
}

static uint32_t insert_rounds(uint32_t *store, size_t words, const uint8_t *sheet, size_t bytes, uint32_t *answers,
                              size_t entries, uint32_t *added)
{
    return insert_sheet(sort_by_rounds, store, words, sheet, bytes, answers, entries, added);
}

static uint32_t insert_hopcroft(uint32_t *store, size_t words, const uint8_t *sheet, size_t bytes, uint32_t *answers,
                                size_t entries, uint32_t *added)
{
    return insert_sheet(sort_by_hopcroft, store, words, sheet, bytes, answers, entries, added);
}

static uint32_t write_key_rounds(const uint32_t *store, size_t words, uint32_t row, uint8_t *key, size_t room,
                                 size_t *written)
{
    return write_row_key(sort_by_rounds, store, words, row, key, room, written);
}

static uint32_t write_key_hopcroft(const uint32_t *store, size_t words, uint32_t row, uint8_t *key, size_t room,
                                   size_t *written)
{
    return write_row_key(sort_by_hopcroft, store, words, row, key, room, written);
}

static uint32_t compare_rounds(const uint32_t *first, size_t words, uint32_t row, const uint32_t *second, size_t more,
                               uint32_t other, uint32_t *yes)
{
    return compare_rows(sort_by_rounds, first, words, row, second, more, other, yes);
}

static uint32_t compare_hopcroft(const uint32_t *first, size_t words, uint32_t row, const uint32_t *second, size_t more,
                                 uint32_t other, uint32_t *yes)
{
    return compare_rows(sort_by_hopcroft, first, words, row, second, more, other, yes);
}

#ifdef WITH_BEFORE
/* The older library's calls have this front instead of the library's own, so that both can be linked. One that is older than the
 * places takes an argument less, and on x86-64 does not see the last. */
uint32_t before_chain_check(const uint32_t *store, size_t words);
uint32_t before_chain_insert(uint32_t *store, size_t words, const uint8_t *sheet, size_t bytes, uint32_t *answers, size_t entries,
                             uint32_t *added, size_t *place);
uint32_t before_chain_write_key(const uint32_t *store, size_t words, uint32_t row, uint8_t *key, size_t room, size_t *written);
uint32_t before_chain_compare(const uint32_t *first, size_t words, uint32_t row, const uint32_t *second, size_t more,
                              uint32_t other, uint32_t *yes);

static uint32_t insert_before(uint32_t *store, size_t words, const uint8_t *sheet, size_t bytes, uint32_t *answers,
                              size_t entries, uint32_t *added)
{
    size_t place;
    return before_chain_insert(store, words, sheet, bytes, answers, entries, added, &place);
}

const int kinds = BEFORE + 1;
#else
const int kinds = BEFORE;
#endif

const struct calls inserts_of[BOTH] = {
    {chain_check, insert_library, chain_write_key, chain_compare},
    {chain_check, insert_strictly, chain_write_key, chain_compare},
};

const struct calls calls_of[MOST_KINDS] = {
    {chain_check, insert_library, chain_write_key, chain_compare},
    {check_rounds, insert_rounds, write_key_rounds, compare_rounds},
    {check_hopcroft, insert_hopcroft, write_key_hopcroft, compare_hopcroft},
#ifdef WITH_BEFORE
    {before_chain_check, insert_before, before_chain_write_key, before_chain_compare},
#endif
};
