#include "chain_register.h"
#include <stdio.h>

static uint32_t store[CHAIN_MOST_WORDS];

int main(void)
{
    /* A hold that feeds itself, drawn in two turns. Both rows have one tree, so one row is added. */
    const uint8_t sheet[] = {0, 0, 0, 17, 1, 0, 2, 0, 6, 0, 0, 1, 0, 1, 0, 6, 0, 0, 1, 0, 0};
    /* The same with a mistake: the second row's input is row 2, and there is none. */
    const uint8_t mistaken[] = {0, 0, 0, 17, 1, 0, 2, 0, 6, 0, 0, 1, 0, 1, 0, 6, 0, 0, 1, 0, 2};
    uint8_t key[CHAIN_MOST_KEY_BYTES];
    uint32_t answers[2], added, number;
    size_t written, place;

    if (chain_insert(store, CHAIN_MOST_WORDS, sheet, sizeof sheet, answers, 2, &added, &place) != CHAIN_DONE)
        return 1;
    if (chain_write_key(store, CHAIN_MOST_WORDS, answers[0], key, sizeof key, &written) != CHAIN_DONE)
        return 1;
    printf("rows %u and %u, %u added, a key of %zu bytes\n", answers[0], answers[1], added, written);

    number = chain_insert(store, CHAIN_MOST_WORDS, mistaken, sizeof mistaken, answers, 2, &added, &place);
    if (number >= CHAIN_WRONG_LENGTH && number <= CHAIN_POINTS_NOWHERE)
        printf("insert refused: %u, %s, at byte %zu\n", number, chain_message(number), place);
    return 0;
}
