#include "chain_register.h"
#include <stdio.h>

/* Read from a logger: six rows. */
static uint32_t store[] = {6,
    458752, 1, 2, 0, 0, 0,      /* 0: a wire to row 2 */
    65537, 0, 0, 0, 0, 0,       /* 1: channel 1 */
    131112, 0, 0, 0, 0, 0,      /* 2: constant 40 */
    196608, 2, 1, 0, 0, 0,      /* 3: row 1 less row 0, along the wire */
    196608, 2, 1, 2, 7, 0,      /* 4: row 1 less row 2, with a word set that is not used */
    393216, 1, 90, 0, 0, 0};    /* 5: a hold of row 90, and there is none */

int main(void)
{
    const uint32_t readings[] = {1, 3, 4, 5};
    const size_t words = sizeof store / sizeof store[0];
    uint32_t list[CHAIN_MOST_ROWS], dropped, wires, merged, cleared;
    uint32_t number = chain_mend(store, words, list, CHAIN_MOST_ROWS, &dropped, &wires, &merged, &cleared);

    if (number != CHAIN_DONE) {
        printf("mend refused: %u, %s\n", number, chain_message(number));
        return 1;
    }
    printf("%u kept, %u dropped, %u wires, %u merged, %u cleared\n", store[0], dropped, wires, merged, cleared);
    for (size_t i = 0; i < sizeof readings / sizeof readings[0]; i++) {
        if (list[readings[i]] == CHAIN_DROPPED)
            printf("a reading of chain %u: its chain is lost\n", readings[i]);
        else
            printf("a reading of chain %u: now chain %u\n", readings[i], list[readings[i]]);
    }
    return 0;
}
